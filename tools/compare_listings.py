#!/usr/bin/env python3
"""Compares the listings of two programs, the other author's and another one:

    mkdir -p target
    rustc -O --edition 2021 reference/reference.rs -o target/reference
    tools/compare_listings.py target/reference crates/listing/out/listing [COUNT [SEED]]

The first is asked as `REFERENCE list`, and as `REFERENCE tape SEED` for random
tapes; the second is run as it stands, and may have arguments of its own, as in
"target/reference list". Both read each input from a pipe. An input agrees
where both write the same, nothing to standard error, and end with exit
status 0. The inputs are a fixed list of edges and then COUNT random ones
(3000), which are the same for the same SEED (1).

Of the first twenty inputs that do not agree each is written into a file in
target/differing, and the first line that differs is shown of both listings.
The last line is `compared N agree N differ D`; the exit status is 0 only where
none differs, and the second program reads no more than one byte past the
65,536 of a much longer input.
"""
import itertools
import multiprocessing
import os
import pathlib
import random
import shlex
import shutil
import subprocess
import sys
import tempfile
from collections import Counter

COMMANDS = NONCE, SEALED, OPEN, PART, BREAK, TAG = b"NSOPBT"
WIDTHS = {NONCE: 6, SEALED: 2, OPEN: 2, PART: 4, BREAK: 0, TAG: 16}
WORDS = (SEALED, OPEN, PART)
MIXED = b"NSSSSSSOOPPPBT"
ALL, NONE = b"\xff\xff", b"\x00\x00"
EXAMPLE = bytes.fromhex("01 00 42 53 34 12 4f 05 00 53 01")

TAKEN = 65536
SIZES = [TAKEN - 1, TAKEN, TAKEN + 1, TAKEN + 2, 2 * TAKEN, 1_000_000]
LONGEST_KEY = 16

WAIT = 120
SHOWN = 20
DIFFERING = pathlib.Path(__file__).resolve().parent.parent / "target" / "differing"


# Commands, and whole inputs

def operands(rng, width):
    """Operands: any bytes, or bytes that are commands themselves, or all alike."""
    sort = rng.randrange(8)
    if sort == 0:
        return bytes(rng.choice(COMMANDS) for _ in range(width))
    if sort == 1:
        return bytes([rng.choice([0x00, 0xFF, 0x01, 0x80])]) * width
    return rng.randbytes(width)


def a_command(rng, byte=None):
    byte = rng.choice(MIXED) if byte is None else byte
    return bytes([byte]) + operands(rng, WIDTHS[byte])


def part(rng, mask):
    return bytes([PART]) + mask + rng.randbytes(2)


def sealed_run(rng, length):
    """Words that are sealed, some of them by their masks alone."""
    return b"".join(part(rng, ALL) if rng.randrange(6) == 0 else a_command(rng, SEALED) for _ in range(length))


def exactly(rng, room, bytes_=MIXED):
    """Whole commands, begun by these bytes, that fill a tape of this length; breaks where nothing else fits."""
    pieces = []
    while room:
        piece = a_command(rng, rng.choice([b for b in bytes_ if WIDTHS[b] < room] or [BREAK]))
        pieces.append(piece)
        room -= len(piece)
    return b"".join(pieces)


def a_key(rng):
    length = rng.choice([1, 16, rng.randint(1, LONGEST_KEY)])
    return bytes([length]) + rng.randbytes(length)


def an_end(rng):
    """How a tape ends: with a whole command, a byte that is none's, or one cut off."""
    sort = rng.randrange(4)
    if sort == 0:
        return bytes([rng.randrange(256)]) + rng.randbytes(rng.randrange(20))
    if sort == 1:
        piece = a_command(rng)
        return piece[:rng.randint(1, len(piece))]
    return b""


# The other author's tapes, taken apart

class Tape:
    """An input whose key loads: its key with its length, its whole commands, and what is left."""

    def __init__(self, key, commands, rest):
        self.key, self.commands, self.rest = key, commands, rest

    @staticmethod
    def of(data):
        if not data or not 1 <= data[0] <= LONGEST_KEY or len(data) <= data[0]:
            return None
        key, tape = data[:1 + data[0]], data[1 + data[0]:]
        commands = []
        while tape and tape[0] in WIDTHS and len(tape) > WIDTHS[tape[0]]:
            size = 1 + WIDTHS[tape[0]]
            commands.append(tape[:size])
            tape = tape[size:]
        return Tape(key, commands, tape)

    def bytes(self):
        return self.key + b"".join(self.commands) + self.rest

    def some(self, rng, which):
        """The number of one of these commands."""
        return rng.choice([i for i, c in enumerate(self.commands) if c[0] in which])


def other_tape(rng):
    return subprocess.run(shlex.split(REFERENCE) + ["tape", str(rng.getrandbits(32))], capture_output=True, check=True).stdout


def good(rng, which=WORDS, length=20_000):
    """A tape of the other author's that has one of these commands."""
    while True:
        data = other_tape(rng)
        tape = Tape.of(data)
        if tape and len(data) <= length and any(c[0] in which for c in tape.commands):
            return tape


# The edges

def edges():
    rng = random.Random("edges")
    yield "edge: the example", EXAMPLE
    yield "edge: no input, or N alone", b""
    for n in range(256):
        yield "edge: no input, or N alone", bytes([n])
    for n in (0, 1, 2, 15, 16, 17, 18, 255):
        key = rng.randbytes(n)
        for behind in (b"", b"B", sealed_run(rng, 18), bytes(300)):
            yield "edge: lengths of keys", bytes([n]) + key + behind
        for short in sorted({0, 1, n // 2, n - 1} & set(range(n))):
            yield "edge: lengths of keys", bytes([n]) + key[:short]
    for b in range(256):
        yield "edge: each byte as a command", bytes([1, 7, b])
        yield "edge: each byte as a command", bytes([1, 7, BREAK, b]) + rng.randbytes(16)
    for byte, before in itertools.product(WIDTHS, (b"", b"B", sealed_run(rng, 18))):
        piece = a_command(rng, byte)
        for kept in range(len(piece) + 1):
            yield "edge: each command cut off", bytes([1, 7]) + before + piece[:kept]
    for size, n in itertools.product(SIZES, (1, 16, 0, 17, 255)):
        front = bytes([n]) + rng.randbytes(n)
        yield "edge: sizes of inputs", front + bytes([BREAK]) * (size - len(front))
        yield "edge: sizes of inputs", front + exactly(rng, min(size, TAKEN + 2) - len(front), b"S") + bytes(max(0, size - TAKEN - 2))


# The kinds of random inputs, each with its share

KINDS = []


def kind(name, share):
    def note(make):
        KINDS.extend([(name, make)] * share)
        return make
    return note


@kind("tapes of the other author", 12)
def _(rng):
    return other_tape(rng)


@kind("random bytes", 2)
def _(rng):
    return rng.randbytes(rng.choice([rng.randrange(20), rng.randrange(400)]))


@kind("random bytes behind a key", 2)
def _(rng):
    return a_key(rng) + rng.randbytes(rng.randrange(60))


@kind("bytes of commands behind a key", 2)
def _(rng):
    return a_key(rng) + bytes(rng.choice(COMMANDS) if rng.randrange(40) else rng.randrange(256) for _ in range(rng.randrange(400)))


@kind("random commands", 6)
def _(rng):
    return a_key(rng) + b"".join(a_command(rng) for _ in range(rng.randrange(150))) + an_end(rng)


@kind("lengths of keys", 3)
def _(rng):
    n = rng.choice([0, 1, 16, 17, 255, rng.randrange(256)])
    there = rng.choice([n, rng.randrange(n + 1), rng.randrange(n + 1)])
    behind = b"" if there < n else rng.choice([b"", bytes([BREAK]), sealed_run(rng, rng.randrange(30)), rng.randbytes(rng.randrange(300))])
    return bytes([n]) + rng.randbytes(there) + behind


@kind("sizes of inputs", 2)
def _(rng):
    size = rng.choice([TAKEN - 1, TAKEN, TAKEN, TAKEN + 1, TAKEN + 1, rng.randint(TAKEN - 20, TAKEN + 20), rng.randint(TAKEN, 400_000)])
    n = rng.choice([rng.randint(1, LONGEST_KEY)] * 3 + [0, 17, 255, rng.randrange(256)])
    front = bytes([n]) + rng.randbytes(n)
    end = an_end(rng)
    tape = exactly(rng, min(size, TAKEN + 20) - len(front) - len(end), rng.choice([MIXED, b"SSSSSSSSSSSSB", b"P", b"T", b"NST"])) + end
    return front + tape + rng.randbytes(size - len(front) - len(tape))


@kind("rows after breaks", 5)
def _(rng):
    tape = []
    for _ in range(rng.randint(1, 12)):
        tape.append(rng.choice([b"", a_command(rng, BREAK), a_command(rng, BREAK), a_command(rng, TAG), a_command(rng, OPEN), part(rng, NONE)]))
        tape.append(sealed_run(rng, rng.choice([1, 15, 16, 17, 18, 19, rng.randrange(40)])))
        if rng.randrange(4) == 0:
            tape.append(a_command(rng, NONCE))
    return a_key(rng) + b"".join(tape) + an_end(rng)


@kind("part words with each mask through a loss", 4)
def _(rng):
    near = [b"\xfe\xff", b"\xff\xfe", b"\x01\x00", b"\x00\x01", b"\xff\x7f", b"\xff\x00", b"\x00\xff", b"\xff\x0f"]
    tape = [rng.choice([b"", a_command(rng, NONCE)])]
    for _ in range(rng.randint(1, 5)):
        tape.append(b"".join(part(rng, rng.choice([ALL, NONE])) for _ in range(rng.randrange(8))))
        tape.append(rng.choice([a_command(rng, BREAK), a_command(rng, BREAK), a_command(rng, TAG), b""]))
        often = rng.choice([3, 10, 40, 1000])
        for _ in range(rng.choice([17, 18, 20, rng.randrange(60)])):
            tape.append(part(rng, ALL) if rng.randrange(often) else part(rng, rng.choice([NONE] + near)))
        tape.append(rng.choice([b"", a_command(rng, SEALED), a_command(rng, OPEN)]))
    return a_key(rng) + b"".join(tape) + an_end(rng)


@kind("good tapes, words respelled as part words", 3)
def _(rng):
    tape = good(rng, (SEALED, OPEN))
    often = rng.choice([1, 2, 8])
    masks = {SEALED: ALL, OPEN: NONE}
    tape.commands = [bytes([PART]) + masks[c[0]] + c[1:] if c[0] in masks and rng.randrange(often) == 0 else c for c in tape.commands]
    if rng.randrange(3) == 0:
        tape.commands.insert(rng.randint(0, len(tape.commands)), bytes([BREAK]))
    return tape.bytes()


@kind("places of one to five digits", 3)
def _(rng):
    place = rng.choice([9, 10, 99, 100, 999, 1000, 9999, 10_000, rng.randint(10_000, 65_000), rng.randint(0, 200)]) + rng.randint(-2, 1)
    return a_key(rng) + exactly(rng, max(place, 0)) + rng.choice([b"", a_command(rng), an_end(rng)])


@kind("damage: a byte flipped", 2)
def _(rng):
    data = bytearray(good(rng).bytes())
    data[rng.randrange(len(data))] ^= rng.choice([1 << rng.randrange(8), rng.randint(1, 255)])
    return bytes(data)


@kind("damage: a byte inserted", 2)
def _(rng):
    data = good(rng).bytes()
    at = rng.randint(0, len(data))
    return data[:at] + bytes([rng.choice([rng.randrange(256), rng.choice(COMMANDS)])]) + data[at:]


@kind("damage: a byte dropped", 2)
def _(rng):
    data = good(rng).bytes()
    at = rng.randrange(len(data))
    return data[:at] + data[at + 1:]


@kind("damage: cut anywhere", 3)
def _(rng):
    data = good(rng).bytes()
    return data[:rng.randrange(len(data))]


@kind("damage: two tapes joined", 2)
def _(rng):
    first, second = good(rng), good(rng)
    if rng.randrange(3):
        first.rest = b""
    return first.bytes() + second.bytes()[rng.choice([0, len(second.key)]):]


def one_bit_turned(rng, command, size):
    """A good tape, with one bit of the operands of such a command another."""
    tape = good(rng, (command,))
    at = tape.some(rng, (command,))
    altered = bytearray(tape.commands[at])
    altered[rng.randint(1, size)] ^= 1 << rng.randrange(8)
    tape.commands[at] = bytes(altered)
    return tape.bytes()


@kind("damage: a tag altered", 2)
def _(rng):
    return one_bit_turned(rng, TAG, 16)


@kind("damage: a word altered", 2)
def _(rng):
    tape = good(rng, WORDS)
    at = tape.some(rng, WORDS)
    word = bytearray(tape.commands[at])
    word[rng.choice([-1, -2])] ^= rng.choice([1 << rng.randrange(8), rng.randint(1, 255)])
    tape.commands[at] = bytes(word)
    return tape.bytes()


@kind("damage: a mask altered", 2)
def _(rng):
    tape = good(rng, WORDS)
    at = tape.some(rng, WORDS)
    mask = rng.choice([ALL, NONE, rng.randbytes(2)])
    tape.commands[at] = rng.choice([bytes([SEALED]), bytes([OPEN]), bytes([PART]) + mask, bytes([PART]) + mask]) + tape.commands[at][-2:]
    return tape.bytes()


@kind("damage: a nonce altered", 1)
def _(rng):
    return one_bit_turned(rng, NONCE, 6)


@kind("damage: the key altered", 1)
def _(rng):
    tape = good(rng)
    key = bytearray(tape.key)
    key[rng.randrange(1, len(key))] ^= 1 << rng.randrange(8)
    tape.key = bytes(key)
    return tape.bytes()


@kind("damage: a command byte changed to a near one", 3)
def _(rng):
    tape = good(rng)
    at = rng.randrange(len(tape.commands))
    byte = tape.commands[at][0]
    near = [byte - 1, byte + 1, byte ^ 0x20, byte ^ 0x80, byte ^ 1 << rng.randrange(8), rng.choice(COMMANDS)]
    tape.commands[at] = bytes([rng.choice(near)]) + tape.commands[at][1:]
    return tape.bytes()


@kind("damage: commands dropped, doubled or exchanged", 2)
def _(rng):
    tape = good(rng)
    at, other = rng.randrange(len(tape.commands)), rng.randrange(len(tape.commands))
    sort = rng.randrange(3)
    if sort == 0:
        del tape.commands[at:at + rng.randint(1, 4)]
    elif sort == 1:
        tape.commands.insert(other, tape.commands[at])
    else:
        tape.commands[at], tape.commands[other] = tape.commands[other], tape.commands[at]
    return tape.bytes()


@kind("damage: breaks inserted, words dropped with them or not", 3)
def _(rng):
    tape = good(rng)
    for _ in range(rng.randint(1, 3)):
        at = rng.randint(0, len(tape.commands))
        tape.commands[at:at + rng.choice([0, rng.randrange(6)])] = [bytes([BREAK])]
    return tape.bytes()


@kind("damage: several bytes", 2)
def _(rng):
    data = bytearray(good(rng).bytes())
    for _ in range(rng.randint(2, 6)):
        at = rng.randrange(len(data))
        data[at:at + rng.randrange(3)] = rng.randbytes(rng.randrange(3)) or data[at:at + 1]
    return bytes(data)


# Comparing

EDGES = list(edges())


def settle(reference, listing, seed):
    global REFERENCE, LISTING, SEED
    REFERENCE, LISTING, SEED = reference, listing, seed


def an_input(number):
    """The input with this number, and its kind."""
    if number < len(EDGES):
        return EDGES[number]
    number -= len(EDGES)
    name, make = KINDS[number % len(KINDS)]
    return name, make(random.Random(f"{SEED} {number}"))


def outcome(command, data):
    """What a program writes, and how else it ends than well."""
    try:
        done = subprocess.run(command, input=data, capture_output=True, timeout=WAIT)
    except subprocess.TimeoutExpired:
        return b"", f"no end within {WAIT} seconds"
    if done.returncode != 0 or done.stderr:
        return done.stdout, f"exit status {done.returncode}, on standard error: {shown(done.stderr)}"
    return done.stdout, None


def shown(line):
    return ascii(line[:200].decode("utf-8", "backslashreplace"))


def first_difference(left, right):
    pairs = itertools.zip_longest(left.splitlines(keepends=True), right.splitlines(keepends=True))
    for number, (one, other) in enumerate(pairs, 1):
        if one != other:
            return [f"  line {number}"] + [f"  {who} {'has no such line' if line is None else shown(line)}"
                                           for who, line in (("reference:", one), ("listing:  ", other))]
    return ["  no line differs"]


def held(text):
    """What a listing holds, each answer with its number of lines, and the digits of its places."""
    counts = Counter()
    for line in text.decode("ascii", "backslashreplace").split("\n")[:-1]:
        fields = line.split(" ")
        if fields[0] in ("end", "refused"):
            counts["end" if fields[0] == "end" else " ".join(fields[:2])] += 1
        else:
            counts[" ".join(fields[1:3]) if fields[1] == "withheld" else fields[1]] += 1
            counts[f"{len(fields[0])}-digit places"] += 1
    return counts


def compare(number):
    name, data = an_input(number)
    left, ill_left = outcome(shlex.split(REFERENCE) + ["list"], data)
    right, ill_right = outcome(shlex.split(LISTING), data)
    if left == right and not ill_left and not ill_right:
        return name, data, held(left), None
    report = first_difference(left, right)
    report += [f"  {who} {ill}" for who, ill in (("reference:", ill_left), ("listing:  ", ill_right)) if ill]
    return name, data, Counter(), report


def kept(number, seed, data):
    """The file that an input was written into."""
    DIFFERING.mkdir(parents=True, exist_ok=True)
    path = DIFFERING / f"seed-{seed}-input-{number}"
    path.write_bytes(data)
    return path


def read_of(listing, size):
    """How many bytes of a file of this size a program reads."""
    with tempfile.TemporaryFile() as file:
        file.write(bytes([1]) * size)
        file.seek(0)
        subprocess.run(shlex.split(listing), stdin=file, stdout=subprocess.DEVNULL, timeout=WAIT)
        return os.lseek(file.fileno(), 0, os.SEEK_CUR)


def in_order(key):
    word, _, number = key.rpartition(" ")
    return (word, int(number)) if number.isdigit() else (key, 0)


def main():
    if not 3 <= len(sys.argv) <= 5:
        sys.exit(__doc__)
    reference, listing = sys.argv[1:3]
    count = int(sys.argv[3]) if len(sys.argv) > 3 else 3000
    seed = int(sys.argv[4]) if len(sys.argv) > 4 else 1
    for command in (reference, listing):
        if not shlex.split(command) or not shutil.which(shlex.split(command)[0]):
            sys.exit(f"no such program: {command}")
    names = list(dict.fromkeys(name for name, _ in EDGES + KINDS))
    compared, agree, counts = Counter(), Counter(), Counter()
    differ = 0
    with multiprocessing.Pool(os.cpu_count(), settle, (reference, listing, seed)) as pool:
        for number, (name, data, found, report) in enumerate(pool.imap(compare, range(len(EDGES) + count), chunksize=4)):
            compared[name] += 1
            counts += found
            if report is None:
                agree[name] += 1
                continue
            differ += 1
            if differ <= SHOWN:
                print("\n".join([f"{name}: {len(data)} bytes, written into {kept(number, seed, data)}"] + report))
    width = max(map(len, names))
    print(f"{'':{width}}  compared  agree")
    for name in names:
        print(f"{name:{width}}  {compared[name]:8}  {agree[name]:5}")
    print("lines of the listings that agree: " + ", ".join(f"{key} {counts[key]}" for key in sorted(counts, key=in_order)))
    read = read_of(listing, 1_000_000)
    print(f"of an input of 1000000 bytes the listing reads {read}")
    print(f"compared {compared.total()} agree {agree.total()} differ {differ}")
    sys.exit(1 if differ or read > TAKEN + 1 else 0)


if __name__ == "__main__":
    main()
