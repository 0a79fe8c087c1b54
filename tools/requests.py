#!/usr/bin/env python3
"""Makes the requests that `requests` is run on, works out what it must print for them, and compares what it prints for thousands of others.

    mkdir -p target
    rustc -O --edition 2021 reference/reference.rs -o target/reference
    tools/requests.py make target/reference > crates/requests/stdin
    tools/requests.py expect target/reference < crates/requests/stdin > crates/requests/stdout
    tools/requests.py compare target/reference crates/requests/out/requests 60

What is sealed and opened, and what is refused, is the other author's program's word alone; what is no request, and the counts, are worked out
here. No expected line comes from the output of `requests`.
"""
import re
import subprocess
import sys

SEED = 20260
MOST = 1_000_000
NO_DIGITS = "no digits, where an empty field is written -"
ODD_DIGITS = "an odd number of digits"
NOT_A_DIGIT = "a digit that is not hex"
NO_NONCE = "not six bytes in hex, two digits a byte"
NO_LENGTH = "not a number from 0 to 1000000"


class Numbers:
    """Numbers that look drawn by chance, the same in every run: splitmix64."""

    def __init__(self, seed):
        self.state = seed

    def below(self, limit):
        self.state = (self.state + 0x9E3779B97F4A7C15) % 2**64
        z = self.state
        z = (z ^ z >> 30) * 0xBF58476D1CE4E5B9 % 2**64
        z = (z ^ z >> 27) * 0x94D049BB133111EB % 2**64
        return (z ^ z >> 31) % limit

    def bytes(self, count):
        return bytes(self.below(256) for _ in range(count))

    def masks(self, words, style):
        """Masks of one style: sealed, open, part, or all three by turns of chance."""
        chosen = bytearray()
        for _ in range(words):
            kind = style if style < 3 else self.below(3)
            mask = 0xFFFF if kind == 0 else 0 if kind == 1 else 1 + self.below(0xFFFE)
            chosen += mask.to_bytes(2, "little")
        return bytes(chosen)

    def flipped(self, data):
        """The bytes with one bit turned."""
        changed = bytearray(data)
        bit = self.below(8 * len(data))
        changed[bit // 8] ^= 1 << bit % 8
        return bytes(changed)


def text(data):
    return data.hex() or "-"


def answers(reference, command, requests):
    """The other program's answers to requests, one a line."""
    given = "".join(request + "\n" for request in requests)
    done = subprocess.run([reference, command], input=given, capture_output=True, text=True, check=True)
    lines = done.stdout.split("\n")[:-1]
    if len(lines) != len(requests):
        sys.exit(f"{command}: {len(requests)} requests, {len(lines)} answers")
    return lines


# Making requests.


def seal(key, nonce, masks, plain, room, tag_room=16):
    return f"seal {text(key)} {text(nonce)} {text(masks)} {text(plain)} {room} {tag_room}"


def unseal(key, nonce, masks, wire, tag, room):
    return f"open {text(key)} {text(nonce)} {text(masks)} {text(wire)} {text(tag)} {room}"


class Message:
    """A message as the other program sealed it."""

    def __init__(self, reference, numbers, place, words, nonce_length):
        self.key = numbers.bytes(1 + place % 16)
        self.nonce = numbers.bytes(nonce_length)
        self.masks = numbers.masks(words, place % 4)
        self.plain = numbers.bytes(2 * words)
        asked = " ".join(text(field) for field in (self.key, self.nonce, self.masks, self.plain))
        (answer,) = answers(reference, "seal", [asked])
        said, wire, tag = answer.split(" ")
        if said != "sealed":
            sys.exit(f"not sealed: {asked}: {answer}")
        self.wire = b"" if wire == "-" else bytes.fromhex(wire)
        self.tag = bytes.fromhex(tag)

    def seal(self, **other):
        fields = {"key": self.key, "nonce": self.nonce, "masks": self.masks, "plain": self.plain, "room": len(self.plain)}
        return seal(**{**fields, **other})

    def unseal(self, **other):
        fields = {"key": self.key, "nonce": self.nonce, "masks": self.masks, "wire": self.wire, "tag": self.tag, "room": len(self.wire)}
        return unseal(**{**fields, **other})


def lengths(numbers, count):
    """Numbers of words: the edges first, then mostly few and now and then many, up to 200."""
    edges = [0, 1, 2, 16, 17, 18, 34, 200]
    return [edges[i] if i < len(edges) else numbers.below(200 if i % 8 == 0 else 40) for i in range(count)]


def both_ways(reference, numbers):
    """Messages of an issuer's nonces, sealed and opened, with outputs as long as the input and longer."""
    for place, words in enumerate(lengths(numbers, 40)):
        message = Message(reference, numbers, place, words, 6)
        longer = 2 * words + numbers.below(9) * (place % 2)
        yield message.seal(room=longer)
        yield message.unseal(room=longer)


def edge_nonces(reference, numbers):
    """The first and the last run and message numbers; and digits of upper case."""
    message = Message(reference, numbers, 3, 5, 6)
    for nonce in ("000000000000", "ffffffffffff", "ffffffff0000", "00000000ffff", "0100000000ff"):
        yield message.seal(nonce=bytes.fromhex(nonce))
    yield message.seal().upper().replace("SEAL", "seal")


def other_nonces(reference, numbers):
    """Messages opened whose nonces no issuer makes."""
    for place, words in enumerate(lengths(numbers, 18)):
        message = Message(reference, numbers, place, words, (0, 32, 2 * numbers.below(17))[place % 3])
        yield message.unseal(room=2 * words + place % 4)


def altered(reference, numbers):
    """Openings of which one bit of the tag, the wire words, the masks, the nonce or the key is another."""
    for place in range(24):
        message = Message(reference, numbers, place, 1 + numbers.below(30), 6)
        field = ("tag", "wire", "masks", "nonce", "key")[place % 5]
        yield message.unseal(**{field: numbers.flipped(getattr(message, field))}, room=len(message.wire) + place % 3)
    message = Message(reference, numbers, 5, 0, 6)
    yield message.unseal(tag=numbers.flipped(message.tag), room=3)


def refused(reference, numbers):
    """Refusals one by one, and each with each that comes after it."""
    for round in range(4):
        words = 2 + numbers.below(12)
        message = Message(reference, numbers, 4 * round + 2, words, 6)
        short = numbers.below(2 * words)
        keys = [{"key": b""}, {"key": numbers.bytes(17)}, {"key": numbers.bytes(18 + round)}]
        nonces = [{"nonce": numbers.bytes(3 + 2 * round)}, {"nonce": numbers.bytes(34 + 2 * round)}]
        masks = [{"masks": message.masks[:-2]}, {"masks": message.masks + b"\xff"}, {"masks": b""}]
        rooms = [{"room": short}, {"room": 0}]
        tag_rooms = [{"tag_room": 15}, {"tag_room": 17}, {"tag_room": 0}]
        tags = [{"tag": message.tag[:-1]}, {"tag": message.tag + b"\x00"}, {"tag": b""}, {"tag": bytes(16)}]
        yield from checked(message.seal, [keys, [{"plain": message.plain + b"\x07", "masks": message.masks + b"\x00", "room": len(message.plain) + 1}], masks, rooms, tag_rooms], round)
        yield from checked(message.unseal, [keys, nonces, [{"wire": message.wire + b"\x07", "masks": message.masks + b"\x00", "room": len(message.wire) + 1}], masks, rooms, tags], round)


def checked(call, faults, round):
    """A call with a fault of each kind alone, and of each two kinds at once."""
    pick = [kind[round % len(kind)] for kind in faults]
    for place, first in enumerate(pick):
        yield call(**first)
        for second in pick[place + 1 :]:
            yield call(**{**first, **second})


def no_requests(reference, numbers):
    message = Message(reference, numbers, 6, 3, 6)
    whole = message.unseal()
    yield "# a line that is no request"
    yield ""
    yield "shut" + whole[4:]
    yield whole[:-2]
    yield whole + " "
    yield "open  " + whole[5:-2]
    yield message.seal(room=MOST + 1)
    yield message.seal(room="six")
    yield message.seal(nonce=message.nonce[:5])
    yield message.unseal().replace(text(message.tag), text(message.tag)[:-1])
    yield message.seal().replace(text(message.masks), "xx" + text(message.masks)[2:])


def longest(reference, numbers):
    """The longest message and the first that is too long, opened with the right tag and with another."""
    message = Message(reference, numbers, 4, 65536, 6)
    yield message.seal()
    yield message.unseal(room=131075)
    yield message.unseal(tag=numbers.flipped(message.tag))
    yield message.seal(masks=message.masks + bytes(2), plain=message.plain + bytes(2), room=131074)


def spoilt(reference, numbers):
    """Requests of which one character is another, or is missing."""
    for place in range(40):
        message = Message(reference, numbers, place, numbers.below(6), 6)
        line = message.seal() if place % 2 else message.unseal()
        at = numbers.below(len(line))
        yield line[:at] + ("0123456789abcdefg -"[numbers.below(19)] if place % 3 else "") + line[at + 1 :]


def at_the_edges(reference, numbers):
    """Lines of bytes at the edges of what a request is."""
    message = Message(reference, numbers, 8, 4, 6)
    whole = message.unseal()
    yield whole.replace("open", "open\r")
    yield whole + "\r"
    yield message.seal(room="+" + str(len(message.plain)))
    yield message.seal(room="000" + str(len(message.plain)), tag_room="+016")
    yield message.seal(room=MOST)
    yield message.unseal(nonce=numbers.bytes(34))
    yield message.seal(nonce=message.nonce[:5], room="six")
    yield message.unseal(room="six").replace(text(message.masks), "xx")
    yield b"open \xff" + whole[6:].encode()
    yield b"\xc3\xa9"
    yield b"seal \x00 - - - 0 16"


FOR_THE_GATE = (both_ways, edge_nonces, other_nonces, altered, refused, no_requests)


def make(reference):
    numbers = Numbers(SEED)
    for group in FOR_THE_GATE:
        for line in group(reference, numbers):
            print(line)


# What must be printed.


class Unread(Exception):
    pass


def check_bytes(name, field):
    if field == b"-":
        return
    if not field:
        raise Unread(f"field {name}: {NO_DIGITS}")
    if len(field) % 2:
        raise Unread(f"field {name}: {ODD_DIGITS}")
    if not re.fullmatch(rb"[0-9a-fA-F]+", field):
        raise Unread(f"field {name}: {NOT_A_DIGIT}")


def check_nonce(name, field):
    if not re.fullmatch(rb"[0-9a-fA-F]{12}", field):
        raise Unread(f"field {name}: {NO_NONCE}")


def check_length(name, field):
    if not re.fullmatch(rb"\+?[0-9]+", field) or int(field) > MOST:
        raise Unread(f"field {name}: {NO_LENGTH}")


SEALING = [("key", check_bytes), ("nonce", check_nonce), ("masks", check_bytes), ("plaintext", check_bytes), ("room", check_length), ("tagroom", check_length)]
OPENING = [("key", check_bytes), ("nonce", check_bytes), ("masks", check_bytes), ("wire", check_bytes), ("tag", check_bytes), ("room", check_length)]
CALLS = {b"seal": SEALING, b"open": OPENING}


def asked(line):
    """The call that a line asks for, and its fields."""
    try:
        line.decode("utf-8")
    except UnicodeDecodeError:
        raise Unread("not text")
    call, *fields = line.split(b" ")
    if len(fields) != 6:
        raise Unread(f"7 fields are wanted, and it has {len(fields) + 1}")
    if call not in CALLS:
        raise Unread("neither seal nor open")
    for (name, check), field in zip(CALLS[call], fields):
        check(name, field)
    return call.decode(), b" ".join(fields).decode()


def printed(reference, lines):
    """What must be printed for these lines."""
    said = {}
    requests = {"seal": [], "open": []}
    for number, line in enumerate(lines, 1):
        try:
            call, fields = asked(line)
            requests[call].append((number, fields))
        except Unread as why:
            said[number] = f"line {number}: {why}"
    unread = len(said)
    for call, made in requests.items():
        given = answers(reference, call, [fields for _, fields in made])
        said.update((number, answer) for (number, _), answer in zip(made, given))
    counts = {word: sum(answer.startswith(word + " ") for answer in said.values()) for word in ("sealed", "opened", "refused")}
    if sum(counts.values()) + unread != len(lines):
        sys.exit("an answer is neither sealed, opened nor refused")
    last = f"requests {len(lines)} sealed {counts['sealed']} opened {counts['opened']} refused {counts['refused']} unread {unread}"
    return [said[number] for number in sorted(said)] + [last]


def expect(reference):
    lines = sys.stdin.buffer.read().split(b"\n")
    if lines[-1] == b"":
        lines.pop()
    print("\n".join(printed(reference, lines)))


def as_bytes(line):
    return line if isinstance(line, bytes) else line.encode()


def compare(reference, program, rounds):
    """Runs the program on requests of other seeds, and shows each line that is not as it must be."""
    compared = differ = 0
    for seed in range(1, int(rounds) + 1):
        numbers = Numbers(SEED + seed)
        groups = FOR_THE_GATE + (spoilt, at_the_edges) + ((longest,) if seed % 20 == 2 else ())
        lines = [as_bytes(line) for group in groups for line in group(reference, numbers)]
        lines = lines if seed > 1 else []
        given = b"\n".join(lines) + (b"\n" if lines and seed % 2 else b"")
        done = subprocess.run([program], input=given, capture_output=True, check=True)
        found, wanted = done.stdout.split(b"\n"), [line.encode() for line in printed(reference, lines)] + [b""]
        compared += len(lines)
        for place in range(max(len(found), len(wanted))):
            ours, theirs = (texts[place] if place < len(texts) else b"nothing" for texts in (found, wanted))
            if ours != theirs:
                differ += 1
                request = lines[place] if place < len(lines) else b"the last line"
                at = next((k for k, (x, y) in enumerate(zip(ours, theirs)) if x != y), min(len(ours), len(theirs)))
                shown = slice(max(0, at - 40), at + 40)
                print(f"seed {seed}, line {place + 1}, from place {at} on: {request[:200]!r}\n  printed {ours[shown]!r}\n  must be {theirs[shown]!r}")
    print(f"{compared} requests compared, {differ} differ")
    return compared > 0 and differ == 0


def main():
    match sys.argv[1:]:
        case ["make", reference]:
            make(reference)
        case ["expect", reference]:
            expect(reference)
        case ["compare", reference, program, rounds]:
            sys.exit(0 if compare(reference, program, rounds) else 1)
        case _:
            sys.exit("usage: tools/requests.py make REFERENCE | expect REFERENCE | compare REFERENCE PROGRAM ROUNDS")


main()
