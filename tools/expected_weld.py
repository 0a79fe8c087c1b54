#!/usr/bin/env python3
"""Prints what the program `weld` must print.

It knows the scenario on its own, and has the other author's program seal the
messages and take them:

    mkdir -p target
    rustc -O --edition 2021 reference/reference.rs -o target/reference
    tools/expected_weld.py target/reference > crates/weld/stdout

Nothing here is built from `weld` or read from its output.
"""
import subprocess
import sys

KEY = b"Futsambo".hex()
RUN = 1207
SEALED, OPEN, PART = 0xFFFF, 0x0000, 0x0FFF
FLIP = 0x0100
PER_LINE = 10

OPENING = [
    "known figures of cipher and link: all as published",
    f"run {RUN}: wall thicknesses in hundredths of a millimetre, in hex, sealed at one end of the link and received at the other",
    "words count from 0 in each message; a word is sealed unless it is open (a milestone, in metres) or part (the bits of its mask)",
    "withheld ROW: after a loss no reading is handed out until 17 sealed words in a row have come, and ROW of them have",
    "false: a reading that is not the plaintext which was sealed",
    "last line: the words that the sealer took, under any mask; of these the received; of those the handed out and the withheld; and the false",
]


class Message:
    """A message of the scenario: what is sealed, and what becomes of it."""

    def __init__(self, words, finished, milestones=(), parts=(), losses=(), altered=()):
        self.finished = finished
        self.masks = [OPEN if p in milestones else PART if p in parts else SEALED for p in range(words)]
        self.plains = [2000 + p if p in milestones else wall(p) for p in range(words)]
        self.lost = {p for first, last in losses for p in range(first, last + 1)}
        self.breaks = {last for _, last in losses}
        self.altered = set(altered)


def wall(place):
    return 940 + place * 37 % 61


SCENARIO = [
    Message(60, True, milestones=(5, 33, 41), losses=[(12, 14), (38, 40)]),
    Message(30, False, losses=[(6, 8)]),
    Message(40, True, altered=(10,)),
    Message(20, True, milestones=(4, 14), parts=(9,)),
]


def answers(reference, script):
    """The other program's answers to a script of calls, one a line."""
    done = subprocess.run([reference, "calls"], input="\n".join(script) + "\n", capture_output=True, text=True, check=True)
    lines = done.stdout.split("\n")[:-1]
    if len(lines) != len(script):
        sys.exit(f"{len(script)} calls, {len(lines)} answers")
    return iter(lines)


def after(word, answer):
    """What stands behind a word that an answer must begin with."""
    if not answer.startswith(word + " "):
        sys.exit(f"expected {word}, found: {answer}")
    return answer[len(word) + 1:]


def seal(reference):
    """Adds nonce, wire words and tag to each message; answers the wire word and the tag of the message of one word."""
    script = [f"key {KEY}", f"issuer {RUN}"]
    for m in SCENARIO:
        script.append("sbegin")
        script += [f"sword {mask:04x} {plain:04x}" for mask, plain in zip(m.masks, m.plains)]
        script.append("sfinish" if m.finished else "sabandon")
    script += ["sbegin", f"sword {SEALED:04x} {wall(0):04x}", "sfinish"]
    lines = answers(reference, script)
    next(lines), next(lines)
    for m in SCENARIO:
        m.nonce = after("nonce", next(lines))
        m.wires = [int(after("wire", next(lines)), 16) for _ in m.masks]
        end = next(lines)
        m.tag = after("tag", end) if m.finished else None
    next(lines)
    return after("wire", next(lines)), after("tag", next(lines))


def came(m, place):
    """The wire word as it comes."""
    return m.wires[place] ^ (FLIP if place in m.altered else 0)


def calls(m):
    """The calls on the receiver for a message."""
    yield f"begin {m.nonce}"
    for place, mask in enumerate(m.masks):
        if place not in m.lost:
            yield f"word {mask:04x} {came(m, place):04x}"
        if place in m.breaks:
            yield "break"
    if m.finished:
        yield f"finish {m.tag}"


def receive(reference):
    """Adds the receiver's answers to each message: by the place of each word, and the verdict."""
    lines = answers(reference, [f"key {KEY}"] + [call for m in SCENARIO for call in calls(m)])
    next(lines)
    for m in SCENARIO:
        m.answers = {}
        place = -1
        for call in calls(m):
            answer = next(lines)
            if call.startswith("word "):
                place = next(p for p in range(place + 1, len(m.masks)) if p not in m.lost)
                m.answers[place] = answer
            elif call.startswith("finish "):
                m.verdict = answer


def seen(m):
    """What is seen of a message, as (what, place, number)."""
    for place in range(len(m.masks)):
        if place in m.lost:
            yield "lost", place, None
        elif m.answers[place].startswith("withheld "):
            yield "withheld", place, int(after("withheld", m.answers[place]))
        else:
            if place in m.altered:
                yield "altered", place, came(m, place)
            reading = int(after("reading", m.answers[place]), 16)
            yield "true" if reading == m.plains[place] else "false", place, reading
        if place in m.breaks:
            yield "break", None, None


def shares_line(m, line, item):
    """Whether something seen stands on the line of what was seen before it."""
    what, place, number = line[-1]
    if what not in ("lost", "withheld", "true") or item[:2] != (what, place + 1) or m.masks[place] != m.masks[place + 1]:
        return False
    return {"lost": True, "withheld": item[2] == (number or 0) + 1, "true": len(line) < PER_LINE}[what]


def lines(m):
    """What is seen of a message, line by line."""
    line = []
    for item in seen(m):
        if line and not shares_line(m, line, item):
            yield line
            line = []
        line.append(item)
    if line:
        yield line


def line_text(m, line):
    what, place, number = line[0]
    if what == "break":
        return "break: the receiver is told of the loss"
    kind = {SEALED: "", OPEN: " (open)"}.get(m.masks[place], f" (part, mask {m.masks[place]:04x})")
    where = (f"word {place}" if len(line) == 1 else f"words {place} to {line[-1][1]}") + kind
    if what == "lost":
        return f"{where}: lost at a weld"
    if what == "altered":
        return f"{where}: altered on the way, wire {m.wires[place]:04x} came as {number:04x}"
    if what == "withheld":
        return f"{where}: withheld {number}" if len(line) == 1 else f"{where}: withheld, rows {number} to {line[-1][2]}"
    if what == "false":
        return f"{where}: reading {number:04x} false, the plaintext is {m.plains[place]:04x}"
    return f"{where}: reading" + "".join(f" {item[2]:04x}" for item in line)


def main():
    reference = sys.argv[1]
    wire, tag = seal(reference)
    receive(reference)
    print("\n".join(OPENING))
    for number, m in enumerate(SCENARIO, 1):
        print(f"message {number}, nonce {m.nonce}")
        for line in lines(m):
            print("  " + line_text(m, line))
        print(f"  tag {m.tag}: verdict {m.verdict}" if m.finished else "  abandoned by the sealer: no tag, no verdict")
    print(f"a message of one word, sealed call by call, not sent across the joint and in no count: plaintext {wall(0):04x}, wire {wire}, tag {tag}")
    kinds = [what for m in SCENARIO for what, _, _ in seen(m)]
    handed_out, withheld, false_readings = kinds.count("true") + kinds.count("false"), kinds.count("withheld"), kinds.count("false")
    sealed = sum(len(m.masks) for m in SCENARIO)
    received = sum(len(m.answers) for m in SCENARIO)
    print(f"sealed {sealed} received {received} handed-out {handed_out} withheld {withheld} false {false_readings}")


main()
