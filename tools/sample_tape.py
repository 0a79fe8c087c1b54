#!/usr/bin/env python3
"""Writes the input that `listing` is run on by the test command, with the
other author's program as the sealer:

    mkdir -p target
    rustc -O --edition 2021 reference/reference.rs -o target/reference
    tools/sample_tape.py target/reference > crates/listing/stdin
    target/reference list < crates/listing/stdin > crates/listing/stdout

The tape is that of a recorder which was switched on in the middle of a
message. It has each command, each verdict and each row, and is cut off.
Nothing here is built from `listing` or read from its output.
"""
import subprocess
import sys

KEY = b"Futsambo"
RUN = 1208
NONCE, SEALED, OPEN, PART, BREAK, TAG = b"NSOPBT"
ALL, NONE, LOW = 0xFFFF, 0x0000, 0x0FFF
FLIP = 0x0100


def wall(place):
    """A wall thickness in hundredths of a millimetre."""
    return 940 + place * 37 % 61


class Message:
    """A message: what is sealed, and what of it comes onto the tape.

    Words are sealed unless they are `milestones`, open milestones in metres,
    `parts`, of which twelve bits are sealed. Those of `spelled`, sealed words
    and milestones, are written as part words with their masks. The words that were
    `lost` are not on the tape, and a break stands for each run of them. Nor are
    the first ones with the nonce, if they were sealed before the recorder was
    `on`; of those the tape says nothing.
    """

    def __init__(self, words, milestones=(), parts=(), spelled=(), lost=(), altered=(), on=0, finished=True, wrong_tag=False):
        self.masks = [NONE if p in milestones else LOW if p in parts else ALL for p in range(words)]
        self.plains = [2000 + p if p in milestones else wall(p) for p in range(words)]
        self.spelled, self.lost, self.altered = set(spelled), set(lost), set(altered)
        self.on, self.finished, self.wrong_tag = on, finished, wrong_tag

    def script(self):
        """The calls that seal it."""
        words = [f"sword {mask:04x} {plain:04x}" for mask, plain in zip(self.masks, self.plains)]
        return ["sbegin"] + words + ["sfinish" if self.finished else "sabandon"]

    def commands(self, answers):
        """Its commands on the tape, from the answers to its calls."""
        nonce = after("nonce", next(answers))
        if not self.on:
            yield bytes([NONCE]) + bytes.fromhex(nonce)
        for place, mask in enumerate(self.masks):
            wire = int(after("wire", next(answers)), 16) ^ (FLIP if place in self.altered else 0)
            if place in self.lost:
                if place + 1 not in self.lost:
                    yield bytes([BREAK])
            elif place >= self.on:
                yield self.word(place, mask, low_first(wire))
        if self.finished:
            tag = bytearray.fromhex(after("tag", next(answers)))
            tag[3] ^= 0x10 if self.wrong_tag else 0
            yield bytes([TAG]) + tag
        else:
            next(answers)

    def word(self, place, mask, wire):
        if mask == LOW or place in self.spelled:
            return bytes([PART]) + low_first(mask) + wire
        return bytes([SEALED if mask == ALL else OPEN]) + wire


def low_first(word):
    return word.to_bytes(2, "little")


MESSAGES = [
    # the recorder is switched on: a new receiver is lost, and the tag is that of no message which it saw begin
    Message(26, milestones=(23,), parts=(20,), spelled=(22, 23), on=18),
    # whole: it agrees
    Message(44, milestones=(5, 19, 33), parts=(9, 10, 38), spelled=(14, 19, 27)),
    # given up at once: two nonces in a row
    Message(0, finished=False),
    # words are lost, an open word and part words put the row back, rows 1 to 17, an open word once caught: broken
    Message(66, milestones=(4, 20, 31, 61), parts=(26,), spelled=(22, 23, 31, 40, 45), lost=range(9, 14)),
    # an altered word, of which nobody was told, and readings that come right again: it differs
    Message(32, altered=(6,)),
    # the tag was altered: it differs
    Message(8, milestones=(3,), wrong_tag=True),
    # no words: it agrees
    Message(0),
    # its end is lost, a break at the very end
    Message(15, milestones=(7,), lost=range(12, 15), finished=False),
]


def seal(reference):
    """The answers to the calls that seal all messages."""
    script = [f"key {KEY.hex()}", f"issuer {RUN}"] + [call for m in MESSAGES for call in m.script()]
    done = subprocess.run([reference, "calls"], input="\n".join(script) + "\n", capture_output=True, text=True, check=True)
    answers = done.stdout.split("\n")[:-1]
    if len(answers) != len(script):
        sys.exit(f"{len(script)} calls, {len(answers)} answers")
    return iter(answers[2:])


def after(word, answer):
    """What stands behind a word that an answer must begin with."""
    if not answer.startswith(word + " "):
        sys.exit(f"expected {word}, found: {answer}")
    return answer[len(word) + 1:]


def main():
    answers = seal(sys.argv[1])
    tape = b"".join(command for m in MESSAGES for command in m.commands(answers))
    cut_off = bytes([NONCE]) + RUN.to_bytes(4, "little")
    sys.stdout.buffer.write(bytes([len(KEY)]) + KEY + tape + cut_off)


main()
