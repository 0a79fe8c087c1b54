#!/usr/bin/env python3
"""Prints what the program `vectors` must print for the messages on standard
input when every message that can be read agrees in all ten ways.

It reads hex and counts; it seals and opens nothing. Refusals by the library
are not foreseen: a key or a nonce that it refuses makes another output.
"""
import sys

FIELDS = ["key", "nonce", "masks", "plaintext", "wire", "tag"]
HEX = set(b"0123456789abcdefABCDEF")
SHOWN = 5


class Malformed(Exception):
    pass


def field_bytes(name, text):
    if text == b"-":
        return b""
    if not text:
        raise Malformed(f"field {name}: no digits, where an empty field is written -")
    if len(text) % 2:
        raise Malformed(f"field {name}: an odd number of digits")
    if not set(text) <= HEX:
        raise Malformed(f"field {name}: a digit that is not hex")
    return bytes.fromhex(text.decode("ascii"))


def field_words(name, text):
    raw = field_bytes(name, text)
    if len(raw) % 2:
        raise Malformed(f"field {name}: an odd number of bytes in a field of words")
    return [raw[i] + 256 * raw[i + 1] for i in range(0, len(raw), 2)]


def parse(line):
    try:
        line.decode("utf-8")
    except UnicodeDecodeError:
        raise Malformed("not text")
    texts = line.split(b" ")
    if len(texts) != 6:
        raise Malformed(f"6 fields are wanted, and it has {len(texts)}")
    key = field_bytes("key", texts[0])
    nonce = field_bytes("nonce", texts[1])
    masks, plaintext, wire = (field_words(FIELDS[i], texts[i]) for i in (2, 3, 4))
    tag = field_bytes("tag", texts[5])
    if len(tag) != 16:
        raise Malformed(f"field tag: {len(tag)} bytes instead of 16")
    if not len(masks) == len(plaintext) == len(wire):
        raise Malformed("fields masks, plaintext and wire are of different lengths")
    return key, nonce, masks, tag


def main():
    lines = sys.stdin.buffer.read().split(b"\n")
    if lines[-1] == b"":
        lines.pop()  # what follows the last line's end
    if lines and lines[-1] == b"":
        lines.pop()  # an empty line at the end is no message
    print("known figures of the cipher: all as published")
    messages = words = differ = compared = 0
    for number, line in enumerate(lines, 1):
        messages += 1
        try:
            key, nonce, masks, tag = parse(line)
        except Malformed as why:
            differ += 1
            print(f"line {number}: {why}")
            continue
        compared += 1
        words += len(masks)
        if messages <= SHOWN:
            sealed = masks.count(0xFFFF)
            clear = masks.count(0)
            part = len(masks) - sealed - clear
            print(
                f"line {number}: key {len(key)} bytes, nonce {nonce.hex() or '-'}, "
                f"words {sealed} sealed {clear} open {part} part, tag {tag.hex()}; "
                "wire, plaintext and tag agree in all 10 ways"
            )
    print(f"{compared} messages with {words} words sealed and opened in each of 10 ways")
    print(
        "keyed functions: FromKey, FilledTable, GivenTable, "
        "LazyTable over FromKey, LazyTable over LazyTable over FilledTable"
    )
    print("coefficients: PrintedTable, FieldRule")
    print(f"{differ} messages differ")
    print(f"messages {messages} words {words} differ {differ}")


main()
