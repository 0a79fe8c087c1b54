#!/usr/bin/env python3
"""Brings this repository's own definitions and lemmas to Rattle's spelling:
words in snake case, types and facts in upper camel case.

It was run once, from the repository's root, on the text that the kit's own
script had turned, and is kept so that anyone can see that nothing but names
changed. `Takes-nonce` becomes `TakesNonce`, `wire-word` becomes `wire_word`,
`digitOf` becomes `digit_of`; a dash before an operator, as in `steps-++`,
stays. Names of Rust items, labels, strings and what Rattle makes are left.
"""
import pathlib
import re

PART = r"[^\s(){}\[\]:;,.λ→∷\"`@|]"
NAME = re.compile(PART + "+")
DEFINED = re.compile(
    rf"^(?P<in> *)(?:(?:abbrev|unfoldable|pub) )*(?:record |data )?(?P<name>{PART}+)(?: [^=]*)? :(?: (?P<type>.*))?$"
)
GOAL = re.compile(r"\b(?:goal|need)\.|^the-invariant")
MADE = re.compile(r"(?:invariant|decreases|loop|returns|overflow|bounds)-")
CLAUSE = re.compile(r"^\s*(?:requires|ensures|ghost)\b")


def respelled(name):
    if name[0].isupper():
        parts = re.split(r"[-_](?=\w)", name)
        return "".join(p[0].upper() + p[1:] for p in parts)
    name = re.sub(r"(?<=[\w'])-(?=\w)", "_", name)
    return re.sub(r"(?<=[a-z0-9])([A-Z])", lambda m: "_" + m.group(1).lower(), name)


def files(pattern):
    for path in sorted(pathlib.Path("crates").glob(pattern)):
        if "out" not in path.parts:
            yield path


def own_names():
    """Each name that a file of antt defines, and whether it can stand behind a dot, as a field or a constructor."""
    names = {}
    for path in [*files("*/specs/**/*.antt"), *files("*/proofs/**/*.antt")]:
        blocks = [(-1, "module")]
        for line in path.read_text().splitlines():
            indent = len(line) - len(line.lstrip(" "))
            if not line.strip() or re.match(r" *(use|mod|pub mod|open|unfolding|--)\b", line) or line.lstrip().startswith("--"):
                continue
            while blocks[-1][0] >= indent:
                blocks.pop()
            within = blocks[-1][1]
            block = re.match(r" *(?:pub )?(record|data|module)\b", line)
            blocks.append((indent, block.group(1) if block else "text"))
            found = DEFINED.match(line)
            if within == "text" or not found or GOAL.match(found["type"] or "") or MADE.match(found["name"]):
                continue
            names[found["name"]] = names.get(found["name"], False) or within in ("record", "data")
    return {n: (respelled(n), field) for n, field in names.items() if respelled(n) != n}


def turned(text, names):
    def one(found):
        word = found.group(0)
        if word not in names:
            return word
        new, field = names[word]
        before = text[: found.start()]
        path = re.search(r"Rattle\.[^\s]*\.$", before)
        if before.endswith(".") and not field and not path:
            return word
        return new

    return NAME.sub(one, text)


def turned_antt(text, names):
    lines = text.split("\n")
    return "\n".join(l if l.lstrip().startswith("--") else turned(l, names) for l in lines)


def turned_source(text, names):
    """Only clauses and ghost lines; a clause goes on to its closing brace."""
    lines, depth = [], 0
    for line in text.split("\n"):
        if depth > 0 or CLAUSE.match(line):
            depth += line.count("{") - line.count("}")
            lines.append(turned(line, names))
        else:
            lines.append(line)
    return "\n".join(lines)


def turned_page(text, names):
    return re.sub(r"`[^`\n]+`", lambda m: turned(m.group(0), names), text)


def main():
    names = own_names()
    taken = {}
    for old, (new, _) in sorted(names.items()):
        taken.setdefault(new, []).append(old)
    for new, olds in taken.items():
        if len(olds) > 1:
            print(f"falls together: {', '.join(olds)} -> {new}")
    work = [(p, turned_antt) for p in files("*/specs/**/*.antt")]
    work += [(p, turned_antt) for p in files("*/proofs/**/*.antt")]
    work += [(p, turned_source) for p in files("*/src/**/*.rt")]
    work += [(p, turned_page) for p in [pathlib.Path("README.md"), *sorted(pathlib.Path("docs").glob("*.md"))]]
    for path, turn in work:
        text = path.read_text()
        new = turn(text, names)
        if new != text:
            path.write_text(new)
    for old, (new, _) in sorted(names.items()):
        print(f"{old} -> {new}")


main()
