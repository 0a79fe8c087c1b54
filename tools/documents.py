#!/usr/bin/env python3
"""Sees that what docs/ repeats of the code stands there as it stands in the code: the three printed tables, in the definitions, in the code and in the
other author's two programs; the declarations of the header for C; and the pages of definitions, in the order to read them."""
import pathlib
import re
import sys

ROOT = pathlib.Path(__file__).resolve().parent.parent
NAMES = ("skipjack", "qbox", "products")
TABLES = {
    "crates/sss/specs/Tables.antt": r"=\n(.*?)\[\]",
    "crates/functions/src/tables.rt": r"= \[\n(.*?)\];",
    "reference/reference.rs": r"= \[\n(.*?)\];",
    "reference/fast.c": r"= \{\n(.*?)\};",
}


def text(path):
    """The text of a file of the repository."""
    return (ROOT / path).read_text(encoding="utf-8")


def tables(path, pattern):
    """The tables of a file: each run of 256 hexadecimal numbers that the pattern's group holds."""
    runs = [re.findall(r"\b(?:0x)?([0-9A-Fa-f]{4}|[0-9A-Fa-f]{2})\b", it) for it in re.findall(pattern, text(path), re.S)]
    return [[int(it, 16) for it in run] for run in runs if len(run) == 256]


def other_tables():
    """The places where a printed table is another than in docs/."""
    printed = tables("docs/TABLES.md", r"```\n(.*?)```")
    if len(printed) != len(NAMES):
        return ["docs/TABLES.md has not three tables of 256 numbers"]
    there = {path: tables(path, pattern) for path, pattern in TABLES.items()}
    return [f"{path} has another {name}" for path, found in there.items() for name, table in zip(NAMES, printed) if table not in found]


def declarations(code):
    """The words of a header's declarations, without its comments and what guards it."""
    code = re.sub(r"/\*.*?\*/", " ", code, flags=re.S)
    code = re.sub(r"#ifdef __cplusplus.*?#endif", " ", code, flags=re.S)
    code = re.sub(r"#(ifndef|endif|include|define FUTSAMBOLY_H\b)[^\n]*", " ", code)
    return re.findall(r"\w+|[^\w\s]", code)


def other_declarations():
    """Whether the declarations in docs/ are others than the header's."""
    printed = "".join(re.findall(r"```c\n(.*?)```", text("docs/C.md"), re.S))
    same = declarations(printed) == declarations(text("include/futsamboly.h"))
    return [] if same else ["include/futsamboly.h declares something else than docs/C.md"]


def other_pages():
    """The crates whose pages of definitions are others, or stand in another order, than docs/ says."""
    table = re.search(r"\| Of \| Crate \| Pages \|\n.*?\n\n", text("docs/PROOFS.md"), re.S)
    said = dict(re.findall(r"`(\w+)` \| ([\w, ]+) \|", table[0]))
    there = {it.parent.parent.name: re.findall(r"mod (\w+)", it.read_text(encoding="utf-8")) for it in ROOT.glob("crates/*/specs/Lib.antt")}
    wrong = [it for it, pages in there.items() if said.get(it, "").split(", ") != pages]
    return [f"crates/{it}/specs has other pages than docs/PROOFS.md" for it in sorted({*wrong, *(said.keys() - there.keys())})]


def main():
    """Says what differs."""
    different = [*other_tables(), *other_declarations(), *other_pages()]
    for it in different:
        print(it, file=sys.stderr)
    print(f"documents: tables {len(NAMES)} in {len(TABLES)} places, declarations for C, pages of definitions, differ {len(different)}")
    sys.exit(1 if different else 0)


if __name__ == "__main__":
    main()
