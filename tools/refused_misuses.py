#!/usr/bin/env python3
"""Sees that the compiler refuses each misuse of crates/*/misuse: a nonce that
is used twice, in a list of calls, for a second message of one sealer or for two
whole messages, a word after the tag, a word before a message is open.

A misuse has the form of a must-fail edit (`file:`, `old:`, `new:`), but it is
refused for a variable that was moved or a method that is not there, before
anything is proved, and the must-fail run takes only what reaches the prover.
Run it from the repository's root; it works on a copy, compiles each misuse
with `rt try`, and its last line is `N refused, M not`. That the program
compiles where nothing is misused, it sees first.
"""
import pathlib
import re
import shutil
import subprocess
import sys
import tempfile

REFUSAL = re.compile(r"error\[(borrow-e0382|unknown-method)\]: .*")


def replacement(edit):
    fields = dict(line.split(": ", 1) for line in edit.read_text().splitlines())
    return fields["file"], fields["old"], fields["new"]


def compiled(where, crate):
    """What the compiler says of a program, and whether it runs."""
    run = subprocess.run(["rt", "try", crate], cwd=where / "crates" / crate, stdin=subprocess.DEVNULL, capture_output=True, text=True)
    return run.stdout + run.stderr, run.returncode == 0


def refusal(where, edit):
    """What the compiler says against an edit, or None."""
    crate = edit.parent.parent.name
    name, old, new = replacement(edit)
    source = where / "crates" / crate / name
    text = source.read_text()
    if text.count(old) != 1:
        sys.exit(f"{edit}: its old text does not stand once in {name}")
    source.write_text(text.replace(old, new))
    said, runs = compiled(where, crate)
    source.write_text(text)
    found = REFUSAL.search(said)
    return found.group(0).split(": note:")[0] if found and not runs else None


def main():
    root = pathlib.Path.cwd()
    edits = sorted(root.glob("crates/*/misuse/*.edit"))
    refused = 0
    with tempfile.TemporaryDirectory() as folder:
        where = pathlib.Path(folder)
        shutil.copytree(root / "crates", where / "crates", ignore=shutil.ignore_patterns("out"))
        shutil.copy(root / "crates.txt", where)
        for crate in sorted({edit.parent.parent.name for edit in edits}):
            said, runs = compiled(where, crate)
            if not runs:
                sys.exit(f"{crate} does not run as it stands:\n{said}")
        for edit in edits:
            said = refusal(where, edit)
            refused += bool(said)
            print(f"{edit.parent.parent.name}/{edit.stem}: {said or 'NOT REFUSED'}")
    print(f"{refused} refused, {len(edits) - refused} not")
    sys.exit(0 if edits and refused == len(edits) else 1)


main()
