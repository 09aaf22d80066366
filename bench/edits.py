#!/usr/bin/env python3
"""Tells each wrong body whose text doesn't stand in the sources any more: of crates/*/edits and crates/*/must-fail.

    edits.py        from anywhere; ends with status 1 if there is one

A wrong body is lines `file: PATH` in its crate, `old: TEXT` and `new: TEXT`; other lines go on with a text. The edits are made in order, so a later one may stand on an
earlier one. Whether the clauses refuse it is tried by bench/try_edits.sh.
"""

import re
import sys
from pathlib import Path

TOP = Path(__file__).resolve().parent.parent


def fault_of(edit):
    """Why the edit can't be made, or None."""
    crate, texts, file, old = edit.parent.parent, {}, None, None
    for word, text in re.findall(r"^(file|old|new):(.*(?:\n(?!file:|old:|new:).*)*)$", edit.read_text().rstrip("\n"), re.M):
        text = text.removeprefix(" ")
        if word == "file":
            file = crate / text
            if not file.exists():
                return f"there is no {text}"
            texts.setdefault(file, file.read_text())
        elif word == "old":
            old = text
            if old not in texts[file]:
                return f"{file.relative_to(crate)} has no such text: {old}"
        else:
            texts[file] = texts[file].replace(old, text)
    return None if old else "it edits nothing"


def main():
    edits = sorted([*TOP.glob("crates/*/edits/*.edit"), *TOP.glob("crates/*/must-fail/*.edit")])
    faults = [(edit, fault) for edit in edits if (fault := fault_of(edit))]
    for edit, fault in faults:
        print(f"{edit.relative_to(TOP)}: {fault}")
    print(f"{len(edits)} wrong bodies, {len(faults)} of which don't fit the sources")
    return bool(faults)


if __name__ == "__main__":
    sys.exit(main())
