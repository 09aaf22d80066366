#!/usr/bin/env python3
"""Prints the index of the definitions: each file of specs/ that isn't a means of proof, by crate, with what its first line says.

    definitions.py [CRATE ..]       from anywhere; with names, of these crates alone
"""

import sys
import textwrap
from pathlib import Path

TOP = Path(__file__).resolve().parent.parent


def first_lines(file):
    """What the comment at the head of a file says."""
    lines = []
    for line in file.read_text().splitlines():
        if not line.startswith("-- "):
            break
        lines.append(line[3:])
    return " ".join(lines)


def main(names):
    for line in (TOP / "crates.txt").read_text().splitlines():
        crate = line.partition(":")[0].split()[0] if line.strip() else ""
        if not crate or names and crate not in names:
            continue
        specs = TOP / "crates" / crate / "specs"
        files = [it for it in sorted(specs.rglob("*.antt")) if "ForProofs" not in it.relative_to(specs).parts and it.stem not in ("Lib", "ForProofs")]
        files = [it for it in files if not it.with_suffix("").is_dir()]
        if files:
            print(crate)
        for file in files:
            name = "/".join(file.relative_to(specs).with_suffix("").parts)
            print(textwrap.fill(first_lines(file), 150, initial_indent=f"  {name:24}", subsequent_indent=" " * 26))


if __name__ == "__main__":
    main(sys.argv[1:])
