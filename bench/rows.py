#!/usr/bin/env python3
"""Counts the rows, by crate and by kind.

    bench/rows.py [--since REVISION]     prints the sum of each kind and its crates; with a revision, what there was then, too
    bench/rows.py --held                 whether bench/rows.txt has these very lines and no others; in the gate, so that no row goes unseen
    bench/rows.py > bench/rows.txt       writes them

The kinds: `text`, commands in data/ of crates of rows, and lines in rows/, each with its answer, and lines of reports there; `tables`,
elements of constant arrays in tests, which one assertion goes over; `asserts`, assertions of tests; `theorems`, statements of a crate's
proofs/Rows that hold by computation.
"""

import argparse
import collections
import io
import pathlib
import re
import subprocess
import sys
import tarfile
import tempfile
import textwrap

TOP = pathlib.Path(__file__).resolve().parent.parent
KINDS = ("text", "tables", "asserts", "theorems")
PAIRS = {"(": ")", "[": "]", "{": "}"}


def without_texts(source):
    """The source without comments, and with nothing in its texts."""
    return re.sub(r'//[^\n]*|b?r#".*?"#|"(?:\\.|[^"\\])*"|\'(?:\\.|[^\'\\])\'', lambda it: "" if it[0].startswith("//") else '""', source, flags=re.S)


def elements(source, at):
    """How many elements the array has that begins at this bracket."""
    depth, count, is_open = 0, 0, False
    for letter in source[at:]:
        if letter in PAIRS:
            is_open, depth = is_open or depth > 0, depth + 1
        elif letter in PAIRS.values():
            depth -= 1
            if depth == 0:
                break
        elif letter == "," and depth == 1:
            count, is_open = count + 1, False
        elif not letter.isspace():
            is_open = True
    return count + is_open


def counts(top):
    """How many rows there are of each kind, by crate."""
    found = collections.defaultdict(collections.Counter)
    for crate in sorted((top / "crates").iterdir()):
        rows = found[crate.name]
        if crate.name.startswith("rows_"):
            rows["text"] = sum(len(re.findall(r"^<", file.read_text(), re.M)) for file in crate.glob("data/*.txt"))
        for file in crate.glob("src/**/*.rt"):
            source = without_texts(file.read_text())
            if crate.name.startswith("rows_") or "#[test]" in source:
                rows["asserts"] += len(re.findall(r"\bassert(?:_eq|_ne)?!\(", source))
                starts = re.finditer(r"\bconst \w+: &?(?:'static )?\[[^=]*= &?\[", source)
                rows["tables"] += sum(elements(source, start.end() - 1) for start in starts)
        for file in crate.glob("proofs/Rows*/**/*.antt") if (crate / "proofs/Rows").is_dir() else []:
            rows["theorems"] += len(re.findall(r"^\S+ = refl$", file.read_text(), re.M))
        if (crate / "proofs/Rows.antt").exists():
            rows["theorems"] += len(re.findall(r"^\S+ = refl$", (crate / "proofs/Rows.antt").read_text(), re.M))
    for file in (top / "rows").glob("*/*"):
        lines = {".txt": "^<", ".stdout": "^.", ".stderr": "^."}.get(file.suffix)
        found[f"rows/{file.parent.name}"]["text"] += len(re.findall(lines, file.read_text(), re.M)) if lines else 0
    return {crate: rows for crate, rows in found.items() if sum(rows.values())}


def at_revision(revision):
    """The same of a revision."""
    packed = subprocess.run(["git", "archive", revision], cwd=TOP, stdout=subprocess.PIPE, check=True).stdout
    with tempfile.TemporaryDirectory() as room:
        tarfile.open(fileobj=io.BytesIO(packed)).extractall(room)
        return counts(pathlib.Path(room))


def lines_of(now, before):
    """The lines that tell them, a kind after the other: its sum, and after it the crates that have some."""
    lines = []
    for kind in KINDS:
        told = []
        for crate in ["", *sorted(now.keys() | before.keys())]:
            count, was = (sum(rows[kind] for name, rows in each.items() if crate in (name, "")) for each in (now, before))
            if count or was or not crate:
                told.append(f"{crate or kind} " + (str(count) if not before or count == was else f"{was} → {count}"))
        text = f"- {told[0]}: " + ", ".join(told[1:])
        lines += textwrap.wrap(text, 140, subsequent_indent="  ", break_long_words=False, break_on_hyphens=False)
    return lines


def main():
    read = argparse.ArgumentParser(usage=__doc__)
    read.add_argument("--since")
    read.add_argument("--held", action="store_true")
    said = read.parse_args()
    lines = lines_of(counts(TOP), at_revision(said.since) if said.since else {})
    if said.held:
        page = (TOP / "bench/rows.txt").read_text().splitlines()
        for line in page:
            if line not in lines:
                print(f"bench/rows.txt has a count of rows that isn't so: {line}", file=sys.stderr)
        for line in lines:
            if line not in page:
                print(f"bench/rows.txt hasn't this count of rows: {line}", file=sys.stderr)
        return 0 if page == lines else 1
    print("\n".join(lines))
    return 0


if __name__ == "__main__":
    sys.exit(main())
