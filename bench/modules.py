#!/usr/bin/env python3
"""Tells which modules of a check took how long.

    bench/modules.py FOLDER [COUNT]

FOLDER is what `rattle check --incremental FOLDER` wrote, which was empty before and ended with all functions checked (docs/PROVING.md,
"What is dear"). Each function has several modules: `Lts` is its body step by step, in which all that an exit lets go is
taken apart; `Proof` its goals, with its answers; `Tie` the way from one to the other. What has another name is a definition or a file of
lemmas. Prints the seconds of each kind and those of the COUNT dearest modules (30), by the clock: each module counts from the one
that was written before it, so with checks beside it all are longer.
"""
import collections
import pathlib
import sys

KINDS = ("Answers", "Code", "Goals", "Invariants", "Key", "Kinds", "Lts", "Mir", "Proof", "Symbol", "TheLink", "Tie")


def kind_of(module):
    """The kind of a module: of a function's, its last word, else whether it is of specs/ or of proofs/."""
    words = module.split(".")
    return words[-1] if words[-1] in KINDS else words[0].rpartition("-")[2]


def main(folder, count=30):
    written = sorted((file.stat().st_mtime, file.stem) for file in pathlib.Path(folder).rglob("*.oantt"))
    if not written:
        print(f"{folder} holds no checked module", file=sys.stderr)
        return 1
    seconds = [(time - before, module) for (before, _), (time, module) in zip(written, written[1:])]
    kinds = collections.Counter()
    for second, module in seconds:
        kinds[kind_of(module)] += second
    for kind, sum_of_kind in kinds.most_common():
        print(f"{sum_of_kind:8.1f} {kind}")
    for second, module in sorted(seconds, reverse=True)[: int(count)]:
        print(f"{second:8.2f} {module}")
    return 0


if __name__ == "__main__":
    if len(sys.argv) not in (2, 3):
        sys.exit(__doc__.split("\n\n")[1].strip())
    sys.exit(main(*sys.argv[1:]))
