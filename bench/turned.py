#!/usr/bin/env python3
"""Turns definitions by a fixed draw, and tells what refuses each.

    bench/turned.py --list [--seed N] [--each N] [CRATE..]                    prints the draw
    bench/turned.py [--check COMMAND] [--seed N] [--each N] [CRATE..]         applies each to a copy, and tells what refuses it

Of each CRATE (the ten lowest with edits/, where none is given) N turnings are drawn, two if N isn't given: definitions of its edits/
(`file: specs/..`); where it has none of these, but proofs/Rows, sentences of its specs/ with one `&&`, `||`, test, truth or number turned;
and else bodies of its edits/. The generator is Python's, of seed 17 if none is given.

A definition and a sentence have to be refused by a theorem of the crate's proofs/Rows, which holds by computation. They are checked alone, in
a copy in which one more law imports them, by `rt check`; --check gives another command, in which {top} stands for the copy, {crate} for the
crate and {only} for the law: so libraries that stand elsewhere are taken. A body has to be refused by a row: the rows that stand on the crate
run by `rt try` in the copy, without proof, those with the fewest libraries first, up to the first that differs. The rows of rows/ want the
built program, and aren't tried.

One check runs at a time: half a minute for a definition, one to four minutes for each crate of rows. The status is 0 if all were refused.
"""

import argparse
import pathlib
import random
import re
import shutil
import subprocess
import sys
import tempfile

TOP = pathlib.Path(__file__).resolve().parent.parent
LAW = "turned_rows_hold"
SECONDS = 600


def libraries():
    """What each crate uses, by crates.txt, in its order."""
    lines = [line.split("#")[0] for line in (TOP / "crates.txt").read_text().split("\n")]
    return {head.split()[0]: used.split() for head, used in (line.split(":") for line in lines if ":" in line)}


TURNS = [
    (r"&&", "||"),
    (r"\|\|", "&&"),
    (r"\bnat_lt\b", "nat_le"),
    (r"\bnat_le\b", "nat_lt"),
    (r"\bis_some\b", "is_none"),
    (r"\bis_none\b", "is_some"),
    (r"(?<== )true$", "false"),
    (r"(?<== )false$", "true"),
    (r"(?<![\w.])\d+(?![\w.]| \^)", lambda found: str(int(found[0]) + 1)),
    (r"(?<![\w.])0x[0-9a-f]+(?![\w.])", lambda found: hex(int(found[0], 16) + 1)),
]
PRELUDE = "use Rattle.std.specs.Prelude.{"


class Turning:
    """What is turned of a crate: pairs of an old text and a new one, by their files."""

    def __init__(self, crate, kind, name, pairs):
        self.crate, self.kind, self.name, self.pairs = crate, kind, name, pairs

    def __str__(self):
        return f"{self.crate}/{self.name} ({self.kind})"

    def apply(self, folder):
        """Makes the changes in the crate's folder; an old text stands in its file once."""
        for path, old, new in self.pairs:
            text = (folder / path).read_text()
            if text.count(old) != 1:
                raise ValueError(f"stands {text.count(old)} times in {path}: {old}")
            (folder / path).write_text(text.replace(old, new))


def stored(crate, kind, below):
    """The crate's edits of files below this folder alone, as rt reads edits."""
    for edit in sorted((TOP / "crates" / crate / "edits").glob("*.edit")):
        path, old, pairs = None, None, []
        for line in edit.read_text().split("\n"):
            if line.startswith("file: "):
                path = line[len("file: ") :].strip()
            elif line.startswith("old: "):
                old = line[len("old: ") :]
            elif line.startswith("new:"):
                pairs.append((path, old, line[len("new:") :].removeprefix(" ")))
        if all(path.startswith(below) for path, _, _ in pairs):
            yield Turning(crate, kind, edit.stem, pairs)


def sentences(crate):
    """The sentences of the crate's definitions, each turned in one place."""
    folder = TOP / "crates" / crate
    for file in sorted((folder / "specs").glob("**/*.antt")):
        text, path = file.read_text(), str(file.relative_to(folder))
        if "ForProofs" in path:
            continue
        for number, line in enumerate(text.split("\n"), 1):
            if re.match(r"use |--|pub mod|(pub )?(abbrev|data|record|unfoldable)? ?\S+ :", line) or text.count(line) != 1 or "=" not in line:
                continue
            head = line.index("=")
            for turn, into in TURNS:
                for found in re.finditer(turn, line[head:]):
                    turned = into(found) if callable(into) else into
                    new = line[: head + found.start()] + turned + line[head + found.end() :]
                    word = {"&&": "◌&&◌", "||": "◌||◌"}.get(into, into)
                    lacks = isinstance(word, str) and not re.search(rf"use[^\n]*[{{ ]{re.escape(word)}[,}}]", text) and PRELUDE in text
                    first = re.search(rf"^{re.escape(PRELUDE)}.*", text, re.M)[0] if lacks else ""
                    more = [(path, first, first.replace(PRELUDE, f"{PRELUDE}{word}, "))] if lacks else []
                    yield Turning(crate, "sentence", f"{path}:{number} {new.strip()}", [(path, line, new), *more])


def candidates(crate):
    """What can be turned: definitions of edits/, else sentences where rows of proofs/ may refuse them, else bodies."""
    definitions = list(stored(crate, "definition", "specs/"))
    if definitions:
        return definitions
    has_rows = (TOP / "crates" / crate / "proofs/Rows.antt").exists()
    return (has_rows and list(sentences(crate))) or list(stored(crate, "body", "src/"))


def drawn(seed, each, crates):
    """The drawn turnings, crate by crate; a crate's draw is the same whichever other crates are asked for."""
    for crate in crates:
        found = candidates(crate)
        at = random.Random(f"{seed} {crate}").sample(range(len(found)), min(each, len(found)))
        yield from (found[one] for one in sorted(at))


def add_law(crate, folder):
    """One more law of the crate, whose answer imports the theorems of proofs/Rows."""
    root = folder / "src" / ("lib.rt" if (folder / "src/lib.rt").exists() else "main.rt")
    root.write_text(re.sub(r"^((?:pub )?mod )", r"pub mod turned;\n\1", root.read_text(), count=1, flags=re.M))
    clause = "ghost use Rattle.std.specs.Prelude.{ℕ, ◌≡◌};\n\n"
    (folder / "src/turned.rt").write_text(f"//! Worked rows.\n\n{clause}/// They hold.\npub fn {LAW}()\n    ensures {{ (n : ℕ) → n ≡ n }}\n{{}}\n")
    rows = sorted((folder / "proofs").glob("Rows/**/*.antt")) or [folder / "proofs/Rows.antt"]
    names = [".".join(row.relative_to(folder).with_suffix("").parts) for row in rows]
    uses = "".join(f"use Rattle.{crate}.{name} as rows{at}\n" for at, name in enumerate(names))
    answers = folder / "proofs/turned" / LAW
    answers.mkdir(parents=True)
    goals = f"use Rattle.{crate}.proofs.turned.{LAW}.Goals as goal\n"
    text = f"use Rattle.std.specs.Prelude.{{refl}}\n{uses}{goals}\npub returns : goal.returns\nreturns c n = refl\n"
    (answers / "Answers.antt").write_text(text)


def run(words, folder):
    done = subprocess.run(words, cwd=folder, stdin=subprocess.DEVNULL, stdout=subprocess.PIPE, stderr=subprocess.STDOUT, errors="replace")
    return done.returncode, done.stdout


def by_theorem(crate, copy, command):
    """The theorems that refuse the definition as it stands in the copy, or why there is no answer."""
    folder = copy / "crates" / crate
    if not (folder / "proofs/Rows.antt").exists():
        return None, "it has no proofs/Rows"
    add_law(crate, folder)
    words = [word.format(top=copy, crate=crate, only=LAW) for word in command.split()]
    _, told = run(words, copy)
    errors = re.findall(r"^(?:\./)?(\S+?\.(?:antt|rt)):\d+:\d+: error: (.*)", told, re.M)
    unread = [f"{file}: {error}" for file, error in errors if file.startswith(("specs/", "src/"))]
    if unread or f"fn {crate}::turned::{LAW}: " not in told:
        return None, (unread or told.strip().split("\n")[-1:])[0]
    by = [f"{file.removeprefix('proofs/')} {name}" for file, error in errors for name in re.findall(r"^`([^`]+)`", error) if "Rows" in file]
    return ", ".join(by[:3]) + (f" and {len(by) - 3} more" if len(by) > 3 else ""), ""


def has_rows(folder):
    """Whether this crate is a program, or has tests."""
    return (folder / "src/main.rt").exists() or any("#[test]" in file.read_text() for file in folder.glob("src/**/*.rt"))


def differing(crate, folder):
    """The first line by which a crate of rows differs from what it must tell, if one does."""
    if not (folder / "src/main.rt").exists():
        status, told = run(["rt", "try", "--test", "--seconds", str(SECONDS)], folder)
        failed = re.findall(r"^test (\S+) \.\.\. FAILED\n? *(.*)$", told, re.M)
        if failed:
            return f"{crate}: {failed[0][0]}, {failed[0][1][:100]}"
        return f"{crate}: status {status}" if status else ""
    words = (folder / "args").read_text().split("\n")[:-1] if (folder / "args").exists() else []
    data = [word for file in sorted(folder.glob("data/*")) for word in ("--data", f"{file.name}={file}")]
    status, told = run(["rt", "try", "--seconds", str(SECONDS), *data, "--", *words], folder)
    wanted = (folder / "stdout").read_text().split("\n")
    lines = [line.removeprefix("| ") for line in told.split("\n")]
    lacking = [line for line in wanted if line not in lines]
    other = [line for line in lines if re.search(r" in the text, | came:|expected:", line)]
    return f"{crate}: {(other or lacking)[0][:120]}" if lacking else ""


def by_row(crate, copy, uses):
    """The row that refuses the body as it stands in the copy."""
    above = [rows for rows in uses if rows.startswith("rows_") and crate in uses[rows] and has_rows(copy / "crates" / rows)]
    above.sort(key=lambda rows: len(uses[rows]))
    for rows in above:
        if by := differing(rows, copy / "crates" / rows):
            return by
    return ""


def judged(turning, copy, uses, command):
    """What refuses the turning in the copy, or nothing, or why there is no answer."""
    try:
        turning.apply(copy / "crates" / turning.crate)
    except ValueError as fault:
        return None, str(fault)
    if turning.kind == "body":
        return by_row(turning.crate, copy, uses), ""
    return by_theorem(turning.crate, copy, command)


def main():
    read = argparse.ArgumentParser(usage=__doc__)
    read.add_argument("--list", action="store_true")
    read.add_argument("--seed", type=int, default=17)
    read.add_argument("--each", type=int, default=2)
    read.add_argument("--check", default=f"env -C crates/{{crate}} rt check --only {LAW} --allow-holes")
    read.add_argument("crates", nargs="*")
    said = read.parse_args()
    uses = libraries()
    crates = said.crates or [crate for crate in uses if candidates(crate)][:10]
    print(f"seed {said.seed}")
    left = 0
    for turning in drawn(said.seed, said.each, crates):
        if said.list:
            print(turning)
            continue
        with tempfile.TemporaryDirectory() as room:
            copy = pathlib.Path(room)
            shutil.copytree(TOP, copy, dirs_exist_ok=True, ignore=shutil.ignore_patterns(".git", "must-fail", "edits"))
            by, why = judged(turning, copy, uses, said.check)
        left += not by
        print(f"{turning}: " + (f"refused by {by}" if by else "NOT REFUSED" if by is not None else f"no answer: {why}"), flush=True)
    return 1 if left else 0


if __name__ == "__main__":
    sys.exit(main())
