#!/usr/bin/env python3
"""Holds the pages to the sources. Of docs/PROMISES.md each call is a public function of the file that it leads to, with a clause of each
name that stands after it in brackets, and so is each of README.md's promises; each crate and script is there, which docs/TESTS.md names, too, and
bench/README.md names each script that is run by itself; docs/DEFINITIONS.md names each file of definitions, and as the headline's reading list
exactly what its file reaches by its imports, of which README.md says how much it is; docs/CRATES.md names each crate below those that it uses, and
leads for each name to the file that declares it; each link of a page leads to a file, and to a heading if it names one; and the newest
versions of class files and the version of the header are the same wherever they have to be written again.

    bench/promises.py     at the top of the repository; prints what isn't so, and ends with status 0 where all is
"""
import pathlib
import re
import sys

TOP = pathlib.Path(".")
# Where the newest known version of class files stands: first where it is said, then in what isn't Rattle.
NEWEST = {
    "crates/jl_classfile/src/version.rt": r"pub const NEWEST_KNOWN: u16 = (\d+);",
    "include/linkd.h": r"#define LINKD_NEWEST_KNOWN (\d+)\n",
    "bindings/rust/src/lib.rs": r"pub const NEWEST_KNOWN: u16 = (\d+);",
    "bindings/java/src/linkd/Linker.java": r"int NEWEST_KNOWN = (\d+);",
    "tools/classes.py": r"\nNEWEST_KNOWN = (\d+)\n",
}
# The same of the newest version of SE 17.
NEWEST_OF_17 = {
    "crates/jl_classfile/src/version.rt": r"pub const NEWEST_OF_17: u16 = (\d+);",
    "include/linkd.h": r"#define LINKD_NEWEST_OF_17 (\d+)\n",
    "bindings/rust/src/lib.rs": r"pub const NEWEST_OF_17: u16 = (\d+);",
    "bindings/java/src/linkd/Linker.java": r"int NEWEST_OF_17 = (\d+);",
}
# The same of the version of the header.
HEADER = {
    "include/linkd.h": r"#define LINKD_VERSION (\d+)\n",
    "crates/linkd_c/src/lib.rt": r"fn linkd_version\(\) -> u32\n    ensures \{ result ≡ (\d+) \}\n",
    "bindings/rust/src/raw.rs": r"pub const VERSION: u32 = (\d+);",
    "bindings/java/src/linkd/Library.java": r"int VERSION = (\d+);",
}


def clauses():
    """The names of the clauses of each public function, by its file and its name with its type."""
    found = {}
    for file in sorted(TOP.glob("crates/*/src/**/*.rt")):
        owner, named = None, None
        for line in file.read_text().split("\n"):
            if line.startswith("impl"):
                owner = re.sub(r"<.*?>+", "", line.split(" for ")[-1].removeprefix("impl")).split("{")[0].split()[0]
            elif line.startswith("}"):
                owner, named = None, None
            if function := re.match(r"\s*(pub(?:\(crate\))? )?(?:extern \"C\" )?fn (\w+)", line):
                named = (str(file), (f"{owner}::" if owner else "") + function.group(2)) if function.group(1) == "pub " else None
                if named:
                    found.setdefault(named, set())
            elif named and (clause := re.match(r"\s*ensures (\w+)? ?\{", line)):
                found[named].add(clause.group(1) or "")
            elif line.strip() == "{":
                named = None
    return found


def definitions():
    """The files of specs/ that docs/DEFINITIONS.md doesn't name exactly once in its tables: all but those that only list others, and such as
    are a means of proof, by their folder or by their first line."""
    wrong, page = [], (TOP / "docs/DEFINITIONS.md").read_text()
    rows = re.findall(r"^\|(.*)\|$", page.split("\n## ", 2)[2], re.M)
    named = [file for row in rows for file in re.findall(r"\]\(\.\./(crates/\w+/specs/[^)]*)\)", row)]
    for path in sorted(TOP.glob("crates/*/specs/**/*.antt")):
        text = path.read_text()
        is_node = not re.sub(r"(?m)^(--.*|pub mod .*|\s*)$", "", text).strip()
        is_means = "ForProofs" in path.parts or path.stem == "ForProofs" or "A means of proof." in text.split("use ")[0].replace("\n-- ", " ")
        if named.count(str(path)) != (0 if is_node or is_means else 1):
            wrong.append(f"docs/DEFINITIONS.md names {path} {named.count(str(path))} times")
    return wrong


def imported(text):
    """The files of specs/ whose definitions the text imports. What is made of the sources' types has no file."""
    found = set()
    for crate, module in re.findall(r"use Rattle\.(\w+)\.specs\.([\w.]+)", text):
        parts = module.strip(".").split(".")
        paths = [TOP / "crates" / crate / "specs" / "/".join(parts[:count]) for count in range(len(parts), 0, -1)]
        found |= set([path.with_suffix(".antt") for path in paths if path.with_suffix(".antt").is_file()][:1])
    return found


def headline():
    """What docs/DEFINITIONS.md has to be read for the headline, and what README.md says of how much that is, beside what the file of its law
    reaches."""
    reached, left = set(), imported((TOP / "crates/jl_core/src/laws.rt").read_text())
    while left:
        path = left.pop()
        if path not in reached:
            reached.add(path)
            left |= imported(path.read_text())
    page = (TOP / "docs/DEFINITIONS.md").read_text().split("\n## The headline\n")[1].split("\n## ")[0]
    named = {TOP / file for file in re.findall(r"\]\(\.\./(crates/\w+/specs/[^)]*)\)", page)}
    wrong = [f"docs/DEFINITIONS.md: the headline rests on {path}, too" for path in sorted(reached - named)]
    wrong += [f"docs/DEFINITIONS.md: the headline doesn't rest on {path}" for path in sorted(named - reached)]
    lines = sum(len(path.read_text().splitlines()) for path in reached)
    said = f"{len(reached)} files of definitions, {lines:,} lines"
    return wrong + ([] if said in (TOP / "README.md").read_text().replace("\n", " ") else [f"README.md doesn't say: {said}"])


def crates():
    """The crates that docs/CRATES.md leaves out, or names above one that they use."""
    rows = re.findall(r"^\| (.*?) \|", (TOP / "docs/CRATES.md").read_text(), re.M)
    named = [name for row in rows for name in re.findall(r"`crates/(\w+)`", row)]
    lines = [line.split("#")[0].split(":") for line in (TOP / "crates.txt").read_text().split("\n") if ":" in line.split("#")[0]]
    uses = {head.split()[0]: used.split() for head, used in lines}
    wrong = [f"docs/CRATES.md has no {name}" for name in uses if name not in named]
    places = {name: place for place, name in enumerate(named)}
    return wrong + [
        f"docs/CRATES.md has {name} above {used}"
        for name in uses
        for used in uses[name]
        if places.get(used, -1) > places.get(name, len(named))
    ]


def pointed():
    """The names for which docs/CRATES.md leads to a source that doesn't declare them."""
    page, wrong = TOP / "docs/CRATES.md", []
    for name, path in re.findall(r"\[`([\w:]+)`\]\(([^)]*\.rt)\)", page.read_text()):
        file = page.parent / path
        text = file.read_text() if file.is_file() else ""
        for word in name.split("::"):
            if not re.search(rf"^ *(pub(\(crate\))? )?(fn|struct|enum|trait|impl)\b[^{{(]*\b{word}\b|^    {word}\b[,({{ ]", text, re.M):
                wrong.append(f"{page}: {path} declares no {word}")
    return wrong


def differing(what, places):
    """The places that have another version than the first, or none."""
    said = {path: re.findall(pattern, (TOP / path).read_text()) for path, pattern in places.items()}
    first, *others = said
    return [f"{path}: {what} is {said[path]}, and in {first} {said[first]}" for path in others if said[path] != said[first]]


def promised(page, rows, found, are_named):
    """What the tables' calls aren't: public functions of the files that they lead to, each with a clause and with those that are named."""
    wrong = []
    for row in re.findall(r"^\|.*\|$", rows, re.M):
        for call, path, names in re.findall(r"`([A-Za-z0-9_:]+)`(?:\]\(([^)]*)\))?(?: \(([\w, ]+)\))?", row.split("|")[2]):
            if "/" in call or call.startswith("proofs"):
                continue
            stated = found.get((str((page.parent / path).resolve().relative_to(TOP.resolve())), call))
            if not path or stated is None:
                wrong.append(f"{page}: {call} is no public function of {path or 'a file that it leads to'}")
            elif not stated:
                wrong.append(f"{page}: {call} has no clause")
            elif are_named:
                wrong += [f"{page}: {call} has no clause {name}" for name in names.split(", ") if name and name not in stated]
                if not names and "" not in stated:
                    wrong.append(f"{page}: {call} has named clauses: {', '.join(sorted(stated))}")
    return wrong


def absent(page):
    """The crates of rows, and the files of bench/, crates/ and rows/, that the page names and that aren't there."""
    wrong = [f"no crate {name}" for name in set(re.findall(r"`((?:rows|trial)_\w+)`", page)) if not (TOP / "crates" / name).is_dir()]
    names = set(re.findall(r"`((?:bench|crates|rows)/[\w./]+)`", page)) | set(re.findall(r"\bbench/\w+\.(?:sh|py)\b", page))
    return wrong + [f"no {name}" for name in names if not (TOP / name).exists()]


def scripts():
    """The scripts that bench/README.md doesn't name in a table, and those that it names and that aren't there."""
    rows = "\n".join(re.findall(r"^\| `.*\|$", (TOP / "bench/README.md").read_text().split("\n## What figures mean")[0], re.M))
    named = set(re.findall(r"`(\w+\.(?:sh|py))`", rows))
    there = {path.name: path.read_text().startswith("#!") for path in (TOP / "bench").iterdir() if path.suffix in (".sh", ".py")}
    unnamed = [name for name, is_run in sorted(there.items()) if is_run and name not in named]
    return [f"bench/README.md doesn't name {name}" for name in unnamed] + [f"no bench/{name}" for name in sorted(named - there.keys())]


def headings(file):
    """What a link may name of a page after #."""
    titles = re.findall(r"^#+ (.*)$", file.read_text(), re.M)
    return {re.sub(r"[^\w -]", "", re.sub(r"\[(.*?)\]\(.*?\)", r"\1", title).lower()).replace(" ", "-") for title in titles}


def broken(file):
    """The links of the page that lead nowhere."""
    wrong = []
    for link, heading in re.findall(r"\]\(([^)#\s]*)(?:#([^)\s]*))?\)", file.read_text()):
        if "://" in link:
            continue
        to = file.parent / link if link else file
        if not to.exists():
            wrong.append(f"{file}: no {link}")
        elif heading and to.suffix == ".md" and heading not in headings(to):
            wrong.append(f"{file}: {link} has no heading {heading}")
    return wrong


def main():
    page, found = (TOP / "docs/PROMISES.md").read_text(), clauses()
    wrong = definitions() + headline() + crates() + pointed()
    wrong += differing("the newest known version", NEWEST) + differing("the newest version of 17", NEWEST_OF_17) + differing("the version of the header", HEADER)
    wrong += promised(TOP / "docs/PROMISES.md", page.split("## What no clause says")[0], found, True)
    first = (TOP / "README.md").read_text().split("## What is proved")[1].split("\n## ")[0]
    wrong += promised(TOP / "README.md", first, found, False)
    wrong += absent(page) + absent((TOP / "docs/TESTS.md").read_text()) + scripts()
    for file in [TOP / "README.md", TOP / "CONTRIBUTING.md", *TOP.glob("docs/*.md"), TOP / "bench/README.md"]:
        wrong += broken(file)
    print("\n".join(wrong) if wrong else "each promise names its clauses, and each file of definitions is named")
    return 1 if wrong else 0


if __name__ == "__main__":
    sys.exit(main())
