#!/usr/bin/env python3
"""Checks a crate, or some of its functions, over the libraries that are built, and over the sources of those that aren't.

    bench/check.py CRATE [--only FUNCTION].. [--jobs N] [any other word of `rattle check`]     with --allow-holes, in this checkout

`bench/kept_libraries.py` first gives the checkout what is kept. A FUNCTION is named as a check names it, or by the end of that. What an
asked function calls of a crate that is taken as source is proved, too, so it takes long where much below isn't built. It is a check for
development: the gate makes its own.
"""
import os
import pathlib
import shutil
import sys

import kept_libraries

KIT = pathlib.Path(os.path.realpath(shutil.which("rt"))).parent.parent
RLIBS = KIT / "rlibs"


def kit_of(top, names):
    """Of each crate the libraries of the kit that crates.txt names."""
    kit = {}
    with open(f"{top}/crates.txt") as lines:
        for line in lines:
            name, _, below = line.split("#")[0].partition(":")
            if name.strip():
                kit[name.split()[0]] = [word for word in below.split() if word not in names]
    return kit


def command(rt, top, name, words):
    """The check of the crate as a list of words, and the crates that it takes as source."""
    crates = {crate.name: crate for crate in rt.crates_of(top)}
    kit = kit_of(top, crates)
    below, sources = list(crates[name].below()), []
    made = [str(KIT / "bin/rattle"), "check", "--crate-name", name, "src/lib.rt", "--allow-holes"]
    made += ["--antt-project", f"{KIT}/rattle/logic/antt-project.json", "--logic-built", f"{KIT}/logic_built"]
    made += ["--links", f"{name}=", "-L", f"dependency={RLIBS}", "--extern", f"std={RLIBS}/std.rlib"]
    for library in sorted({library for crate in [name] + [crate.name for crate in below] for library in kit[crate]}):
        made += ["--extern", f"{library}={RLIBS}/{library}.rlib"]
    for crate in below:
        folder = f"{crate.folder}/out/rlib"
        if crate.is_built():
            made += ["--extern", f"{crate.name}={folder}/{crate.name}.rlib", "-L", f"dependency={folder}"]
        else:
            uses = ["std"] + kit[crate.name] + [other.name for other in crate.below()]
            made += ["--lib", f"{crate.name}:{','.join(uses)}={crate.folder}/src/lib.rt"]
            sources.append(crate.name)
    return made + words, sources, crates[name].folder


def main():
    sys.dont_write_bytecode = True
    if len(sys.argv) < 2 or sys.argv[1].startswith("-"):
        sys.exit(__doc__)
    top = str(kept_libraries.TOP)
    rt = kept_libraries.load_rt()
    os.chdir(top)
    kept_libraries.give(rt, top)
    made, sources, folder = command(rt, top, sys.argv[1], sys.argv[2:])
    if sources:
        print("taken as source:", " ".join(sources), file=sys.stderr)
    os.chdir(folder)
    os.execv(made[0], made)


if __name__ == "__main__":
    main()
