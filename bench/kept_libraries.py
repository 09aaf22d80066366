#!/usr/bin/env python3
"""Gives checkouts the libraries that `rt ci` has kept of the same files, so that `rt check` there needn't build them again.

    bench/kept_libraries.py [CHECKOUT..]     this checkout, where none is given

A check over them is one for development: the gate makes its own. What a library is kept under is told by functions of the toolchain's
`rt`, which this loads; with another toolchain they may be others. A crate in whose folder a check runs is left alone.
"""
import importlib.machinery
import importlib.util
import os
import pathlib
import shutil
import sys

TOP = pathlib.Path(__file__).resolve().parent.parent


def load_rt():
    """The toolchain's `rt`, as a module."""
    path = os.path.realpath(shutil.which("rt"))
    loader = importlib.machinery.SourceFileLoader("toolchain_rt", path)
    module = importlib.util.module_from_spec(importlib.util.spec_from_loader("toolchain_rt", loader))
    sys.modules["toolchain_rt"] = module
    loader.exec_module(module)
    return module


def is_busy(folder):
    """Whether a check runs in the folder."""
    for process in pathlib.Path("/proc").glob("[0-9]*"):
        try:
            if os.readlink(process / "cwd") == folder and b"rattle" in (process / "cmdline").read_bytes():
                return True
        except OSError:
            pass
    return False


def give(rt, top):
    """Gives the checkout what is kept, lowest crates first, and tells the names."""
    os.chdir(top)
    rt.Crate.allowed = rt.handles_of(top)
    crates = rt.crates_of(top)
    kept, given = rt.Kept(crates), []
    for crate in crates:
        if crate.is_program or crate.is_static or any(below.name not in kept.rlibs for below in crate.below()):
            continue
        folder, key = f"{crate.folder}/out/rlib", kept.key(crate)
        if crate.is_built() and os.path.exists(f"{folder}/kept"):
            kept.is_built(crate)
        elif os.path.isdir(kept.place(crate, False, key)) and not is_busy(crate.folder):
            shutil.rmtree(folder, ignore_errors=True)
            if kept.give(crate, False, key):
                for name, text in (("kept", key), ("stamp", crate.stamp())):
                    pathlib.Path(folder, name).write_text(text)
                kept.is_built(crate)
                given.append(crate.name)
    return given


def main():
    sys.dont_write_bytecode = True
    rt = load_rt()
    for top in sys.argv[1:] or [str(TOP)]:
        print(top, *give(rt, os.path.realpath(top)))


if __name__ == "__main__":
    main()
