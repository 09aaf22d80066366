#!/usr/bin/env python3
"""Builds the libraries of these crates and of all that they stand on, those of the longest chain first, for a check of one crate on a new
machine where the toolchain's `rt` keeps nothing of what a gate has proved.

    bench/libraries.py [--workers N] [--jobs N] [--from CHECKOUT] [NAME..]     all libraries, where no crate is named

WORKERS crates at a time (4), each with JOBS jobs (2), of 1 to 3 GB. What CHECKOUT has built of the same files is copied. A library that is
built already is left. `rt all check` does the same, but first goes over each crate's sources, one after another. What a library is kept
under is told by functions of the toolchain's `rt`, which this loads; with another toolchain they may be others. A crate that isn't proved
is named with what its check said, in out/library.log, and none above it is begun; the status is 0 where all were built.
"""
import argparse
import functools
import os
import pathlib
import shutil
import subprocess
import sys
import threading
import time

from kept_libraries import load_rt

TOP = pathlib.Path(__file__).resolve().parent.parent


def crate_in(rt, folder):
    """The crate of the folder, as rt sees it."""
    os.chdir(folder)
    return rt.rtlib.Crate(str(folder), str(folder.parent.parent), {}, name=None)


def build(rt, folder, jobs):
    """Builds the crate's library in this process, over those below it."""
    crate = crate_in(rt, folder)
    crate.out = sys.stdout
    os.makedirs("out", exist_ok=True)
    return crate.build_rlib(["--jobs", str(jobs)], anew=False)


def copied(crate, other):
    """Whether the crate's library was built, or another checkout's of the same files was copied."""
    own = pathlib.Path(crate.folder, "out/rlib")
    there = pathlib.Path(other, "crates", crate.name, "out/rlib")
    if not crate.is_built() and (there / "stamp").is_file() and (there / "stamp").read_text() == crate.stamp():
        shutil.rmtree(own, ignore_errors=True)
        shutil.copytree(there, own)
    return crate.is_built()


def chain(crate, above, known):
    """How many lines of sources stand in the longest chain of crates from this one up."""
    if crate.name not in known:
        known[crate.name] = crate.count(rb"\n") + max((chain(it, above, known) for it in above[crate.name]), default=0)
    return known[crate.name]


class Work:
    """Crates whose libraries are to be built, each once those below it are."""

    def __init__(self, crates, jobs):
        self.left, self.jobs = {it.name: it for it in crates}, jobs
        self.done, self.failed, self.running = set(), set(), set()
        above = {it.name: [other for other in crates if it in other.below()] for it in crates}
        known = {}
        self.length = {it.name: chain(it, above, known) for it in crates}
        self.turn = threading.Condition()

    def next(self):
        """The crate to begin with next, or none where none is left that can be built."""
        while True:
            ready = [it for it in self.left.values() if all(low.name in self.done for low in it.below())]
            if ready:
                crate = max(ready, key=lambda it: self.length[it.name])
                del self.left[crate.name]
                self.running.add(crate.name)
                return crate
            if not self.running:
                return None
            self.turn.wait()

    def run(self):
        while True:
            with self.turn:
                crate = self.next()
            if crate is None:
                return
            started = time.time()
            os.makedirs(f"{crate.folder}/out", exist_ok=True)
            with open(f"{crate.folder}/out/library.log", "w") as log:
                words = [sys.executable, __file__, "--jobs", str(self.jobs), "--alone", crate.folder]
                status = subprocess.run(words, stdout=log, stderr=subprocess.STDOUT).returncode
            with self.turn:
                self.running.discard(crate.name)
                (self.failed if status else self.done).add(crate.name)
                print(crate.name, "NOT PROVED" if status else "built", f"{time.time() - started:.0f} s", flush=True)
                self.turn.notify_all()


def main():
    words = argparse.ArgumentParser()
    words.add_argument("--workers", type=int, default=4)
    words.add_argument("--jobs", type=int, default=2)
    words.add_argument("--from", dest="other")
    words.add_argument("--alone", help=argparse.SUPPRESS)
    words.add_argument("names", nargs="*")
    given = words.parse_args()
    rt = load_rt()
    # It is computed along each path of crates.txt else.
    rt.rtlib.Crate.stamp = functools.cache(rt.rtlib.Crate.stamp)
    if given.alone:
        sys.exit(build(rt, pathlib.Path(given.alone), given.jobs))
    os.chdir(TOP)
    all_crates = [it for it in rt.rtlib.crates_below(str(TOP)) if it.makes_rlib()]
    named = [it for it in all_crates if not given.names or it.name in given.names]
    wanted = [it for it in all_crates if it in named or any(it.name == low.name for top in named for low in top.below())]
    wanted.sort(key=lambda it: len(it.below()))
    built = {it.name for it in wanted if copied(it, given.other or TOP)}
    work = Work([it for it in wanted if it.name not in built], given.jobs)
    work.done |= built
    workers = [threading.Thread(target=work.run) for _ in range(given.workers)]
    for it in workers:
        it.start()
    for it in workers:
        it.join()
    sys.exit(1 if work.failed or work.left else 0)


if __name__ == "__main__":
    main()
