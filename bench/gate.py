#!/usr/bin/env python3
"""Runs the gate, and tells what its proofs, its tests and its wrong bodies take of the processors.

    bench/gate.py [--anew] [NAME..]     as rt ci

Its own lines begin with `gate:`: as each ends, the seconds of processor of a crate's proof, of its tests' proof, or of a wrong body
(where a crate has more than one, of the check that they begin with and the one after them, too); in the end the sums by crate and by
kind, with the time by the clock. Tests and programs that are run count as runs. What an earlier run has proved takes nothing, so
a whole measure wants --anew. RT_JOBS tasks run side by side; bind it by taskset to measure fewer processors.

It loads rt itself and looks at the resources of each process that ends, by the task that started it.
"""

import collections
import importlib.machinery
import importlib.util
import os
import resource
import shutil
import subprocess
import sys
import threading
import time
from concurrent.futures import ThreadPoolExecutor

plain_submit = ThreadPoolExecutor.submit
KINDS = {"proof": "proofs", "tests": "tests", "seed": "wrong bodies", "edits": "wrong bodies", "sound": "wrong bodies", "again": "wrong bodies"}


class Task:
    """A task of the gate, and the seconds of processor that it took so far."""

    def __init__(self, name, kind):
        self.name, self.kind, self.seconds = name, kind, 0


RUNS = Task("", "runs")
here = threading.local()
tasks = [RUNS]


def try_wait(self, flags):
    """As subprocess has it, over wait4."""
    try:
        pid, status, used = os.wait4(self.pid, flags)
    except ChildProcessError:
        return self.pid, 0
    if pid == self.pid:
        getattr(here, "task", RUNS).seconds += used.ru_utime + used.ru_stime
    return pid, status


def submit(self, call, /, *given, **named):
    """As an executor has it, but that the thread works for the same task."""
    task = getattr(here, "task", RUNS)

    def run(*given, **named):
        here.task = task
        return call(*given, **named)

    return plain_submit(self, run, *given, **named)


def measured(in_lanes):
    def call_of(key, call):
        def run(given, jobs):
            here.task = Task(key[0], KINDS[key[1]])
            tasks.append(here.task)
            try:
                return call(given, jobs)
            finally:
                if here.task.seconds >= 1:
                    print(f"gate: {here.task.seconds:7.1f} s  {key[0]} {' '.join(map(str, key[1:]))}", flush=True)

        return run

    return lambda tasks: in_lanes({key: (*it[:3], call_of(key, it[3])) for key, it in tasks.items()})


def main(words):
    path = os.path.realpath(shutil.which("rt"))
    sys.path.insert(0, os.path.dirname(path))
    loader = importlib.machinery.SourceFileLoader("rt", path)
    rt = importlib.util.module_from_spec(importlib.util.spec_from_loader("rt", loader))
    sys.modules["rt"] = rt
    loader.exec_module(rt)
    subprocess.Popen._try_wait = try_wait
    ThreadPoolExecutor.submit = submit
    rt.in_lanes = measured(rt.in_lanes)
    begun = time.monotonic()
    status = rt.main(["ci", *words])
    clock = time.monotonic() - begun
    own = resource.getrusage(resource.RUSAGE_SELF)
    RUNS.seconds += own.ru_utime + own.ru_stime
    sums, kinds = collections.Counter(), collections.Counter()
    for task in tasks:
        sums[task.name, task.kind] += task.seconds
        kinds[task.kind] += task.seconds
    for (name, kind), seconds in sums.most_common():
        if name and seconds >= 1:
            print(f"gate: {seconds:7.1f} s  {kind} of {name}")
    told = ", ".join(f"{kind} {kinds[kind] / 60:.1f}" for kind in ("proofs", "tests", "wrong bodies", "runs"))
    print(f"gate: processor minutes: {told}, all {sum(kinds.values()) / 60:.1f}; by the clock {clock / 60:.1f} minutes")
    return status


if __name__ == "__main__":
    sys.exit(main(sys.argv[1:]))
