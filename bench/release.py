#!/usr/bin/env python3
"""Runs the tests that the gate leaves out, and keeps in bench/runs.txt when each passed last, and over which sources.

    bench/release.py                    tells each test whose sources have changed since it passed; the gate prints that as a warning
    bench/release.py --run [NAME..]     runs these, or all whose sources have changed, and keeps those that pass
    bench/release.py --passed NAME..    keeps these as passed now, as after a run by hand

LINKD and BENCH of the environment are the built programs (else crates/linkd/out/linkd and crates/bench/out/bench), and LINKD_ARCHIVE the
library for C, as in bench/embed.sh. A line of runs.txt is a name, a date, and the digest of the sources: of the files that git keeps below
the paths of the test, without the proofs and wrong bodies of crates. The status is 0 unless a test that was run has failed.
"""
import argparse
import datetime
import hashlib
import os
import pathlib
import re
import subprocess
import sys

TOP = pathlib.Path(__file__).resolve().parent.parent
RUNS = TOP / "bench/runs.txt"
LINKD = os.environ.get("LINKD", "crates/linkd/out/linkd")
BENCH = os.environ.get("BENCH", "crates/bench/out/bench")
HOST = ["include", "crates/jl_host", "crates/linkd_c"]
# Of each test its command and the paths of what it tests.
TESTS = {
    "agent": (["bench/agent.sh"], ["bench/agent.sh", "examples/agent", *HOST]),
    "beside": (["bench/beside.py"], ["bench/beside.py", "crates/jl_core", "crates/jl_renewal"]),
    "drawn": (["bench/drawn.py", LINKD], ["bench/drawn.py", "bench/drawn_world.py", "crates/jl_classfile", "crates/jl_core", "crates/jl_json"]),
    "embed": (["bench/embed.sh"], ["bench/embed.sh", "bench/statuses.c", "bindings/rust", "examples/host", "tools", *HOST]),
    "growths": (["bench/growths.sh", BENCH, LINKD], ["bench/growths.sh", "bench/growths.py", "crates/jl_core", "crates/jl_server"]),
    "hostile": (["bench/hostile.py", "--all", LINKD], ["bench/hostile.py", "bench/hostile_reader.py", "crates/jl_pool", "crates/jl_code", "crates/jl_classfile"]),
    "hotspot": (["bench/hotspot.sh", LINKD], ["bench/hotspot.sh", "bench/hotspot.py", "docs/HOTSPOT.md", "crates/jl_types/specs"]),
    "install": (["bench/install.sh"], ["bench/install.sh", "tools", *HOST]),
    "java": (["bindings/java/test.sh"], ["bindings/java", *HOST]),
    "report_rows": (["bench/report_rows.sh", LINKD], ["bench/report_rows.sh", "crates/jl_report", "crates/jl_listing", "crates/jl_paths"]),
    "retire": (["bench/retire.py", LINKD], ["bench/retire.py", "crates/jl_core", "crates/jl_hierarchy"]),
    "rust": (["cargo", "test", "--manifest-path", "bindings/rust/Cargo.toml"], ["bindings/rust", *HOST]),
    "vm": (["bench/vm.sh"], ["bench/vm.sh", "examples/vm", *HOST]),
}


def digest(paths):
    """The digest of the files below the paths that git keeps, as they stand."""
    listed = subprocess.run(["git", "ls-files", "-z", *paths], cwd=TOP, check=True, capture_output=True).stdout.split(b"\0")
    found = hashlib.sha256()
    for name in sorted(filter(None, listed)):
        if re.search(rb"^crates/\w+/(proofs|edits|must-fail)/", name):
            continue
        file = TOP / name.decode()
        found.update(name + b"\0" + (file.read_bytes() if file.is_file() else b"") + b"\0")
    return found.hexdigest()[:16]


def kept():
    """The date and the digest of each test that passed."""
    return {name: rest for name, *rest in (line.split() for line in RUNS.read_text().splitlines() if line)} if RUNS.exists() else {}


def keep(names):
    runs = kept()
    for name in names:
        runs[name] = [datetime.date.today().isoformat(), digest(TESTS[name][1])]
    RUNS.write_text("".join(f"{name} {' '.join(runs[name])}\n" for name in sorted(runs) if name in TESTS))


def older():
    """Each test whose sources have changed since it passed, with what is to be told of it."""
    runs = kept()
    return {
        name: f"passed on {runs[name][0]}, and its sources have changed since" if name in runs else "never passed here"
        for name, (_, paths) in TESTS.items()
        if runs.get(name, [None, None])[1] != digest(paths)
    }


def main():
    read = argparse.ArgumentParser(usage=__doc__)
    read.add_argument("--run", nargs="*", choices=TESTS, metavar="NAME")
    read.add_argument("--passed", nargs="+", choices=TESTS, metavar="NAME")
    said = read.parse_args()
    if said.passed:
        keep(said.passed)
    if said.run is None:
        for name, told in older().items():
            print(f"bench/release.py: {name}: {told}")
        return 0
    failed = []
    for name in said.run or older():
        print(f"== {name}", flush=True)
        if subprocess.run(TESTS[name][0], cwd=TOP).returncode:
            failed.append(name)
        else:
            keep([name])
    print("failed: " + ", ".join(failed) if failed else "all passed")
    return 1 if failed else 0


if __name__ == "__main__":
    sys.exit(main())
