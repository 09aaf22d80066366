#!/usr/bin/env python3
"""Runs a program and prints each line of its standard error there, with the megabytes that are resident once it came, and then the most that
were.

    bench/resident.py PROGRAM [WORD..]

The standard input and output are the program's. It ends with the program's status. Of Linux alone.
"""
import os
import subprocess
import sys

PAGE = os.sysconf("SC_PAGE_SIZE")


def megabytes(process):
    """Of a program that has ended meanwhile, none."""
    try:
        with open(f"/proc/{process}/statm") as file:
            return int(file.read().split()[1]) * PAGE / 1e6
    except (OSError, IndexError):
        return 0


def main(words):
    if not words:
        sys.exit(__doc__)
    ran = subprocess.Popen(words, stderr=subprocess.PIPE, text=True)
    for line in ran.stderr:
        print(f"{line.strip()}, {megabytes(ran.pid):.1f} MB", file=sys.stderr)
    _, status, used = os.wait4(ran.pid, 0)
    ran.returncode = os.waitstatus_to_exitcode(status)
    print(f"at most {used.ru_maxrss * 1024 / 1e6:.1f} MB", file=sys.stderr)
    return ran.returncode


if __name__ == "__main__":
    sys.exit(main(sys.argv[1:]))
