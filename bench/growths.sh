#!/usr/bin/env bash
# Refuses each growth in turn, and compares what is answered with what must be.
#
#     bench/growths.sh [BENCH [LINKD [ARCHIVE]]]
#     bench/growths.sh --named [--quiet] BENCH
#
# BENCH is the built crates/bench, LINKD the built linkd, and ARCHIVE the library for C with the toolchain's code for the heap, with which
# linker.c is built; where none is given, they are what `rt run` in the folder of each leaves in out/, and the archive is made as for
# embed.sh; with fewer only those are run. For each n from 1 on a run has its n-th growth refused, until one meets no
# refusal; then runs have all refused from the n-th on. growths.c says what a growth is, and growths.py what a run may answer. It prints
# how many growths the watched calls take and how the runs ended. JOBS (2) is how many runs there are at a time; LINES=1 prints the
# growths of each call. With --named only the calls that growths.py names are swept, in `bench growths`, which takes under a minute; how
# many runs that were is told, and with --quiet little else. It ends with status 0 only where each run answered as it must, and there was
# one; needs cc, python3 and the GNU C library.
set -eu
here=$(cd "$(dirname "$0")" && pwd)
top=$(dirname "$here")
named=()
if [ "${1:-}" = --named ]; then
    named=(--named)
    shift
    if [ "${1:-}" = --quiet ]; then
        named+=(--quiet)
        shift
    fi
    [ $# = 1 ] || set -- 1 2 3 4
fi
if [ $# -gt 3 ]; then
    sed -n '2,/^set/{/^#/s/^# \{0,1\}//p;}' "$0" >&2
    exit 2
fi
work=$(mktemp -d)
trap 'rm -rf "$work"' EXIT
trap 'exit 130' INT TERM
if [ $# = 0 ]; then
    . "$here/library.sh"
    set -- "$top/crates/bench/out/bench" "$top/crates/linkd/out/linkd" "$work/liblinkd.a"
fi
if [ $# = 3 ]; then
    cc -std=c11 -O2 -Wall -Wextra -Werror -pthread -I"$top/include" -o "$work/linker" "$here/linker.c" "$3"
    set -- "$1" "$2" "$work/linker"
fi
for program in "$@"; do
    [ -f "$program" ] && [ -x "$program" ] || { echo "$program is no program" >&2; exit 2; }
done
${CC:-cc} -O2 -Wall -Wextra -shared -fPIC -o "$work/growths.so" "$here/growths.c"
python3 "$here/growths.py" "$work" "$@" "${named[@]}"
