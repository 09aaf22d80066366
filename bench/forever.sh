#!/usr/bin/env bash
# Tells what memory a host in C holds after new targets, invalidations and installs, and what an event takes; once without a seat, and once
# with one that is refreshed after each event.
#
#     bench/forever.sh [EVENTS [LINES]]
#
# EVENTS (10000000) is how many events there are, LINES (10) how many lines are told. It needs what library.sh beside this file needs, awk and
# Linux. It ends with status 0 only where each call was done, and the last line has at most 1 % or 0.1 megabytes more than the first.
set -eu
here=$(cd "$(dirname "$0")" && pwd)
top=$(dirname "$here")
if [ $# -gt 2 ]; then
    sed -n '2,/^set/{/^#/s/^# \{0,1\}//p;}' "$0" >&2
    exit 2
fi
work=$(mktemp -d)
trap 'rm -rf "$work"' EXIT
trap 'exit 130' INT TERM
also=awk
. "$here/library.sh"
build_c "$work/forever" "$here/forever.c"
for seat in "" seat; do
    echo "== ${seat:-no seat}"
    "$work/forever" "${1:-10000000}" "${2:-10}" $seat | tee "$work/lines"
    awk 'NR == 1 { first = $3 } { last = $3 } END { printf "%.3f times the first line\n", last / first; exit last > 1.01 * first && last > first + 0.1 }' \
        "$work/lines"
done
