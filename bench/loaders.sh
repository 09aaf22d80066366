#!/usr/bin/env bash
# Tells what memory a host in C holds whose loaders come and go without a renewal, and what a loader takes.
#
#     bench/loaders.sh [LOADERS [LINES [TOGETHER]]]
#
# LOADERS (10000) is how many loaders of ten classes there are, LINES (10) how many lines are told, and TOGETHER (1), up to 1000, how many are
# retired at once. It needs what library.sh beside this file needs, and Linux. It ends with status 0 only where each call was done. A
# retirement takes longer the more classes there ever were, and as long for many loaders as for one, but for what is theirs.
set -eu
here=$(cd "$(dirname "$0")" && pwd)
top=$(dirname "$here")
if [ $# -gt 3 ]; then
    sed -n '2,/^set/{/^#/s/^# \{0,1\}//p;}' "$0" >&2
    exit 2
fi
work=$(mktemp -d)
trap 'rm -rf "$work"' EXIT
trap 'exit 130' INT TERM
. "$here/library.sh"
build_c "$work/loaders" "$here/loaders.c"
"$work/loaders" "${1:-10000}" "${2:-10}" "${3:-1}"
