#!/usr/bin/env bash
# Tells how long loaders take that are retired one by one, many at once, and in pairs that hold each other, for a host in C; and how long the
# release of their lambdas takes first.
#
#     bench/together.sh [LOADERS [SITES [PAIRS [HELD]]]]
#
# LOADERS (1000) of eight classes go among SITES (32000) linked sites that look at each class, then PAIRS (300) of loaders, and then HELD (100)
# loaders whose classes have ten lambdas each. It needs what library.sh beside this file needs. It ends with status 0 only where each call was
# done.
set -eu
here=$(cd "$(dirname "$0")" && pwd)
top=$(dirname "$here")
if [ $# -gt 4 ]; then
    sed -n '2,/^set/{/^#/s/^# \{0,1\}//p;}' "$0" >&2
    exit 2
fi
work=$(mktemp -d)
trap 'rm -rf "$work"' EXIT
trap 'exit 130' INT TERM
. "$here/library.sh"
build_c "$work/together" "$here/together.c"
"$work/together" "${1:-1000}" "${2:-32000}" "${3:-300}" "${4:-100}"
