#!/usr/bin/env bash
# Tells what a compiler's calls take by C: a view and the events after it, preparations in it, and installs by value, beside linkd_install
# under a mutex, by one thread, and by 1 and 4 beside one that defines.
#
#     bench/views.sh
#
# BATCHES (200) is how many batches a thread compiles in a round. It needs what library.sh beside this file needs, and ends with status 0
# only where each call was done.
set -eu
here=$(cd "$(dirname "$0")" && pwd)
top=$(dirname "$here")
if [ $# != 0 ]; then
    sed -n '2,/^set/{/^#/s/^# \{0,1\}//p;}' "$0" >&2
    exit 2
fi
work=$(mktemp -d)
trap 'rm -rf "$work"' EXIT
trap 'exit 130' INT TERM
. "$here/library.sh"

build_c "$work/views" "$here/views.c"
echo "== by one thread"
"$work/views" calls
echo "== by threads"
"$work/views" threads "${BATCHES:-200}"
