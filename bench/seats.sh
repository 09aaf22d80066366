#!/usr/bin/env bash
# Tells what calls at seats and by memos take, by C, beside look-ups behind locks, and what a refresh of a seat takes behind one change.
#
#     bench/seats.sh [PROGRAM]       PROGRAM is the built linkd
#
# With PROGRAM, too, what it takes to define every class of the JDK by C and by `linkd run`. That needs a JDK, of JAVA_HOME or else of the
# PATH. CALLS (2,000,000) is how many calls a thread makes, EVENTS (500) how many refreshes are timed, RUNS (3) how often the definitions
# are. AS=61 writes that version into each class file, for a JDK whose class files are newer than the reader takes.
set -eu
here=$(cd "$(dirname "$0")" && pwd)
top=$(dirname "$here")
if [ $# -gt 1 ]; then
    sed -n '2,/^set/{/^#/s/^# \{0,1\}//p;}' "$0" >&2
    exit 2
fi
if [ $# = 1 ]; then
    . "$here/common.sh"
    take_program "$1"
else
    work=$(mktemp -d)
    trap 'rm -rf "$work"' EXIT
    trap 'exit 130' INT TERM
fi
. "$here/library.sh"

build_c "$work/seats" "$here/seats.c" "$here/look_up.c"
echo "== calls"
"$work/seats" calls "${CALLS:-2000000}"
echo "== calls at megamorphic links"
"$work/seats" memos "${CALLS:-2000000}"
echo "== refreshes"
for room in 65536 1048576; do
    "$work/seats" refresh "${EVENTS:-500}" "$room"
done
if [ $# = 0 ]; then
    exit 0
fi

echo "== definitions of every class of the JDK"
java -version 2>&1 | sed -n 2p
run_java Links lines "$work" ${AS:+"$AS"}
sed 's/.*/{"do":"define","hex":"&","loader":0}/' "$work/ordered.hex" > "$work/defines.jsonl"
build_c "$work/defines" "$here/defines.c"
TIMEFORMAT='%R s, %U and %S s of processor'
for run in $(seq "${RUNS:-3}"); do
    echo "run $run, by C: $("$work/defines" < "$work/ordered.hex")"
    { time "$program" run < "$work/defines.jsonl" > "$work/defined.json"; } 2> "$work/time.txt"
    echo "run $run, linkd run, with hexadecimal and JSON: $(cat "$work/time.txt")"
    if grep -q refused "$work/defined.json"; then
        echo "linkd run refuses a class" >&2
        exit 1
    fi
done
