#!/usr/bin/env bash
# Has `linkd run` define every class of the JDK and link 65,536 invocations, times it, and looks at what it answers.
#
#     bench/links.sh PROGRAM [BENCH]      PROGRAM is the built linkd, BENCH the built crates/bench
#
# BENCH defines the same classes, requests the same places, looks up all links from scratch and installs them, without JSON.
# JAVA_HOME chooses the JDK (else java of the PATH). RUNS (3) is how often the definitions are timed. SPEED=0 leaves out
# ASM's speed and the JVM's. AS=61 writes that version into each file, for a JDK whose class files are newer than the
# reader takes. KEEP=DIR keeps the lines, commands and answers there, and sites.txt, a line for each requested site.
set -eu
here=$(cd "$(dirname "$0")" && pwd)
. "$here/common.sh"

if [ $# != 1 ] && [ $# != 2 ]; then usage; fi
bench=${2:-}
take_program "$1"
data=${KEEP:-$work}
mkdir -p "$data"
java -version 2>&1 | sed -n 2p

echo "== the classes, parents first"
run_java Links lines "$data" ${AS:+"$AS"} | tee "$data/lines.txt"
major=$(sed -n 's/^newest major version //p' "$data/lines.txt")
if [ "$major" -gt 61 ] && [ -z "${AS:-}" ]; then
    echo "class files of major version $major; linkd reads 45 to 61: take JDK 17, or set AS=61" >&2
    exit 2
fi
sed 's/.*/{"do":"define","hex":"&","loader":0}/' "$data/ordered.hex" > "$data/defines.jsonl"

# Seconds of one run from a file to a file, and those of processor; a status other than 0 ends the script.
TIMEFORMAT='%R %U %S'
timed() {
    { time "$program" "$1" < "$2" > "$3" 2> "$data/errors.txt"; } 2> "$data/time.txt" || {
        echo "linkd $1 ends with status $?: $(head -c 300 "$data/errors.txt")" >&2
        exit 1
    }
    awk '{ print $1, $2 + $3 }' "$data/time.txt"
}
# The run in the middle.
median() {
    sort -n "$1" | awk '{ t[NR] = $0 } END { print t[int((NR + 1) / 2)] }'
}

echo "== definitions alone, and linkd scan, from a file to a file, one thread"
cat "$data/ordered.hex" "$data/defines.jsonl" > /dev/null
: > "$data/defining.txt"
: > "$data/scanning.txt"
for run in $(seq "${RUNS:-3}"); do
    timed run "$data/defines.jsonl" "$data/defined.json" >> "$data/defining.txt"
    timed scan "$data/ordered.hex" "$data/answers.json" >> "$data/scanning.txt"
    echo "run $run, seconds and those of processor: definitions $(tail -n 1 "$data/defining.txt")," \
        "scan $(tail -n 1 "$data/scanning.txt")"
done
defining=$(median "$data/defining.txt")
awk -v d="$defining" '
    { n++; b += $NF }
    END {
        split(d, t)
        printf "definitions, median %.2f s (%.2f s of processor): ", t[1], t[2]
        printf "%.0f classes a second, %.1f MB of class file a second\n", n / t[1], b / 1e6 / t[1]
    }' "$data/ordered.names"

echo "== linkd run, all of it"
status=0
run_java Links run "$program" "$data" || status=1

if [ -n "$bench" ] && [ $status = 0 ]; then
    echo "== the same links without JSON, times in microseconds"
    cat "$data/ordered.hex" "$data/places.txt" > "$data/input.txt"
    for _ in $(seq "${RUNS:-3}"); do "$bench" link < "$data/input.txt"; done
fi

if [ "${SPEED:-1}" = 1 ]; then
    echo "== beside it"
    median "$data/scanning.txt" | awk '{ printf "linkd scan: %.2f s (%.2f s of processor)\n", $1, $2 }' \
        | tee "$data/beside.txt"
    if [ "$has_asm" = 1 ]; then
        run_java AsmSpeed 6 10 | tee -a "$data/beside.txt"
    fi
    run_java -Xshare:off --add-modules ALL-SYSTEM Links jvm "$data" 2> /dev/null | tee -a "$data/beside.txt"
    # By processor, since a shared machine disturbs that least.
    awk -v d="$defining" -F ': | s [(]| s of processor' '
        { split(d, t, " "); printf "definitions take %.2f times the processor of %s\n", t[2] / $3, $1 }
    ' "$data/beside.txt"
fi
if [ $status = 0 ]; then
    echo "all as it must be"
else
    echo "NOT as it must be" >&2
fi
exit $status
