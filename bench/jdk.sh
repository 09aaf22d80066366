#!/usr/bin/env bash
# Runs `linkd scan` over the class files of the JDK, times it, and compares what it finds with another reader's counts.
#
#     bench/jdk.sh PROGRAM       PROGRAM is the built linkd
#     bench/jdk.sh --speed       only how fast ASM reads the same files
#     bench/jdk.sh --reader PROGRAM
#                                only read_class beside ASM, in turn, and what read class files take; PROGRAM is the built
#                                crates/bench. TURNS (7) is how often each is run. It needs GNU time.
#
# JAVA_HOME chooses the JDK (else java of the PATH). RUNS (3) is how often the scan is timed. JAVAP=n has javap read
# each n-th class, as a third opinion. SPEED=0 leaves out ASM's speed. AS=61 writes that version into each file, for a
# JDK whose class files are newer than the reader takes. KEEP=DIR keeps the lines, names, answers and counts there.
set -eu
here=$(cd "$(dirname "$0")" && pwd)
. "$here/common.sh"

speed() {
    if [ "$has_asm" = 0 ]; then
        echo "this JDK has no ASM, so there is nothing to compare the speed with"
        return
    fi
    # A JVM for each, so that each first pass is cold.
    run_java AsmSpeed 6 10
    run_java AsmSpeed 0 10
}

# The middle one of the numbers.
middle() {
    sort -n "$1" | awk '{ t[NR] = $1 } END { print t[int((NR + 1) / 2)] }'
}

# The most memory of a run that reads these lines and does what the words say, in KB.
most() {
    env time -f %M -o "$work/most" "$program" "${@:2}" < "$1" > "$work/kept" 2> "$work/times"
    cat "$work/most"
}

# What the class files of these lines take, over their bytes.
memory() {
    awk -v with="$(most "$2" keep)" -v without="$(most "$2")" -v lines="$(wc -l < "$2")" -v size="$(wc -c < "$2")" -v what="$1" 'BEGIN {
        bytes = (size - lines) / 2
        printf "%s: %d KB more for %d bytes of class file, %.2f times these\n", what, with - without, bytes, (with - without) * 1024 / bytes
    }'
}

# Milliseconds of each: the middle of the eleven passes of read_class, and ASM's tenth pass.
reader() {
    bytes=$(awk '{ n += $NF } END { printf "%d", n }' "$data/classes.names")
    : > "$work/ours"
    : > "$work/known"
    : > "$work/theirs"
    for turn in $(seq "${TURNS:-7}"); do
        "$program" read < "$data/classes.hex" 2> "$work/passes" > "$work/totals"
        awk '$2 == "classes" { print $4 / 1000 }' "$work/passes" > "$work/ms"
        awk '$2 == "known" { print $4 / 1000 }' "$work/passes" > "$work/ms-known"
        middle "$work/ms" >> "$work/ours"
        middle "$work/ms-known" >> "$work/known"
        run_java AsmSpeed 6 10 | awk -v b="$bytes" '/pass 10/ { for (i = 1; i <= NF; i++) if ($i == "MB") print b / 1e3 / $(i - 1) }' >> "$work/theirs"
        echo "turn $turn: read_class $(tail -n 1 "$work/ours") ms, ASM $(tail -n 1 "$work/theirs") ms"
    done
    awk -v a="$(middle "$work/ours")" -v b="$(middle "$work/theirs")" -v c="$(sort -n "$work/ours" | head -n 1)" -v d="$(sort -n "$work/theirs" | head -n 1)" \
        'BEGIN { printf "read_class is %.2f times as fast as ASM by the middles, %.2f by the best\n", b / a, d / c }'
    awk -v a="$(middle "$work/ours")" -v b="$(middle "$work/known")" 'BEGIN { printf "up to the newest known version it takes %.3f times as long\n", b / a }'
    memory "all class files" "$data/classes.hex"
    awk 'length($0) > length(most) { most = $0 } END { for (i = 0; i < 50; i++) print most }' "$data/classes.hex" > "$work/largest.hex"
    memory "the largest, 50 times" "$work/largest.hex"
}

if [ $# = 0 ] || [ $# -gt 2 ]; then usage; fi
java -version 2>&1 | sed -n 2p
if [ "$1" = --speed ]; then
    speed
    exit 0
fi
data=${KEEP:-$work}
mkdir -p "$data"
if [ "$1" = --reader ] && [ $# = 2 ] && [ "$has_asm" = 1 ]; then
    take_program "$2"
    run_java Lines "$data"
    reader
    exit 0
fi
if [ $# != 1 ]; then usage; fi
take_program "$1"

echo "== the lines"
run_java Lines "$data" ${AS:+"$AS"} | tee "$data/lines.txt"
classes=$(wc -l < "$data/classes.names")
bytes=$(awk '{ n += $NF } END { printf "%d", n }' "$data/classes.names")
major=$(sed -n 's/^classes:.* //p' "$data/lines.txt")
if [ "$major" -gt 61 ] && [ -z "${AS:-}" ]; then
    echo "class files of major version $major; linkd reads 45 to 61: take JDK 17, or set AS=61" >&2
    exit 2
fi

echo "== linkd scan, from a file to a file, one thread"
# Seconds of one run; a status other than 0 ends the script.
TIMEFORMAT=%R
scan() {
    { time "$program" scan < "$1" > "$2" 2> "$data/errors.txt"; } 2> "$data/time.txt" || {
        echo "linkd scan ends with status $?: $(head -c 300 "$data/errors.txt")" >&2
        exit 1
    }
}
cat "$data/classes.hex" > /dev/null
: > "$data/times.txt"
for run in $(seq "${RUNS:-3}"); do
    scan "$data/classes.hex" "$data/answers.json"
    cat "$data/time.txt" >> "$data/times.txt"
    echo "run $run: $(cat "$data/time.txt") s"
done
median=$(sort -n "$data/times.txt" | awk '{ t[NR] = $1 } END { print t[int((NR + 1) / 2)] }')
answered=$(wc -c < "$data/answers.json")
awk -v c="$classes" -v b="$bytes" -v s="$median" -v a="$answered" 'BEGIN {
    printf "%d classes, %d bytes of class file (%d of hexadecimal), %d bytes of answers\n", c, b, 2 * b + c, a
    printf "median %.2f s: %.0f classes a second, %.1f MB of class file a second\n", s, c / s, b / 1e6 / s
}'

status=0
compare() {
    run_java Count "$1" "$data/classes.hex" "$data/counts.$1" "$2"
    run_java Compare "$data/classes.names" "$data/answers.json" "$data/counts.$1" "$1" || status=1
}
echo "== compared with another reader, class by class"
if [ "$has_asm" = 1 ]; then
    compare asm 1
    if [ -n "${JAVAP:-}" ]; then
        compare javap "$JAVAP"
    fi
else
    compare javap "${JAVAP:-1}"
fi

echo "== module files"
scan "$data/modules.hex" "$data/modules.json"
run_java Compare "$data/modules.names" "$data/modules.json" modules || status=1

if [ "${SPEED:-1}" = 1 ]; then
    echo "== ASM on the same files, from memory"
    speed
fi
if [ $status = 0 ]; then
    echo "all as it must be"
else
    echo "NOT as it must be" >&2
fi
exit $status
