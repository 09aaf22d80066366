#!/usr/bin/env bash
# Jobs a second of a farm by 1, 2 and 4 workers, of 1 and of 64 sites each.
#
#     bench/farm.sh LINKD BENCH      the built linkd and crates/bench
#
# The world is every class of the JDK (JAVA_HOME, else java of the PATH), or, where there is none or JDK=0, 26,000 small classes. 65,536 of
# its invocations, spread evenly, are requested, if they may be. Each number is the most of RUNS (3) runs, by the wall clock of the farm
# alone. Last, four programs at once, each a farm of one worker, tell how much faster than one the machine lets four be that share nothing.
# It needs python3. KEEP=DIR keeps the input there.
set -eu
here=$(cd "$(dirname "$0")" && pwd)
linkd=$(realpath "${1:?the built linkd}")
bench=$(realpath "${2:?the built crates/bench}")
scratch=$(mktemp -d)
trap 'rm -rf "$scratch"' EXIT
data=${KEEP:-$scratch}
mkdir -p "$data"

small_classes() {
    python3 - <<'PY' | "$linkd" sketch | tr -d '"'
import json

def sketch(value):
    print(json.dumps(value))

named, callers = 25743, 256
method = {"name": "f", "type": "()V", "flags": 1}
sketch({"name": "java/lang/Object", "flags": 33})
for number in range(named):
    sketch({"name": f"T{number}", "super": "java/lang/Object", "flags": 33, "methods": [method]})
for caller in range(callers):
    calls = [
        {"kind": "invokevirtual", "of": f"T{(caller * 256 + place) % named}", "name": "f", "type": "()V"}
        for place in range(256)
    ]
    sketch({"name": f"M{caller}", "super": "java/lang/Object", "flags": 33,
            "methods": [{"name": "run", "type": "()V", "flags": 9, "calls": calls}]})
PY
}

if [ "${JDK:-1}" = 1 ] && command -v "${JAVA_HOME:+$JAVA_HOME/bin/}java" > /dev/null; then
    . "$here/common.sh"
    take_program "$linkd"
    trap 'rm -rf "$scratch" "$work"' EXIT
    run_java Links lines "$data" > /dev/null
else
    small_classes > "$data/ordered.hex"
fi

"$linkd" scan < "$data/ordered.hex" > "$data/scanned.json"
python3 - "$data/scanned.json" > "$data/places.txt" <<'PY'
import json, sys

places = []
for number, line in enumerate(open(sys.argv[1])):
    for method, shown in enumerate(json.loads(line).get("methods", [])):
        places += [(number, method, site["pc"]) for site in shown.get("sites", []) if site["kind"] != "invokedynamic"]
wanted = min(65536, len(places))
for number in range(wanted):
    print(*places[number * len(places) // wanted])
PY
cat "$data/ordered.hex" "$data/places.txt" > "$data/input.txt"

# The jobs a second of the run that left said$1.txt and times$1.txt.
rate_of() {
    jobs=$(sed -n 's/^jobs //p' "$data/said$1.txt")
    micros=$(sed -n 's/.* jobs in \([0-9]*\) us$/\1/p' "$data/times$1.txt")
    echo $((jobs * 1000000 / micros))
}

for sites in 1 64; do
    for workers in 1 2 4; do
        most=0
        for _ in $(seq "${RUNS:-3}"); do
            "$bench" farm "$workers" "$sites" < "$data/input.txt" > "$data/said.txt" 2> "$data/times.txt"
            rate=$(rate_of "")
            if [ "$rate" -gt "$most" ]; then most=$rate; fi
        done
        echo "$workers workers, $sites sites a job: $most jobs a second ($(tr '\n' ' ' < "$data/said.txt"))"
    done
    most=0
    for _ in $(seq "${RUNS:-3}"); do
        for one in 1 2 3 4; do
            "$bench" farm 1 "$sites" < "$data/input.txt" > "$data/said$one.txt" 2> "$data/times$one.txt" &
        done
        wait
        rate=$(($(rate_of 1) + $(rate_of 2) + $(rate_of 3) + $(rate_of 4)))
        if [ "$rate" -gt "$most" ]; then most=$rate; fi
    done
    echo "4 programs of 1 worker, $sites sites a job: $most jobs a second in all"
done
