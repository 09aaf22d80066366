#!/usr/bin/env bash
# Has one linker take every invocation of a JDK, with all classes defined, all invocations requested and all links installed: a host in C
# (whole.c), a core of Rattle (`bench link`) and a server of Rattle (`bench farm`). Told are seconds and the megabytes that are resident; of
# the host also what events take after all links and after none. Beside them stands a Java program that keeps an object for each site.
#
#     bench/whole.sh LINKD BENCH
#
# LINKD is the built linkd, BENCH the built crates/bench; the library for C is built as for embed.sh. JAVA_HOME chooses a JDK 17 (else java of
# the PATH). KEEP=DIR keeps the input and what was told there. Each link of the host is compared with that of `linkd report --json`. It
# ends with status 0 only where all is as it must be; needs cc, python3, xxd, 6 GB of disk and 2 GB of memory.
set -eu
set -o pipefail
here=$(cd "$(dirname "$0")" && pwd)
top=$(dirname "$here")
. "$here/common.sh"
if [ $# != 2 ]; then usage; fi
take_program "$2"
bench=$program
take_program "$1"
also="python3 xxd" . "$here/library.sh"
data=${KEEP:-$work}
mkdir -p "$data"
build_c "$work/whole" "$here/whole.c"

echo "== the classes, parents first, and their invocations"
run_java Links lines "$data"
"$program" scan < "$data/ordered.hex" > "$data/scanned.json"
# All places, and those that wait for no call site.
python3 - "$data/scanned.json" "$data/all_places.txt" "$data/ready_places.txt" <<'END'
import json, sys

with open(sys.argv[1]) as scanned, open(sys.argv[2], "w") as every, open(sys.argv[3], "w") as ready:
    for number, line in enumerate(scanned):
        for at, method in enumerate(json.loads(line)["methods"]):
            for site in method["sites"]:
                for out in [every] if site["kind"] == "invokedynamic" else [every, ready]:
                    print(number, at, site["pc"], file=out)
END
wc -l < "$data/all_places.txt"
cat "$data/ordered.hex" "$data/all_places.txt" > "$data/all.txt"

# The class file of late/$1, below $2, of these flags and methods.
sketch() {
    echo "{\"name\":\"late/$1\",\"super\":\"$2\",\"flags\":$3,\"methods\":[$4]}" | "$program" sketch | xxd -r -p > "$data/$1.class"
}
sketch List java/util/ArrayList 33 '{"name":"size","type":"()I","flags":1}'
sketch Text java/lang/Object 33 '{"name":"toString","type":"()Ljava/lang/String;","flags":1}'
sketch Other java/lang/Object 33 '{"name":"other","type":"()V","flags":1}'
# It is abstract, so no object is of it, and it changes no link.
m='{"name":"m","type":"()V","flags":9}'
n='{"name":"n","type":"()V","flags":9}'
r='{"name":"r","type":"()V","flags":9,"calls":[{"kind":"invokedynamic","name":"d","type":"()V"}]}'
sketch Bound java/lang/Object 1057 "$m,$n,$r"

echo "== a host in C"
"$work/whole" "$data/all.txt" "$data/links.txt" "$data/Bound.class" "$data/List.class" "$data/Text.class" "$data/Other.class" \
    | tee "$data/host.txt"

# The lines of a kind and a count.
kinds() {
    grep -E '^(none|fault|plain|direct|virtual|interface|mega) [0-9]+$' "$1"
}

echo "== a core of Rattle: the input alone, and all of it"
"$here/resident.py" "$bench" < "$data/all.txt"
"$here/resident.py" "$bench" link < "$data/all.txt" > "$data/core.txt"
wanted=$(kinds "$data/host.txt" | awk -v OFS=", " '{ n[$1] = $2 }
    END { print n["fault"], n["plain"], n["direct"], n["virtual"] + n["interface"], n["mega"] }')
if ! grep -xF "faults, plain, direct, tables, megamorphic [$wanted]" "$data/core.txt"; then
    echo "the core has other links than the host" >&2
    exit 1
fi

echo "== a server of Rattle, without invokedynamic: the one worker of a farm links and installs 256 sites a job"
cat "$data/ordered.hex" "$data/ready_places.txt" | "$here/resident.py" "$bench" farm 1 256 > "$data/farm.txt"
if ! awk '{ n[$1] = $2 } END { exit !n["jobs"] || n["jobs"] != int((n["requests"] + 255) / 256) }' "$data/farm.txt"; then
    echo "not every job is installed" >&2
    exit 1
fi

echo "== a Java program that only keeps an object for each site: it has the host's links, finds none itself, and takes no event"
run_java SiteObjects "$data/all.txt" "$data/links.txt" | tee "$data/objects.txt"
diff <(kinds "$data/host.txt") <(kinds "$data/objects.txt")

echo "== the host's links beside those of linkd report"
jimage=$(dirname "$(readlink -f "$(command -v java)")")/jimage
"$jimage" extract --dir "$work/jdk" "$(dirname "$(dirname "$jimage")")/lib/modules"
"$program" report --json "$work/jdk" > "$data/report.json"
"$here/whole_rows.py" "$data/scanned.json" "$data/all_places.txt" "$data/links.txt" "$data/report.json"
echo "all as it must be"
