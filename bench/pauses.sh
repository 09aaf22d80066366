#!/usr/bin/env bash
# Tells what single calls of a host in C take of a processor while all of a JDK is defined, requested and linked class by class, as a runtime
# does it: the middle one of each kind, the slow ones and the longest. Beside it stands the same with all classes first and batches of 256.
#
#     bench/pauses.sh LINKD [IDLE]
#
# LINKD is the built linkd; the library for C is built as for embed.sh. With IDLE the linker catches up after each event, apart. JAVA_HOME
# chooses a JDK 17 (else java of the PATH). KEEP=DIR keeps the input. It ends with status 0 only where each call was done; needs cc, python3,
# 6 GB of disk and 2 GB of memory.
set -eu
set -o pipefail
here=$(cd "$(dirname "$0")" && pwd)
top=$(dirname "$here")
. "$here/common.sh"
if [ $# -lt 1 ] || [ $# -gt 2 ]; then usage; fi
take_program "$1"
also=python3 . "$here/library.sh"
data=${KEEP:-$work}
mkdir -p "$data"
build_c "$work/pauses" "$here/pauses.c"

run_java Links lines "$data"
"$program" scan < "$data/ordered.hex" > "$data/scanned.json"
python3 - "$data/scanned.json" "$data/all_places.txt" <<'END'
import json, sys

with open(sys.argv[1]) as scanned, open(sys.argv[2], "w") as places:
    for number, line in enumerate(scanned):
        for at, method in enumerate(json.loads(line)["methods"]):
            for site in method["sites"]:
                print(number, at, site["pc"], file=places)
END
cat "$data/ordered.hex" "$data/all_places.txt" > "$data/all.txt"
for way in by-class batched; do
    echo "== $way"
    "$work/pauses" "$data/all.txt" "$way" ${2:+idle}
done
