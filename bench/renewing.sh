#!/usr/bin/env bash
# Tells what a renewal takes by C, in one call of linkd_renew and in steps beside four threads that define and install: the seconds of each,
# the longest that the host's lock is held by begin, take and finish and by the threads' own calls, and the most that is resident.
#
#     bench/renewing.sh [FOLDER]     FOLDER has class files, parents among them
#
# Without FOLDER the classes are those of a JDK, of JAVA_HOME or else of the PATH, up to Java 25. PORTION (1000) is how many events are taken
# at a time, PAUSE (10000) how many microseconds a thread sleeps between its turns, FEW (10) how many events are left for the finish at most,
# RUNS (3) how often each is run. Beside each time of the clock stands, in brackets, the processor time of the thread. The first one is longer
# where another program has the processor, or the thread waits for the memory allocator. It needs what library.sh beside this file needs,
# python3 and Linux. It ends with status 0 only where each call was done.
set -eu
here=$(cd "$(dirname "$0")" && pwd)
top=$(dirname "$here")
if [ $# -gt 1 ]; then
    sed -n '2,/^set/{/^#/s/^# \{0,1\}//p;}' "$0" >&2
    exit 2
fi
work=$(mktemp -d)
trap 'rm -rf "$work"' EXIT
trap 'exit 130' INT TERM
also=python3
. "$here/library.sh"

folder=${1:-$work/jdk}
if [ $# = 0 ]; then
    if [ -n "${JAVA_HOME:-}" ]; then
        PATH="$JAVA_HOME/bin:$PATH"
    fi
    java -version 2>&1 | sed -n 2p
    jimage=$(dirname "$(readlink -f "$(command -v java)")")/jimage
    "$jimage" extract --dir "$folder" "$(dirname "$(dirname "$jimage")")/lib/modules"
fi
(cd "$folder" && find . -name '*.class' | sed 's/\.class$//' | LC_ALL=C sort) > "$work/names"
build_c "$work/renewing" "$here/renewing.c"
for run in $(seq "${RUNS:-3}"); do
    echo "== run $run, in one call"
    "$here/resident.py" "$work/renewing" once "$folder" < "$work/names"
    echo "== run $run, in steps"
    "$here/resident.py" "$work/renewing" steps "$folder" "${PORTION:-1000}" "${PAUSE:-10000}" "${FEW:-10}" < "$work/names"
done
