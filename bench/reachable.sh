#!/usr/bin/env bash
# Compares what examples/callgraph.py says is reachable with the methods that a JVM enters.
#
#     bench/reachable.sh PROGRAM [REPORT]
#
# PROGRAM is the built program of crates/linkd. It reports the program of examples/reachable/java together with java.base of a JDK 17, which
# JAVA_HOME chooses (else java of the PATH). That JVM runs the program with java.base alone and with the agent of examples/reachable, which
# notes each method that is entered from the time when the JVM is ready, and the method above it. All have to be reachable from `main` and
# from what HotSpot calls by itself, but for those that examples/reachable/compare.py puts aside: it counts them by reason. The graph is made
# a second time, from these, too. It has to have each method that isn't aside, and each pair of a method and one that its invocation called.
# What the program never makes must not be reachable. A graph without a root, or without the files, has to be found wanting.
# REPORT is a file in which the report is kept; where it is there already, it is taken. It takes a minute, with a sanitized PROGRAM half an
# hour, and ends with status 0 only where all is as it must be.
set -eu
here=$(cd "$(dirname "$0")" && pwd)
top=$(dirname "$here")
if [ $# -lt 1 ] || [ $# -gt 2 ]; then
    sed -n '2,/^set/{/^#/s/^# \{0,1\}//p;}' "$0" >&2
    exit 2
fi
[ -f "$1" ] && [ -x "$1" ] || { echo "$1 is no program" >&2; exit 2; }
program=$(cd "$(dirname "$1")" && pwd)/$(basename "$1")
export LC_ALL=C
export JAVA_HOME=${JAVA_HOME:-$(dirname "$(dirname "$(readlink -f "$(command -v java)")")")}
work=$(mktemp -d)
trap 'rm -rf "$work"' EXIT
trap 'exit 130' INT TERM
report=$(realpath "${2:-$work/report}")
status=0
cd "$work"

"$JAVA_HOME/bin/java" -version 2>&1 | sed -n 2p
"$top/examples/reachable/build.sh" "$work"
"$JAVA_HOME/bin/javac" --release 17 -Xlint:all -Werror -d app "$top"/examples/reachable/java/*.java
"$top/tools/classes.py" jdk --jdk "$JAVA_HOME" --modules java.base
if [ ! -f "$report" ]; then
    "$program" report --json --classes --all-receivers app jdk > unfinished
    mv unfinished "$report"
fi
"$JAVA_HOME/bin/java" -Xshare:off --limit-modules java.base -agentpath:"$work/liblinkd_entries.so=$work/entries" -cp app Main

# Makes a graph by these words. What it tells goes into a file of the same name.
graph() {
    "$top/examples/callgraph.py" "${@:2}" < "$report" > "$1" 2> "$1.told"
}
# Has the graph of these words found wanting.
wanting() {
    graph poor "$@"
    if "$top/examples/reachable/compare.py" "$report" poor entries > said 2> missing; then
        echo "a graph that misses something was found whole: $*" >&2
        status=1
    fi
    echo "found wanting, as it must be, by $(wc -l < missing) lines: $*"
}

files=(--files app --files jdk)
roots=(--from jvm --from Main.main)
echo "== what is reachable from main, and what was entered"
graph first "${roots[@]}" "${files[@]}"
cat first.told
"$top/examples/reachable/compare.py" "$report" first entries aside

echo "== from what is aside, too"
further=()
while read -r method; do
    further+=(--from "$method")
done < aside
graph second "${roots[@]}" ${further[@]+"${further[@]}"} "${files[@]}"
"$top/examples/reachable/compare.py" "$report" second entries || status=1

echo "== what must not be"
for method in 'Main$Unmade.area()I' 'Main$Unreachable.area()I' 'Main$Number8.value()I'; do
    if grep -qF "$method" first || ! grep -qF "\"$(cut -d. -f1 <<< "$method")\"" "$report"; then
        echo "reachable, or not reported: $method" >&2
        status=1
    fi
done
graph methods "${roots[@]}" "${files[@]}" --methods
sed 's/ -> /\n/' first | sort -u | cmp - methods || status=1
wanting --from jvm --from Main.main
wanting --from jvm "${files[@]}"
wanting --from Main.main "${files[@]}"
if "$top/examples/callgraph.py" --from Main.none < "$report" > said 2> missing || [ -s said ]; then
    echo "a root that isn't there was taken" >&2
    status=1
fi
if [ $status = 0 ]; then
    echo "all as it must be"
fi
exit $status
