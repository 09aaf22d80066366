#!/usr/bin/env bash
# Compares what linkd runs at call sites whose targets invoke other call sites with what java.lang.invoke runs.
#
#     bench/invokers.sh PROGRAM       PROGRAM is the built linkd
#
# Invokers.java draws the changes, makes them in its JVM, and writes them as lines of `linkd run`, with the answers. The status is 0
# where linkd gives each of these. JAVA_HOME chooses the JDK (else java of the PATH).
set -eu
here=$(cd "$(dirname "$0")" && pwd)
. "$here/common.sh"

if [ $# != 1 ]; then usage; fi
take_program "$1"

run_java Invokers "$work/lines.jsonl" "$work/answers.jsonl"
"$program" run < "$work/lines.jsonl" > "$work/said.jsonl"
paste -d '\n' "$work/answers.jsonl" "$work/said.jsonl" | awk '
    NR % 2 { wanted = $0; next }
    wanted != "" && wanted != $0 || wanted == "" && /refused|error/ {
        print "line " NR / 2 ": " $0 (wanted == "" ? "" : ", where it has to be " wanted)
        bad = 1
        exit 1
    }
    { compared += wanted != "" }
    END { if (!bad) print compared " answers are those of java.lang.invoke" }'
