#!/usr/bin/env bash
# Has `linkd report` read every class of the JDK, times it, and sets its totals beside those of another analysis.
#
#     bench/report.sh PROGRAM       PROGRAM is the built linkd
#
# JAVA_HOME chooses the JDK (else java of the PATH), which has to be 17 or older and to have jimage. RUNS (3) is how often each is
# run. Beside it stand `jdeps -v`, which reads the same files and tells which classes need which, and AsmReport, which computes the
# receivers of each invocation by the JDK's own ASM, where there is one. It needs GNU time.
set -eu
here=$(cd "$(dirname "$0")" && pwd)
. "$here/common.sh"

if [ $# != 1 ]; then usage; fi
take_program "$1"
home=${JAVA_HOME:-$(dirname "$(dirname "$(readlink -f "$(command -v java)")")")}
java -version 2>&1 | sed -n 2p
"$home/bin/jimage" extract --dir "$work/jdk" "$home/lib/modules"
find "$work/jdk" -name '*.class' -exec cat {} + | wc -c | sed 's/$/ bytes of class file/'

# Seconds, those of processor, and the most memory in KB, of each run.
timed() {
    what=$1
    shift
    for _ in $(seq "${RUNS:-3}"); do
        env time -f "$what: %e s, %U + %S s of processor, %M KB" -o "$work/time" "$@" > "$work/out" 2> "$work/errors" || {
            cat "$work/errors" >&2
            exit 1
        }
        cat "$work/time"
    done
}
timed "linkd report" "$program" report "$work/jdk"
cp "$work/out" "$work/ours"
timed "linkd report --sites" "$program" report --sites "$work/jdk"
timed "linkd report --json" "$program" report --json "$work/jdk"
timed "jdeps -v" "$home/bin/jdeps" -v --ignore-missing-deps "$work"/jdk/*/
cat "$work/ours"
if [ "$has_asm" = 1 ]; then
    timed "AsmReport" java -XX:+UseSerialGC -Xmx3000m "${exports[@]}" -cp "$built" AsmReport "$work/jdk"
    cat "$work/out"
fi
