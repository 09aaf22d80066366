#!/usr/bin/env bash
# Times made-up classes that declare methods of their superclasses again, and the link of a call of the first one's method.
#
#     bench/redeclared.sh BENCH [OTHER]      BENCH is the built crates/bench, OTHER another build of it
#
# JAVA_HOME chooses the JDK (else java of the PATH). Prints the definitions' microseconds and the least of four rounds of links.
set -eu
here=$(cd "$(dirname "$0")" && pwd)
. "$here/common.sh"

if [ $# != 1 ] && [ $# != 2 ]; then usage; fi
for one in "$@"; do
    take_program "$one"
    for shape in 'chain 1000' 'chain 2000' 'chain 4000' 'beside 1000' 'beside 2000' 'beside 4000' 'own 2000' 'own 4000' \
        'apart 1000' 'apart 2000' 'pair 15000' 'pair 30000' 'prints 15000' 'prints 30000'; do
        run_java Redeclaring $shape > "$work/lines"
        "$program" link < "$work/lines" > "$work/out" 2> "$work/times"
        awk -v shape="$shape" '
            / definitions in / { defining = $4 }
            / links in / { if (!linking || $4 < linking) linking = $4 }
            END { printf "%s: definitions %d us, link %d us, ", shape, defining, linking }' "$work/times"
        tr '\n' ' ' < "$work/out"
        echo
    done
done
