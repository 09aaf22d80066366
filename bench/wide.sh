#!/usr/bin/env bash
# Preparations of one batch in one thread and in as many as there are processors.
#
#     bench/wide.sh [ROUNDS]     rounds of each (20, if unset); the least time of a round counts
#
# Of each world it prints how the receivers stand to each other, the sites, the receivers of each, and the microseconds of `prepare` and of
# `prepare_wide`. It needs python3 and the programs crates/bench and crates/linkd (`rt run` in the folder of each leaves it in out/).
set -eu
top=$(cd "$(dirname "$0")/.." && pwd)
rounds=${1:-20}
bench="$top/crates/bench/out/bench"
linkd="$top/crates/linkd/out/linkd"

# the name of a shape, that of worlds.py, the sites and the receivers
world() {
    printf '%s, %s sites, %s receivers: ' "$1" "$3" "$4"
    "$top/bench/worlds.py" "$linkd" "$2" "$4" | "$bench" wide "$3" "$rounds" 2>&1 > /dev/null | awk '
        / prepared by one thread in / { if (!alone || $7 < alone) alone = $7 }
        / prepared by several in / { if (!wide || $6 < wide) wide = $6 }
        END { printf "one thread %d us, wide %d us\n", alone, wide }'
}

world 'subclasses without a method, and one beside them with one' beside 256 64
world 'subclasses without a method, and one beside them with one' beside 256 512
world 'subclasses without a method, and one beside them with one' beside 256 2048
world 'subclasses without a method, and one beside them with one' beside 64 64
world 'subclasses without a method, and one beside them with one' beside 256 8
world 'subclasses without a method, and one beside them with one' beside 256 2
world 'subclasses without a method' flat 256 64
world 'a chain without a method' chain 256 64
world 'subclasses with a method each' own 256 64
world 'subclasses with a method each' own 256 8
world 'implementers with a method each' implementers 256 8
world 'implementers with a method each' implementers 256 64
