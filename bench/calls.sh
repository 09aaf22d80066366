#!/usr/bin/env bash
# Calls a second through `Caller::call`, and through `Caller::call_all` with 64 calls an entry, beside the same look-ups over other
# tables; calls on objects through tables of eight classes, and at megamorphic links by a memo, by the memo alone and under the server's
# lock, with the share of calls that memos of several sizes remember; and the time of a link from scratch with its install.
#
#     bench/calls.sh [CALLS]     calls of each thread (4,000,000, if unset)
#
# Of each it prints nanoseconds of wall time a call and thread, the least of five runs; of the tables less a run of no calls. It needs rustc,
# python3 and the programs crates/bench and crates/linkd (`rt run` in the folder of each leaves it in out/).
set -eu
top=$(cd "$(dirname "$0")/.." && pwd)
calls=${1:-4000000}
bench="$top/crates/bench/out/bench"
work=$(mktemp -d)
trap 'rm -rf "$work"' EXIT
for world in static table megamorphic; do
    "$top/bench/worlds.py" "$top/crates/linkd/out/linkd" "$world" > "$work/$world"
done
rustc --edition 2021 -O -o "$work/tables" "$top/bench/Tables.rs"

# seconds of wall time of a command, the least of five
least() {
    for _ in 1 2 3 4 5; do
        python3 - "$@" <<'PY'
import subprocess, sys, time
start = time.perf_counter()
subprocess.run(sys.argv[1:], check=True, stdout=subprocess.DEVNULL)
print(time.perf_counter() - start)
PY
    done | sort -g | head -1
}

# seconds of the calls of a run, the least of five: the world, and the words after `call`
calling() {
    for _ in 1 2 3 4 5; do
        "$bench" call "${@:2}" < "$work/$1" 2>&1 > /dev/null | sed -n 's/.* answers in \([0-9]*\) us$/\1/p'
    done | sort -n | head -1 | awk '{ print $1 / 1e6 }'
}

# nanoseconds of one of so many things, from the time with them and the time without
each() {
    python3 -c "print(f'{($1 - $2) / $3 * 1e9:10.1f}')"
}

for threads in 1 2 4; do
    for writes in 0 1; do
        all=$((threads + writes))
        some=$(calling static "$all" null "$calls" 8192 65536 0 "$writes")
        echo "$threads threads, call, $writes writing: $(each "$some" 0 "$calls")"
        some=$(calling static "$all" together "$calls" 8192 65536 0 "$writes")
        echo "$threads threads, call_all, $writes writing: $(each "$some" 0 "$calls")"
    done
    for table in atomic mutex-array mutex-map rwlock-map; do
        none=$(least "$work/tables" "$table" 65536 "$threads" 0)
        some=$(least "$work/tables" "$table" 65536 "$threads" "$calls")
        echo "$threads threads, $table: $(each "$some" "$none" "$calls")"
    done
done
for threads in 1 2 4; do
    some=$(calling megamorphic "$threads" drawn "$calls")
    echo "$threads threads, drawing a site and a class: $(each "$some" 0 "$calls")"
    for kind in 'table call, through tables' 'memo call_with' 'got Memo::get' 'asked ask'; do
        many=$calls
        world=megamorphic
        if [ "${kind%% *}" = asked ]; then many=$((calls / 10)); fi
        if [ "${kind%% *}" = table ]; then world=table; fi
        # the first calls fill the memo
        none=$(calling "$world" "$threads" "${kind%% *}" "$many" 65536)
        some=$(calling "$world" "$threads" "${kind%% *}" $((many + many)) 65536)
        echo "$threads threads, ${kind#* }, with the drawing: $(each "$some" "$none" "$many")"
    done
done
for sets in 1024 4096 16384; do
    hits=$("$bench" call 1 got "$calls" "$sets" < "$work/megamorphic" 2> /dev/null | sed -n 's/^answers //p')
    echo "$sets sets: $(python3 -c "print(f'{$hits / $calls * 100:.1f}')") of a hundred calls are remembered"
done
for sites in 1024 65536; do
    none=$(least sh -c "'$bench' call 1 null 0 0 $sites 0 < '$work/static' 2> /dev/null")
    some=$(least sh -c "'$bench' call 1 null 0 0 $sites 20000 < '$work/static' 2> /dev/null")
    echo "an install of one link from scratch, $sites sites: $(each "$some" "$none" 20000)"
done
