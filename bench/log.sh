#!/usr/bin/env bash
# Tells what the log of a core takes: the most memory that `linkd run` had for so many accepted events, less what it had for none.
#
#     bench/log.sh PROGRAM [EVENTS]      PROGRAM is the built linkd; EVENTS (100000) is how many are accepted
#
# It needs GNU time.
set -eu
here=$(cd "$(dirname "$0")" && pwd)
program=${1:?the built linkd}
events=${2:-100000}
work=$(mktemp -d)
trap 'rm -rf "$work"' EXIT

cat > "$work/begin" <<'LINES'
{"do":"define","loader":0,"sketch":{"name":"java/lang/Object","flags":33}}
{"do":"define","loader":0,"sketch":{"name":"T","super":"java/lang/Object","flags":33,"methods":[{"name":"m","type":"()V","flags":9}]}}
{"do":"callsite","kind":"mutable","type":"()V","target":{"method":[1,0]}}
{"do":"switch"}
LINES

# The most memory of a run of these lines, in KB.
kilobytes() {
    env time -f %M -o "$work/most" "$program" run < "$1" > "$work/answers"
    if grep -q refused "$work/answers"; then
        echo "an event was refused" >&2
        exit 1
    fi
    cat "$work/most"
}

none=$(kilobytes "$work/begin")
for event in '{"do":"target","callsite":0,"target":{"method":[1,0]}}' '{"do":"invalidate","switches":[0]}'; do
    { cat "$work/begin"; yes "$event" | head -n "$events"; } > "$work/lines"
    most=$(kilobytes "$work/lines")
    echo "$events of $event: $((most - none)) KB, $(((most - none) * 1024 / events)) bytes each"
done
