#!/usr/bin/env bash
# Tells how long two builds of linkd take for the same 10,000 events, and the ratio: the second one's best processor time of five runs by
# the first one's. Both have to answer alike.
#
#     bench/events.sh PROGRAM OTHER      PROGRAM and OTHER are built linkds
#
# 6,600 classes are defined, in chains of ten; half of them have a call whose place is requested, and each 64 links are installed
# together. Each definition compares the links that are installed. It needs GNU time.
set -eu
program=${1:?a built linkd}
other=${2:?another built linkd}
work=$(mktemp -d)
trap 'rm -rf "$work"' EXIT

awk 'BEGIN {
    print "{\"do\":\"define\",\"loader\":0,\"sketch\":{\"name\":\"java/lang/Object\",\"flags\":33}}"
    for (i = 0; i < 3300; i++) {
        above = i % 10 == 0 ? "java/lang/Object" : "p/A" (i - 1)
        printf "{\"do\":\"define\",\"loader\":0,\"sketch\":{\"name\":\"p/A%d\",\"super\":\"%s\",\"flags\":33,\"methods\":[{\"name\":\"f\",\"type\":\"()V\",\"flags\":1}]}}\n", i, above
        printf "{\"do\":\"define\",\"loader\":0,\"sketch\":{\"name\":\"p/M%d\",\"super\":\"java/lang/Object\",\"flags\":33,\"methods\":[{\"name\":\"run\",\"type\":\"()V\",\"flags\":9,\"calls\":[{\"kind\":\"invokevirtual\",\"of\":\"p/A%d\",\"name\":\"f\",\"type\":\"()V\"}]}]}}\n", i, i
        printf "{\"do\":\"request\",\"class\":%d,\"method\":0,\"pc\":0}\n", 2 * i + 2
        if (i % 64 == 63) {
            sites = i - 63
            for (s = i - 62; s <= i; s++) sites = sites "," s
            printf "{\"do\":\"prepare\",\"sites\":[%s]}\n{\"do\":\"install\",\"prepared\":%d}\n", sites, (i - 63) / 64
        }
    }
}' > "$work/lines"

# The processor seconds of a run of the program.
seconds() {
    env time -f '%U %S' -o "$work/time" "$1" run < "$work/lines" > "$work/answers.$2"
    awk '{ print $1 + $2 }' "$work/time"
}

for turn in 1 2 3 4 5; do
    seconds "$program" one >> "$work/one"
    seconds "$other" other >> "$work/other"
done
cmp "$work/answers.one" "$work/answers.other"
first=$(sort -n "$work/one" | head -n 1)
second=$(sort -n "$work/other" | head -n 1)
echo "$(wc -l < "$work/lines") lines: $first s and $second s, ratio $(awk -v a="$first" -v b="$second" 'BEGIN { printf "%.2f", b / a }')"
