#!/usr/bin/env bash
# Tells what an event takes after 65,536 installed links and after none, and what one takes that touches 1, 64 or 4,096 of them.
#
#     bench/touched.sh PROGRAM       PROGRAM is a built linkd
#
# EVENTS (60,000, at most 65,000) is how many definitions are timed, and ten times as many new targets and invalidations. Each time is that
# of a run with them less that of the same run without, by processor, the least of five. It ends with status 0 only where events that touch no
# site take at most MOST (1.5) times as long after the links. It needs GNU time.
set -eu
program=${1:?a built linkd}
events=${EVENTS:-60000}
work=$(mktemp -d)
trap 'rm -rf "$work"' EXIT

# 256 classes p/M0, p/M1, .. of 256 calls each: of A.f, of B.f at the first 4,096 places, of C.f at 64 and of D.f at one. All of it is
# requested, and with the word links prepared and installed. A call site and a switch point are there, to which nothing is bound.
lines() {
    awk -v links="$1" 'BEGIN {
        print "{\"do\":\"define\",\"loader\":0,\"sketch\":{\"name\":\"java/lang/Object\",\"flags\":33}}"
        split("A B C D", names, " ")
        for (i = 1; i <= 4; i++)
            printf "{\"do\":\"define\",\"loader\":0,\"sketch\":{\"name\":\"%s\",\"super\":\"java/lang/Object\",\"flags\":33,\"methods\":[{\"name\":\"f\",\"type\":\"()V\",\"flags\":1}]}}\n", names[i]
        print "{\"do\":\"define\",\"loader\":0,\"sketch\":{\"name\":\"S\",\"super\":\"java/lang/Object\",\"flags\":33,\"methods\":[{\"name\":\"s\",\"type\":\"()V\",\"flags\":9},{\"name\":\"t\",\"type\":\"()V\",\"flags\":9}]}}"
        for (m = 0; m < 256; m++) {
            printf "{\"do\":\"define\",\"loader\":0,\"sketch\":{\"name\":\"p/M%d\",\"super\":\"java/lang/Object\",\"flags\":33,\"methods\":[{\"name\":\"run\",\"type\":\"()V\",\"flags\":9,\"calls\":[", m
            for (c = 0; c < 256; c++) {
                s = 256 * m + c
                of = s < 4096 ? "B" : s < 4160 ? "C" : s < 4161 ? "D" : "A"
                printf "%s{\"kind\":\"invokevirtual\",\"of\":\"%s\",\"name\":\"f\",\"type\":\"()V\"}", c ? "," : "", of
            }
            print "]}]}}"
        }
        for (m = 0; m < 256; m++)
            for (c = 0; c < 256; c++)
                printf "{\"do\":\"request\",\"class\":%d,\"method\":0,\"pc\":%d}\n", m + 6, 3 * c
        print "{\"do\":\"callsite\",\"kind\":\"mutable\",\"type\":\"()V\",\"target\":{\"method\":[5,0]}}"
        print "{\"do\":\"switch\"}"
        if (links)
            for (b = 0; b < 256; b++) {
                sites = 256 * b
                for (c = 1; c < 256; c++) sites = sites "," 256 * b + c
                printf "{\"do\":\"prepare\",\"sites\":[%s]}\n{\"do\":\"install\",\"prepared\":%d}\n", sites, b
            }
    }'
}

# So many events of a kind, none of which changes a link: definitions below Object alone, new targets, invalidations; or, of one class,
# definitions below it that leave what runs as it is.
more() {
    awk -v kind="$1" -v n="$2" 'BEGIN {
        for (i = 0; i < n; i++)
            if (kind == "target") printf "{\"do\":\"target\",\"callsite\":0,\"target\":{\"method\":[5,%d]}}\n", i % 2
            else if (kind == "invalidate") print "{\"do\":\"invalidate\",\"switches\":[0]}"
            else printf "{\"do\":\"define\",\"loader\":0,\"sketch\":{\"name\":\"q/L%d\",\"super\":\"%s\",\"flags\":33}}\n", i, kind
    }'
}

# The least processor seconds of five runs of these lines.
seconds() {
    for turn in 1 2 3 4 5; do
        env time -f '%U %S' -o "$work/time" "$program" run < "$1" > "$work/answers"
        awk '{ print $1 + $2 }' "$work/time"
    done | sort -n | head -n 1
}

lines 1 > "$work/linked"
lines 0 > "$work/bare"
"$program" run < "$work/linked" > "$work/answers"
if grep -q refused "$work/answers"; then
    grep -m 3 refused "$work/answers" >&2
    exit 1
fi
status=0
linked=$(seconds "$work/linked")
bare=$(seconds "$work/bare")
echo "65,536 sites: $bare s requested, $linked s with their links"

echo "== events that touch no site: seconds after 65,536 links and after none"
for kind in java/lang/Object target invalidate; do
    count=$events
    if [ "$kind" != java/lang/Object ]; then count=$((10 * events)); fi
    more "$kind" "$count" > "$work/more"
    cat "$work/linked" "$work/more" > "$work/all"
    after=$(seconds "$work/all")
    cat "$work/bare" "$work/more" > "$work/all"
    alone=$(seconds "$work/all")
    awk -v kind="$kind" -v n="$count" -v a="$after" -v b="$linked" -v c="$alone" -v d="$bare" -v most="${MOST:-1.5}" 'BEGIN {
        printf "%d of %s: %.2f and %.2f, ratio %.2f\n", n, kind == "java/lang/Object" ? "define" : kind, a - b, c - d, (a - b) / (c - d)
        exit ((a - b) / (c - d) > most)
    }' || status=1
done

echo "== 256 definitions that touch so many sites, a definition"
for row in "D 1" "C 64" "B 4096"; do
    set -- $row
    more "$1" 256 > "$work/more"
    cat "$work/linked" "$work/more" > "$work/all"
    after=$(seconds "$work/all")
    awk -v n="$2" -v a="$after" -v b="$linked" 'BEGIN { printf "%d: %.3f ms\n", n, 1000 * (a - b) / 256 }'
done
exit $status
