#!/usr/bin/env bash
# Tries a wrong body that no clause refuses: a `prepare_wide` that looks at all pairs in one thread. The tests of crates/rows_lists must
# refuse it.
#
#     bench/narrow_wide.sh
#
# On a copy of the repository a thread is given 65,536 pairs at the least, and the tests run without a proof. Of the eight,
# `first_waits_for_last` alone has to fail. It wants two processors or more and takes two minutes. The last line is 'refused' or 'NOT REFUSED'.
set -eu
top=$(cd "$(dirname "$0")/.." && pwd)
copy=$(mktemp -d)
trap 'rm -rf "$copy"' EXIT
trap 'exit 130' INT TERM
tar -C "$top" --exclude=out -cf - . | tar -C "$copy" -xf -
wide="$copy/crates/jl_relink/src/wide.rt"
sed -i 's/^const LEAST_PIECE: usize = .*;$/const LEAST_PIECE: usize = 65_536;/' "$wide"
if cmp -s "$wide" "$top/crates/jl_relink/src/wide.rt"; then
    echo 'LEAST_PIECE stands nowhere' >&2
    exit 2
fi
cd "$copy/crates/rows_lists"
rt try --test > tests.txt 2>&1 || true
grep '^test ' tests.txt || { tail -n 20 tests.txt >&2; exit 2; }
if grep -q '^test gates::first_waits_for_last \.\.\. ok$' tests.txt || ! grep -q '^test result: FAILED\. 7 passed; 1 failed;' tests.txt; then
    echo 'NOT REFUSED'
    exit 1
fi
echo refused
