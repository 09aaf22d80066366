#!/usr/bin/env bash
# Tries the wrong bodies of crates/NAME/edits/, which the gate doesn't read: the prover must refuse each.
#
#     bench/try_edits.sh [NAME..]             NAMEs are crates; without one, all that have edits
#     bench/try_edits.sh --changed REVISION   the crates with edits whose specs/ or public contracts differ from the revision's
#
# `rt ci NAME..` tries them on a copy of the repository, where they stand in must-fail/ in the place of those that the gate tries.
# What such a run or the gate has proved or tried on this machine is not done again. RT_JOBS checks run at a time (if unset, as many
# as rt chooses), of up to 3.5 GB of memory each. Each edit that isn't refused is printed, and at the end how many were refused, how
# many passed (a contract to strengthen, or a body that is right), how many no longer fit the text or don't compile, and how many
# have no answer, since a crate isn't proved or a check was killed. The status is 0 if all were refused.
set -eu
top=$(cd "$(dirname "$0")/.." && pwd)
cd "$top"

# What a crate states: its specs, and of its sources what stands before the bodies of public functions, with types and models.
stated() {
    python3 - "$1" <<'PYTHON'
import pathlib, re, sys

crate = pathlib.Path(sys.argv[1])
for path in sorted(crate.glob("specs/**/*.antt")):
    print(path.relative_to(crate), path.read_text())
for path in sorted(crate.glob("src/**/*.rt")):
    taking = False
    for line in path.read_text().split("\n"):
        if re.match(r"\s*(pub (const )?fn|pub (struct|enum|trait|type)|impl\b.*\bfor\b|ghost )", line):
            taking = True
        if taking and not line.lstrip().startswith("//"):
            print(path.name, line.strip())
        # A body begins, or what has none ends.
        if line.strip() in ("{", "}") or line.endswith(";"):
            taking = False
PYTHON
}

if [ "${1:-}" = --changed ]; then
    [ $# = 2 ] || { echo "usage: bench/try_edits.sh --changed REVISION" >&2; exit 2; }
    before=$(mktemp -d)
    trap 'rm -rf "$before"' EXIT
    git archive "$2" crates | tar -C "$before" -xf -
    names=
    for folder in crates/*/edits; do
        name=$(echo "$folder" | cut -d/ -f2)
        [ "$(stated "crates/$name")" = "$(stated "$before/crates/$name")" ] || names="$names $name"
    done
    rm -rf "$before"
    [ -n "$names" ] || { echo "no crate with edits states anything else than at $2"; exit 0; }
    echo "changed since $2:$names"
    set -- $names
elif [ $# = 0 ]; then
    set -- $(cd crates && ls -d */edits | cut -d/ -f1)
fi
for name in "$@"; do
    ls "crates/$name/edits/"*.edit > /dev/null || { echo "$name has no edits" >&2; exit 2; }
done

copy=$(mktemp -d)
trap 'rm -rf "$copy"' EXIT
trap 'exit 130' INT TERM
tar --exclude=out --exclude=must-fail -cf - . | tar -C "$copy" -xf -
cd "$copy"
for name in "$@"; do
    mv "crates/$name/edits" "crates/$name/must-fail"
done
rt ci "$@" > ci.txt 2>&1 || true

counted() {
    grep -c "^rt: must-fail [^ ]*: $1" ci.txt || true
}

# The lines after a verdict say more of an edit that isn't one.
grep -A3 --no-group-separator -E '^rt: must-fail [^ ]*: (NOT|BAD)' ci.txt || true
tried=$(ls crates/*/must-fail/*.edit | wc -l)
refused=$(counted refused) passed=$(counted 'NOT REFUSED') bad=$(counted 'BAD EDIT')
unknown=$((tried - refused - passed - bad))
[ "$unknown" = 0 ] || tail -n 20 ci.txt
echo "$refused refused, $passed passed, $bad no longer fit, $unknown without an answer"
[ "$refused" = "$tried" ]
