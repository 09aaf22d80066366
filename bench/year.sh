#!/usr/bin/env bash
# Asks of a core what a server asks in a year, once with renewals and once without, and looks at the memory that is resident.
#
#     bench/year.sh [EVENTS]
#
# EVENTS (13300000: ten million new targets, a million switch points that come, become invalid and go, as many call sites, and 20,000 loaders
# of ten classes) is how many events are asked. The core forgets what is past. It is renewed where the numbers of a kind are nearly used up, so
# the run without renewals ends early. The program is what `rt run` in crates/bench leaves in out/; where there is none, it is built. A line is printed for each 100,000 events, with the MB that are resident with renewals and
# without; KEEP=DIR keeps these lines there, as year.txt, and what the program told. After them stands what is resident once the second
# renewal is done, the most at a later line, and what renewals take. It ends with status 0 only where there were two renewals and with them
# nothing was refused; needs python3 and Linux.
set -eu
here=$(cd "$(dirname "$0")" && pwd)
top=$(dirname "$here")
bench="$top/crates/bench/out/bench"
work=$(mktemp -d)
trap 'rm -rf "$work"' EXIT
trap 'exit 130' INT TERM
data=${KEEP:-$work}
mkdir -p "$data"
if [ ! -x "$bench" ] && ! (cd "$top/crates/bench" && rt run) < /dev/null > "$work/built.txt" 2>&1; then
    tail -n 5 "$work/built.txt" >&2
    exit 1
fi

# One run, with the megabytes after each line that it tells.
run() {
    "$here/resident.py" "$bench" year "$1" "$2" < /dev/null > "$data/$3.txt" 2> "$data/$3.told"
}
run "${1:-13300000}" 1 renewed
run "${1:-13300000}" 0 alone
if grep '^ended' "$data/renewed.txt" >&2; then
    exit 1
fi
python3 - "$data" <<'END'
import re, sys

EVENTS = re.compile(r"(\d+) events in (\d+) us, ([\d.]+) MB")
RENEWED = re.compile(r"renewed after (\d+) events: .* in (\d+) us, ([\d.]+) MB")
data = sys.argv[1]


def rows_of(form, name):
    with open(f"{data}/{name}.told") as told:
        return [tuple(map(float, row.groups())) for row in map(form.match, told) if row]


rows, beside = rows_of(EVENTS, "renewed"), rows_of(EVENTS, "alone")
with open(f"{data}/year.txt", "w") as table:
    for place, (events, _, resident) in enumerate(rows):
        alone = f"{beside[place][2]:.1f}" if place < len(beside) else "-"
        for file in sys.stdout, table:
            print(f"{events:.0f} {resident:.1f} {alone}", file=file)
renewals = rows_of(RENEWED, "renewed")
later = [row[2] for row in rows + renewals if len(renewals) > 1 and row[0] > renewals[1][0]]
if not rows or not later:
    sys.exit("no line after a second renewal")
most = max(row[2] for row in rows)
print(f"0 to {most:.1f} MB:", "".join("▁▂▃▄▅▆▇█"[min(7, int(8 * row[2] / most))] for row in rows))
after = renewals[1][2]
print(f"{after:.1f} MB after the second renewal, later at most {max(later):.1f} MB: {max(later) / after:.2f} times (goal: 1.20 at most)")
seconds = [row[1] / 1e6 for row in renewals]
print(f"{len(seconds)} renewals, each {min(seconds):.3f} to {max(seconds):.3f} s, {sum(seconds):.1f} s of {rows[-1][1] / 1e6:.1f} s")
END
tail -n 1 "$data/renewed.told"
echo "without renewals: $(grep '^ended' "$data/alone.txt" || echo 'all asked'), $(tail -n 1 "$data/alone.told")"
