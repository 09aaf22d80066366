#!/usr/bin/env bash
# Opens the page of `linkd report --html` in a browser without a screen, and compares the totals that it shows with those of --json.
#
#     bench/report_page.sh PROGRAM FOLDER [PICTURES]     PROGRAM is the built linkd; FOLDER has class files, as rows/reports/classes does
#
# Pictures of the page, closed and opened, 1280 and 390 pixels wide, each with and without dark colours, are written to the folder PICTURES, if
# it is named. CHROMIUM chooses the browser (else chromium of the PATH; Debian's is `apt-get install chromium`). Compared are the six numbers
# of the whole with the sums over the instructions, those of each package, class and method with the sums of what is below it, the invocations
# of each method with its numbers, and the files that are left out. Each method that a row names is pressed: who calls it has to have that row
# among them, and its own row has to be shown, if it has one. Of what is megamorphic, and of what a further class may change, as many are shown
# as the report has. Words of --only, --in, --with and --breaks may stand in REPORT_WORDS. It ends with status 0 only if all are alike.
set -eu

if [ $# != 2 ] && [ $# != 3 ]; then
    sed -n '2,/^set/{/^#/s/^# \{0,1\}//p;}' "$0" >&2
    exit 2
fi
program=$(cd "$(dirname "$1")" && pwd)/$(basename "$1")
folder=$2
browser=${CHROMIUM:-chromium}
export LC_ALL=C
work=$(mktemp -d)
trap 'rm -rf "$work"' EXIT
trap 'exit 130' INT TERM

read -r -a words <<< "${REPORT_WORDS:-}"
"$program" report --json --html "$work/page.html" ${words[@]+"${words[@]}"} "$folder" > "$work/report.json"

# Runs the browser, which tells much on the standard error that is of no use here.
browse() {
    "$browser" --headless --no-sandbox --disable-gpu --hide-scrollbars --user-data-dir="$work/profile" "$@" 2> "$work/said" || {
        cat "$work/said" >&2
        exit 1
    }
}
if [ $# = 3 ]; then
    mkdir -p "$3"
    pictures=$(cd "$3" && pwd)
    dark=(--force-dark-mode --enable-features=WebContentsForceDark:inversion_method/none)
    for width in 1280 390; do
        for end in "" "#open"; do
            name=$pictures/$width${end/\#/-}
            browse --window-size=$width,1800 --screenshot="$name.png" "file://$work/page.html$end" > "$work/said-too"
            browse "${dark[@]}" --window-size=$width,1800 --screenshot="$name-dark.png" "file://$work/page.html$end" > "$work/said-too"
        done
    done
fi
browse --dump-dom "file://$work/page.html#open" > "$work/dom.html"

# Presses what can be pressed, and tells what comes of it.
python3 - "$work/page.html" "$work/pressed.html" <<'END'
import sys

PRESSES = r"""<script>
const wrong = [];
for (const site of document.querySelectorAll(".site")) for (const named of site.querySelectorAll("button")) {
  const caller = site.parentElement.querySelector("summary .name").textContent;
  named.click();
  const panel = at("about"), listed = [...panel.querySelectorAll("li")].map(one => one.textContent);
  if (panel.hidden || listed.length <= MOST_CALLERS && !listed.some(one => one.includes(": " + caller + ", "))) wrong.push(named.textContent + " isn't called by " + caller);
  const own = [...panel.querySelectorAll("button")].find(one => one.textContent === "its invocations");
  if (!own) continue;
  own.click();
  const shown = document.querySelector(".met > summary .name");
  if (!shown || !shown.textContent.includes(named.textContent.slice(named.textContent.lastIndexOf(".") + 1))) wrong.push("no row of " + named.textContent);
}
const counts = {};
for (const one of ["mega", "open"]) {
  at("chosen").value = one;
  show();
  counts[one] = [...document.querySelectorAll("#all > .row:first-child b")].reduce((all, cell) => all + Number(cell.textContent), 0);
}
const result = document.createElement("pre");
result.id = "pressed";
result.textContent = JSON.stringify({ wrong, counts });
document.body.append(result);
</script></body></html>"""
page = open(sys.argv[1], encoding="utf-8").read()
open(sys.argv[2], "w", encoding="utf-8").write(page.replace("</body></html>", PRESSES))
END
browse --virtual-time-budget=20000 --dump-dom "file://$work/pressed.html#open" | sed -n 's|.*<pre id="pressed">\(.*\)</pre>.*|\1|p' > "$work/pressed.json"
python3 - "$work/dom.html" "$work/report.json" "$work/pressed.json" <<'END'
import html
import html.parser
import json
import sys

# Which of the six numbers a shape counts in.
PART = {"direct": 0, "table": 1, "mega": 2, "throws": 3, "noReceivers": 4, "notLinkable": 4, "waits": 5, "unbound": 5}


class Reader(html.parser.HTMLParser):
    """The rows of the page: each with its depth, its name, its numbers, and the parts of the invocations right below it. The depth is 0 of
    the whole, 1 of a package, 2 of a class, and 3 of a method."""

    def __init__(self):
        super().__init__()
        self.rows, self.depth, self.text, self.is_share, self.data = [], 0, None, False, ""

    def handle_starttag(self, tag, attrs):
        told = dict(attrs)
        names = (told.get("class") or "").split()
        self.depth += tag == "details"
        if "row" in names:
            self.is_share = told.get("id") in ("shares", "head")
            if not self.is_share:
                self.rows.append([self.depth, "", [], []])
        elif "site" in names:
            self.rows[-1][3].append(int(names[1][1:]))
        elif tag == "script" and told.get("id") == "report":
            self.text = "data"
        elif not self.is_share and tag == "span" and "name" in names:
            self.text = "name"
        elif not self.is_share and tag == "b":
            self.text = "number"

    def handle_endtag(self, tag):
        self.depth -= tag == "details"
        self.text = None

    def handle_data(self, data):
        if self.text == "name":
            self.rows[-1][1] += data
        elif self.text == "number":
            self.rows[-1][2].append(int(data))
        elif self.text == "data":
            self.data += data


reader = Reader()
reader.feed(open(sys.argv[1], encoding="utf-8").read())
lines = [json.loads(line) for line in open(sys.argv[2], encoding="utf-8")]
wanted = [0] * 6
for shapes in lines[-1]["totals"].values():
    for shape, count in shapes.items():
        wanted[PART[shape]] += count
wrong = []
if not reader.rows or reader.rows[0][2] != wanted:
    wrong.append(f"the whole: the page has {reader.rows[:1]}, the report {wanted}")
if sum(wanted) != sum("kind" in line and "dropped" not in line for line in lines):
    wrong.append("the totals aren't as many as the lines")
for place, (depth, name, numbers, sites) in enumerate(reader.rows):
    below = []
    for other in reader.rows[place + 1:]:
        if other[0] <= depth:
            break
        if other[0] == depth + 1:
            below.append(other[2])
    if depth < 3 and numbers != [sum(part) for part in zip(*below)] and (below or sum(numbers)):
        wrong.append(f"{name}: {numbers}, and below it {below}")
    if depth == 3 and numbers != [sites.count(part) for part in range(6)]:
        wrong.append(f"{name}: {numbers}, and its invocations are {sites}")
left = [one[0] for one in json.loads(reader.data)["leftOut"][:-1]]
files = [line["file"] for line in lines if line.get("refused") not in (None, "ModuleFile") and "file" in line]
if left != files:
    wrong.append(f"the page has {left} left out, the report {files}")
classes = {line["class"] for line in lines if "kind" in line and "dropped" not in line}
shown = sum(row[0] == 2 for row in reader.rows)
if shown != len(classes):
    wrong.append(f"the page shows {shown} classes, the report {len(classes)}")
pressed = json.loads(html.unescape(open(sys.argv[3], encoding="utf-8").read()))
wrong += pressed["wrong"]
rows = [line for line in lines if "kind" in line and "dropped" not in line]
counts = {"mega": sum("mega" in line.get("link", {}) for line in rows), "open": sum("restsOn" in line for line in rows)}
if pressed["counts"] != counts:
    wrong.append(f"the page shows {pressed['counts']}, the report has {counts}")
for text in wrong:
    print(text, file=sys.stderr)
if not wrong:
    print(f"{len(reader.rows)} bars are as the report has them: {wanted}")
sys.exit(bool(wrong))
END
