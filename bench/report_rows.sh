#!/usr/bin/env bash
# Compares reports of folders that no test of a crate can make with what was worked out by hand.
#
#     bench/report_rows.sh PROGRAM                  PROGRAM is the built linkd
#     bench/report_rows.sh PROGRAM FOLDER BESIDE    only that the class files of FOLDER have the same report in later versions; the
#                                                   classes of BESIDE are there, too
#
# 2,000 classes, each below the one whose name comes next, so that files by name have children first; links in folders, to a file, to a
# folder and to nothing; a name that isn't UTF-8; class by class what further classes drop, whose files come in such an order, too; class
# files of which 65 and 69 are written as the major version, whose reports differ from those of before only in what tells of later ones. It
# ends with status 0 only where each report is as it must be. It takes a minute, most of it the links of the chain and their methods, each of
# which walks up from each receiver.
set -eu

if [ $# != 1 ] && [ $# != 3 ]; then
    sed -n '2,/^set/{/^#/s/^# \{0,1\}//p;}' "$0" >&2
    exit 2
fi
program=$(cd "$(dirname "$1")" && pwd)/$(basename "$1")
if [ $# = 3 ]; then
    folder=$(cd "$2" && pwd)
    beside=$(cd "$3" && pwd)
fi
export LC_ALL=C
work=$(mktemp -d)
trap 'rm -rf "$work"' EXIT
trap 'exit 130' INT TERM
cd "$work"
count=0 wrong=0

# Writes the class files of sketches, a line each, into a folder, under the names of their classes.
classes() {
    mkdir -p "$1"
    cat > sketches
    "$program" sketch < sketches > hex
    python3 - "$1" <<'END'
import json
import sys

for sketch, text in zip(open("sketches"), open("hex")):
    name = json.loads(sketch)["name"].replace("/", "_")
    open(f"{sys.argv[1]}/{name}.class", "wb").write(bytes.fromhex(text))
END
}

# Writes the major version into each class file of a folder.
written_as() {
    python3 - "$1" "$2" <<'END'
import pathlib
import sys

for path in pathlib.Path(sys.argv[1]).rglob("*.class"):
    text = bytearray(path.read_bytes())
    text[6:8] = int(sys.argv[2]).to_bytes(2, "big")
    path.write_bytes(text)
END
}

# Compares the reports of a folder's class files as 61, 65 and 69.
later() {
    for major in 61 65 69; do
        mkdir "as-$major"
        cp -r "$1" "as-$major/app"
        written_as "as-$major/app" "$major"
        for form in --json --sites; do
            options=("$form" --all-receivers)
            [ "$form" != --json ] || options+=(--classes)
            (cd "as-$major" && "$program" report "${options[@]}" --with "$2" app) > "as-$major/told$form"
            sed -e 's/"later":[0-9]*,//' -e 's/"linkedAs":"SE 17",//' -e '/^class files above 61\.0 /d' "as-$major/told$form" > "as-$major/rest$form"
            count=$((count + 1))
            if ! cmp "as-61/rest$form" "as-$major/rest$form" || { [ "$major" = 61 ] && ! cmp "as-61/told$form" "as-61/rest$form"; } ||
                { [ "$major" != 61 ] && cmp -s "as-$major/told$form" "as-$major/rest$form"; }; then
                echo "$1 as $major: the report $form isn't that of 61 and a line of later versions" >&2
                wrong=1
            fi
        done
    done
    echo "$(grep -c '"kind"' as-61/told--json) invocations, as 61, 65 and 69"
    rm -rf as-61 as-65 as-69
}

# Compares a report's output, its line on the standard error and its status with those that are wanted.
expect() {
    told=$1 status=$2 errors=$3
    shift 3
    cat > wanted
    came=0
    count=$((count + 1))
    "$program" report "$@" > output 2> said || came=$?
    if [ "$came" != "$status" ] || ! printf '%s' "$errors" | cmp -s - said || ! cmp -s wanted output; then
        wrong=$((wrong + 1))
        echo "$told: status $came, and wanted is $status" >&2
        diff wanted output >&2 || true
        printf '%s' "$errors" | diff - said >&2 || true
    fi
}

if [ $# = 3 ]; then
    later "$folder" "$beside"
    exit "$wrong"
fi

object='{"name":"java/lang/Object","flags":33}'
echo "$object" | classes lang

# C0000 is below C0001, and so on to C1999. Both ends declare f; each class invokes f on its own class. Below Cn are n classes: C0000 has
# one receiver; C0001 to C0007 have two to eight, of which C0000 runs its own f; and all others have more than eight.
python3 - <<'END' | classes chain
import json

for n in range(2000):
    name, above = f"C{n:04}", f"C{n + 1:04}" if n < 1999 else "java/lang/Object"
    own = [{"name": "f", "type": "()V", "flags": 1}] if n in (0, 1999) else []
    call = {"kind": "invokevirtual", "of": name, "name": "f", "type": "()V"}
    print(json.dumps({"name": name, "super": above, "flags": 33, "methods": [*own, {"name": "run", "type": "()V", "flags": 9, "calls": [call]}]}))
END
none='{"invokedynamic":{},"invokeinterface":{},"invokespecial":{},"invokestatic":{},"invokevirtual":{}}'
expect "a chain" 0 "" --json --only open --only mega --in C0000 --in C0001 --in C0007 --in C0008 --with lang chain << END
{"class":"C0000","kind":"invokevirtual","link":{"direct":{"run":"C0000"}},"method":"run","methodType":"()V","name":"f","of":"C0000","pc":0,\
"restsOn":"C0000","type":"()V"}
{"class":"C0001","kind":"invokevirtual","link":{"kind":"virtual","table":[["C0001",{"run":"C1999"}],["C0000",{"run":"C0000"}]]},"method":"run",\
"methodType":"()V","methods":2,"name":"f","of":"C0001","pc":0,"restsOn":"C0001","type":"()V"}
{"class":"C0007","kind":"invokevirtual","link":{"kind":"virtual","table":[["C0007",{"run":"C1999"}],["C0006",{"run":"C1999"}],["C0005",\
{"run":"C1999"}],["C0004",{"run":"C1999"}],["C0003",{"run":"C1999"}],["C0002",{"run":"C1999"}],["C0001",{"run":"C1999"}],["C0000",\
{"run":"C0000"}]]},"method":"run","methodType":"()V","methods":2,"name":"f","of":"C0007","pc":0,"restsOn":"C0007","type":"()V"}
{"class":"C0008","kind":"invokevirtual","link":{"mega":true},"method":"run","methodType":"()V","methods":2,"name":"f","of":"C0008","pc":0,\
"runs":["C1999","C0000"],"type":"()V"}
{"classes":4,"leftOut":0,"made":$none,"oneMethod":$none,"totals":{"invokedynamic":{},"invokeinterface":{},"invokespecial":{},"invokestatic":{},\
"invokevirtual":{"direct":1,"mega":1,"table":2}},"twoMethods":{"invokedynamic":{},"invokeinterface":{},"invokespecial":{},"invokestatic":{},\
"invokevirtual":{"mega":1,"table":2}}}
END
expect "the totals of a chain" 0 "" --with lang chain << 'END'
2000 invocations in 2000 methods of 2000 classes
invokevirtual                       2000
    direct                             1     0.0 %
    table                              7     0.3 %
      of two methods                   7     0.3 %
    mega                            1992    99.6 %
      of two methods                1992    99.6 %
END

# A link to a folder, one to a class file and one to nothing aren't followed in a folder; a path that is a link is.
mkdir links
cp chain/C1999.class links
ln -s ../chain links/more
ln -s ../chain/C1998.class links/C1998.class
ln -s nowhere links/none.class
expect "links in a folder" 0 "" --with lang links << 'END'
1 invocations in 1 methods of 1 classes
invokevirtual                          1
    direct                             1   100.0 %
END
ln -s links linked
expect "a path that is a link" 0 "" --with lang linked << 'END'
1 invocations in 1 methods of 1 classes
invokevirtual                          1
    direct                             1   100.0 %
END

# A name that isn't UTF-8 can't be read, and its folder tells so; all else in it is read.
mkdir -p names/deep
cp chain/C1998.class names/deep
cp chain/C1999.class names
cp chain/C1997.class "$(printf 'names/\377.class')"
expect "a name that isn't UTF-8" 3 'linkd: names: invalid filename
linkd: input or output failed
' --with lang names << 'END'
2 invocations in 2 methods of 2 classes
invokevirtual                          2
    direct                             2   100.0 %
END

# Lower is below Upper, and its file comes first by name. A, B and Lower have f. The invocation on A has the receivers A and B, the one on B
# has B alone. With Upper, which runs A's f, the table of A isn't the link any more. Lower drops nothing more of A, whose link is gone, and
# makes no receiver of B.
classes two << END
{"name":"A","super":"java/lang/Object","flags":33,"methods":[{"name":"f","type":"()V","flags":1},\
{"name":"run","type":"()V","flags":9,"calls":[{"kind":"invokevirtual","of":"A","name":"f","type":"()V"},\
{"kind":"invokevirtual","of":"B","name":"f","type":"()V"}]}]}
{"name":"B","super":"A","flags":33,"methods":[{"name":"f","type":"()V","flags":1}]}
END
classes further << END
{"name":"Upper","super":"A","flags":33}
{"name":"Lower","super":"Upper","flags":33,"methods":[{"name":"f","type":"()V","flags":1}]}
END
expect "further classes" 0 "" --sites --with lang --breaks further two << 'END'
A.run()V
      0 invokevirtual A.f()V  table of 2 (2 methods): A -> A.f, B -> B.f; rests on the subclasses of A
      3 invokevirtual B.f()V  direct B.f; rests on the subclasses of B
dropped by Upper: A.run()V
      0 invokevirtual A.f()V  table of 2: A -> A.f, B -> B.f; rests on the subclasses of A
        now  table of 3: A -> A.f, B -> B.f, Upper -> A.f; rests on the subclasses of A
further classes                        2
links that they drop                   1
2 invocations in 1 methods of 2 classes
invokevirtual                          2
    direct                             1    50.0 %
    table                              1    50.0 %
      of two methods                   1    50.0 %
END
later "$work/two" "$work/lang"
[ "$wrong" = 0 ] && echo "$count reports are as they must be"
