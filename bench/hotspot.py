#!/usr/bin/env python3
"""Runs each row of docs/HOTSPOT.md again. bench/hotspot.sh calls it.

    bench/hotspot.py PROGRAM CLASSES JAVA [JAVA2]

PROGRAM is the built linkd. CLASSES is the folder of the built AsmHotspot. JAVA is a JVM that has ASM inside. JAVA2 is a second JVM, which
needs none: it runs the class files that JAVA has written.

A row is: its number; its section; a world; an invocation; what the standard says, as the linker answers; what HotSpot does, interpreted,
compiled by C1 and compiled by C2. A world is declarations with `;` between them, a class after those that it names:

    [package] [abstract] class|interface NAME [extends NAME] [implements NAME, ..] [{MEMBER, ..}] [version N]

with a MEMBER `[package|private|static|abstract] NAME` of type ()V, and public without such a word; `package` is no access flag. What an
interface implements are its superinterfaces. A world that ends with `; one nest` has its first class as the nest host of all others.

An invocation is `INSTRUCTION NAME.METHOD [in NAME] on NAME|null [after NAME, ..]`. It stands in a static method of the class after `in`.
Without `in` it stands in a class Main without relatives. Its receiver is an object of the class after `on`. Objects of the classes after
`after` come before it. Each comes two hundred times.

The page's second table has the rows in which the second JVM answers otherwise than the first: the second JVM's version, the row's number,
and what it does, interpreted, compiled by C1 and compiled by C2. In all other rows it answers as the first does.

The script prints each answer of the linker and of the first JVM, and those of the second where they are others. It ends with status 0
only where all are the page's. Without JAVA2 it says that it looked at no second JVM.
"""

import json
import pathlib
import re
import subprocess
import sys
import tempfile

PAGE = pathlib.Path(__file__).resolve().parent.parent / "docs/HOTSPOT.md"
OBJECT = "java/lang/Object"
TYPES = {"hashCode": "()I", "clone": "()Ljava/lang/Object;"}
FLAGS = {"": 0x1, "package": 0, "private": 0x2, "static": 0x9, "abstract": 0x401}
CALL = "(Ljava/lang/Object;)V"
TIMES = 200
MODES = {"interpreted": ["-Xint"], "C1": ["-Xcomp", "-XX:TieredStopAtLevel=1"], "C2": ["-Xcomp", "-XX:-TieredCompilation"]}
ASM = ["--add-exports", "java.base/jdk.internal.org.objectweb.asm=ALL-UNNAMED"]
FLAGS_OF_JVM = [
    "-XX:+UnlockDiagnosticVMOptions",
    "-XX:-BytecodeVerificationRemote",
    "-XX:-CreateCoredumpOnCrash",
    "-XX:CompileCommand=quiet",
    "-XX:CompileCommand=compileonly,*.call",
]
ROOT = {
    "name": OBJECT,
    "flags": 33,
    "methods": [
        {"name": "hashCode", "type": "()I", "flags": 0x101},
        {"name": "clone", "type": TYPES["clone"], "flags": 0x104},
        {"name": "finalize", "type": "()V", "flags": 4},
    ],
}


def declared(text):
    """The sketch of a declaration, and its version."""
    form = r"(package )?(abstract )?(class|interface) (\S+)(?: extends (\S+))?(?: implements ([^{]*?))?(?: \{(.*)\})?(?: version (\d+))?"
    package, abstract, kind, name, above, interfaces, members, version = re.fullmatch(form, text.strip()).groups()
    flags = (0x600 if kind == "interface" else 0x20) | (0 if package else 1) | (0x400 if abstract else 0)
    methods = []
    for member in (members or "").split(", ") if members else []:
        *words, method = member.split()
        methods.append({"name": method, "type": TYPES.get(method, "()V"), "flags": FLAGS[" ".join(words)]})
    named = interfaces.split(", ") if interfaces else []
    sketch = {"name": name, "flags": flags, "super": above or OBJECT, "interfaces": named, "methods": methods}
    return sketch, int(version or 61)


class Row:
    """A row of the page."""

    def __init__(self, cells):
        self.number, self.section, world, invocation, self.standard, *self.wanted = cells
        self.is_nest = world.endswith("; one nest")
        pairs = [declared(text) for text in world.removesuffix("; one nest").split(";")]
        self.sketches, self.versions = [sketch for sketch, _ in pairs], [version for _, version in pairs]
        form = r"(\w+) (\S+)\.(\w+)(?: in (\S+))? on (\S+)(?: after (.+))?"
        kind, of, name, caller, self.receiver, self.earlier = re.fullmatch(form, invocation).groups()
        self.method = name
        interfaces = [sketch["name"] for sketch in self.sketches if sketch["flags"] & 0x200]
        call = {"kind": kind, "of": of, "name": name, "type": TYPES.get(name, "()V")}
        if kind == "invokespecial":
            call["itf"] = of in interfaces
        self.caller = caller or "Main"
        if caller is None:
            self.sketches.append({"name": "Main", "flags": 33, "super": OBJECT, "methods": []})
            self.versions.append(61)
        at = next(sketch for sketch in self.sketches if sketch["name"] == self.caller)
        at["methods"].append({"name": "call", "type": CALL, "flags": 9, "calls": [call]})
        host, *members = self.sketches
        if self.is_nest:
            host["members"] = [member["name"] for member in members]
            for member in members:
                member["host"] = host["name"]

    def files(self, program):
        """The class files in hexadecimal, java/lang/Object's first."""
        given = "".join(json.dumps(sketch) + "\n" for sketch in [ROOT, *self.sketches])
        told = subprocess.run([program, "sketch"], input=given, stdout=subprocess.PIPE, check=True, text=True).stdout
        return [line[:12] + f"{version:04x}" + line[16:] for line, version in zip(told.splitlines(), [61, *self.versions])]

    def by_linker(self, program, files):
        """What the linker answers."""
        sketches = [ROOT, *self.sketches]
        numbers = {sketch["name"]: at for at, sketch in enumerate(sketches)}
        at = numbers[self.caller]
        request = {"do": "request", "class": at, "method": len(sketches[at]["methods"]) - 1, "pc": 0}
        receiver = {} if self.receiver == "null" else {"recv": numbers[self.receiver]}
        commands = [{"do": "define", "loader": 0, "hex": file} for file in files]
        commands += [request, {"do": "prepare", "sites": [0]}, {"do": "install", "prepared": 0}, {"do": "call", "site": 0, **receiver}]
        given = "".join(json.dumps(command) + "\n" for command in commands)
        lines = subprocess.run([program, "run"], input=given, stdout=subprocess.PIPE, check=True, text=True).stdout.splitlines()
        answer = json.loads(lines[-1])
        if "run" in answer:
            of, method = answer["run"]
            return f"{sketches[of]['name']}.{sketches[of]['methods'][method]['name']}"
        return answer.get("throws") or " ".join(line for line in lines if "refused" in line or "unlinked" in line)

    def by_jvm(self, jvm, told):
        """What a JVM does, in each mode."""
        receivers = [*(self.earlier.split(", ") if self.earlier else []), self.receiver]
        return [jvm.came(options, told, self.method, [self.caller, str(TIMES), *receivers]) for options in MODES.values()]


class Jvm:
    """A JVM, by its program `java`."""

    def __init__(self, java, classes):
        self.java, self.classes = java, classes
        told = subprocess.run([java, "-version"], stderr=subprocess.PIPE, check=True, text=True).stderr
        self.version = re.search(r'version "(.+?)"', told)[1]

    def tell(self, lines, told):
        """Writes the class files again, with methods that tell their names."""
        words = [self.java, *ASM, "-cp", self.classes, "AsmHotspot", "tell", str(lines)]
        with told.open("w") as file:
            subprocess.run(words, stdout=file, check=True)

    def came(self, options, told, method, given):
        """What came of the last invocation of the method."""
        words = [self.java, *FLAGS_OF_JVM, *options, "-cp", self.classes, "AsmHotspot", "run", str(told), *given]
        done = subprocess.run(words, stdout=subprocess.PIPE, stderr=subprocess.PIPE, text=True, cwd=told.parent)
        if done.returncode < 0 or "SIGSEGV" in done.stdout:
            return "crash"
        came = done.stdout.strip() or done.stderr.strip()
        return f"{OBJECT}.{method}" if came == "returned" else came


class Page:
    """The rows of the page's first table; the second table's version, and its answers by the row's number."""

    def __init__(self, text):
        self.rows = [Row(cells) for cells in cells_of(text, r"\d+")]
        others = cells_of(text, r"\d+(?:\.\d+)+")
        (self.version,) = {version for version, *_ in others}
        self.others = {number: answers for _, number, *answers in others}
        firsts = {row.number: row.wanted for row in self.rows}
        same = [number for number, answers in self.others.items() if firsts.get(number, answers) == answers]
        if same:
            sys.exit(f"the page's second table says nothing else than the first in row {', '.join(same)}")


def cells_of(page, first):
    """The cells of the page's lines whose first cell has this form."""
    lines = [line for line in page.splitlines() if re.match(rf"\| {first} \|", line)]
    return [[cell.strip().strip("`") for cell in line.strip("|").split("|")] for line in lines]


def spoken(answers):
    """The answers of a JVM as a line says them."""
    return "; ".join(f"{mode} {answer}" for mode, answer in zip(MODES, answers))


def is_as_first(row, standard, came):
    """Whether the linker and the first JVM answer as the page says."""
    print(f"{row.number:>2} standard {standard}; {spoken(came)}", flush=True)
    is_same = [standard, *came] == [row.standard, *row.wanted]
    if not is_same:
        print(f"   the page has standard {row.standard}; {spoken(row.wanted)}", file=sys.stderr)
    return is_same


def is_as_second(row, page, version, first, came):
    """Whether the second JVM answers as the page says."""
    wanted = page.others.get(row.number, row.wanted)
    if came != first:
        print(f"   {version} answers otherwise: {spoken(came)}" + ("; so says the page" if came == wanted else ""), flush=True)
    if came != wanted:
        print(f"   the page has of {page.version}: {spoken(wanted)}", file=sys.stderr)
    return came == wanted


def is_as_page(row, page, program, jvms, room):
    """Whether all answer as the page says in this row."""
    lines, told, files = room / "lines", room / "told", row.files(program)
    lines.write_text("".join(line + "\n" for line in files[1:]))
    jvms[0].tell(lines, told)
    first = row.by_jvm(jvms[0], told)
    is_same = is_as_first(row, row.by_linker(program, files), first)
    return all([is_same, *(is_as_second(row, page, jvm.version, first, row.by_jvm(jvm, told)) for jvm in jvms[1:])])


def main():
    if len(sys.argv) not in (4, 5):
        print(__doc__, file=sys.stderr)
        return 2
    program, classes, *javas = sys.argv[1:]
    jvms = [Jvm(java, classes) for java in javas]
    page = Page(PAGE.read_text())
    print(f"the JVM is {jvms[0].version}")
    if jvms[1:]:
        print(f"the second JVM is {jvms[1].version}, the page's {page.version}")
    with tempfile.TemporaryDirectory() as room:
        wrong = [row.number for row in page.rows if not is_as_page(row, page, program, jvms, pathlib.Path(room))]
    print(f"otherwise than the page says: {', '.join(wrong)}" if wrong else "each row is as the page says")
    if not jvms[1:]:
        print(f"there was no second JVM: what the page says of {page.version} was not looked at")
    return 1 if wrong else 0


if __name__ == "__main__":
    sys.exit(main())
