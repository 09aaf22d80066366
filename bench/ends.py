#!/usr/bin/env python3
"""Compares what words ask of `linkd`, how it takes lines, and how it ends with the lists of docs/REPORTS.md and of docs/FORMATS.md, "Lines" and
"Usage": its answers, its exit status, and its line on the standard error. Each usage is held to the options that the documents name, to
docs/linkd.1 and to the version of tools/install.sh, and its examples are run.

    bench/ends.py [--quiet] PROGRAM     PROGRAM is the built linkd; with --quiet nothing is printed where all is as it must be

The status and the line of each way to end are proved of a function of jl_cli; that the program tells them of the way in which it
ended, and tells nothing else, is what is seen here. Want of memory and of threads is brought about by a limit on the room of the
process, which rises until the program has all that it asks for: each lower one has to end it so, or keeps it from starting. A farm
without threads is one of a user that may have none; where this runs as root, that is nobody.
It ends with status 0 only where all is as it must be, and takes a few seconds.
"""
import os
import pathlib
import re
import resource
import shutil
import subprocess
import sys
import tempfile

TOP = pathlib.Path(__file__).resolve().parent.parent
LINKS, NO_LINKS = b'{"do":"links"}\n', b'{"links":[]}\n'
FARM_OF_NONE = b'{"links":[],"reports":[]}\n'
OBJECT = b'{"do":"define","loader":0,"sketch":{"name":"java/lang/Object","flags":33}}\n'
BAD_WORDS, FARM_FAILED = (1, b"linkd: bad words\n"), (1, b"linkd: farm failed\n")
TOO_LONG, FAILED, NO_MEMORY = (2, b"linkd: line too long\n"), (3, b"linkd: input or output failed\n"), (4, b"linkd: out of memory\n")
NOTHING = (5, b"linkd: nothing to report\n")
ENDED = (0, b"")
# What the standard output says of bad words that ask for no help begins so, and ends with one of these.
WRONG, ALL_COMMANDS, ALL_OPTIONS = b"error: ", b"\n`linkd --help` has all commands.\n", b"\n`linkd report --help` has all options.\n"
MODES = (["scan"], ["sketch"], ["run"], ["farm", "--workers", "2"])
BAD_LINE = b'{"error":"BadCommand"}\n'
# A class file, its sketch and a command, which tell the modes apart; and what each mode answers.
FILE = b"cafebabe0000003d00030100106a6176612f6c616e672f4f626a6563740700010021000200000000000000000000\n"
SKETCH = b'{"name":"java/lang/Object","flags":33}\n'
MODE_ANSWERS = {
    "scan": b'{"class":"java/lang/Object","methods":[]}\n' + BAD_LINE * 2,
    "sketch": BAD_LINE + FILE + BAD_LINE,
    "run": BAD_LINE * 2 + NO_LINKS,
    "farm": BAD_LINE * 3 + FARM_OF_NONE,
}
# Words that ask for a mode, and words that ask for nothing.
ASKING = (
    "scan, scan --, sketch, sketch --, run, run --, farm --workers 1, farm --workers 16, farm --workers=4, farm --workers 4 --, "
    "farm --workers=4 --, farm --workers +4, farm --workers=0004"
)
ASKING_NOTHING = (
    "--, -- scan, scan -- scan, sketch scan, sketches, run scan, Scan, sc, --version x, -V scan, scan --version, scan scan, scan -- --help, scan -- help, "
    "sc help, scan scan help, helps, --hel, scan --workers 2, farm, farm --, farm 4, farm --workers, farm --workers=, farm --workers 0, "
    "farm --workers 17, farm --workers 260, farm --workers -1, farm --workers=-1, farm --workers four, farm --workers 4.0, "
    "farm --workers=4=4, farm --workers 4 --workers 4, farm --workers=4 --workers=4, farm --workers --workers 4, farm --workers 4 5, "
    "farm --workers 4 scan, farm --workers 4 -- 5, farm --workers -- 4, farm -- --workers 4, --workers 4 farm, farm --worker 4, farm -w 4, "
    "farms --workers 4"
)
NONE = ([""], ["scan", "run"], ["Scan"], ["farm"], ["farm", "--workers"], ["farm", "2"])
NO_REPORTS = (
    "report, report --only any /, report --lines /, report --site /, report --only Direct /, report --only open,direct /, report --sites --json /, "
    "report --classes /, report --html, report --release 16 /, report --release 26 /, report --release x /, report --release 21 --release 25 /, "
    "report / --html /p.html, report --html A.class /none, report --with / --html /p.html /none, report --breaks / --html /p.html /none"
)
# Bad words, and what the standard output says of them: the word, and one that is near it.
SAID = {
    "reprot": ("reprot", "report"),
    "sacn": ("sacn", "scan"),
    "run scan": ("scan",),
    "farm --worker 4": ("--worker", "--workers"),
    "farm --workers 17": ("17", "--workers"),
    "report --site /": ("--site", "--sites"),
    "report --only Direct /": ("Direct", "direct"),
    "report --sites --json /": ("--sites", "--json"),
    "report --classes /": ("--json",),
    "report --release 26 /": ("26", "--release"),
    "report": ("PATH",),
    "report / --html /p.html": ("/p.html", "'/'"),
}
# Words that ask for help, by the subcommand whose usage it is, if any; and the section of docs/FORMATS.md, or the page, that names its options.
HELP = {
    "": ", help, --help, -h, help help, help unknown, help -- scan, help --help, --help scan, -h report /, --workers 4 --help, sc --help",
    "scan": "help scan, scan help, scan --help, scan -h, scan help run, scan x --help, help scan --, help scan x, scan --help -- x",
    "sketch": "help sketch, sketch help, sketch --help, sketch -h",
    "run": "help run, run help, run --help, run -h, help run --help",
    "farm": "help farm, farm help, farm --help, farm -h, farm --workers 4 --help, farm --workers -h, farm help --workers 4",
    "report": "help report, report --help, report -h, report / --help, report help --help, report --only --help, report --html x -h -- /",
}
OPTIONS_IN = {"farm": "Commands", "report": "Reports"}
NO_CLASSES = (
    b"no class of these paths was read: they have no files whose names end in .class\n0 invocations in 0 methods of 0 classes\n"
)
COUNTS = ("0", "17", "-1", "two", "", "256")
MEGABYTE = 1 << 20
NOBODY = 65534


def run(program, words, given=b"", room=None, **devices):
    """The exit status, the standard error and the standard output of a run."""
    if "stdin" not in devices:
        devices["input"] = given
    limit = room and (lambda: resource.setrlimit(resource.RLIMIT_AS, (room, room)))
    ran = subprocess.run([program, *words], stderr=subprocess.PIPE, preexec_fn=limit, **{"stdout": subprocess.PIPE} | devices)
    return (ran.returncode, ran.stderr), ran.stdout


class Rows:
    def __init__(self):
        self.count, self.wrong = 0, 0

    def expect(self, told, came, wanted):
        self.count += 1
        if came != wanted:
            self.wrong += 1
            print(f"{told}: {came}, and not {wanted}")


def words(rows, program):
    for mode in MODES:
        rows.expect(f"{mode} without input", run(program, mode), (ENDED, FARM_OF_NONE if mode[0] == "farm" else b""))
    for asked in [*NONE, *(["farm", "--workers", count] for count in COUNTS), *map(str.split, ASKING_NOTHING.split(","))]:
        told_wrong(rows, program, asked, ALL_COMMANDS)
    for asked in map(str.split, ASKING.split(",")):
        rows.expect(f"the words {asked}", run(program, asked, FILE + SKETCH + LINKS), (ENDED, MODE_ANSWERS[asked[0]]))


def told_wrong(rows, program, asked, last):
    """The words are bad ones, and the standard output says what is wrong with them, and no more."""
    end, text = run(program, asked, LINKS)
    rows.expect(f"the words {asked}", (end, text.startswith(WRONG), text.endswith(last)), (BAD_WORDS, True, True))


def reports(rows, program):
    for asked in map(str.split, NO_REPORTS.split(", ")):
        told_wrong(rows, program, asked, ALL_OPTIONS)
    for asked, wanted in SAID.items():
        text = run(program, asked.split())[1].decode()
        rows.expect(f"what is said of {asked}", [word for word in wanted if word not in text], [])
    with tempfile.TemporaryDirectory() as folder:
        rows.expect("a report of nothing", run(program, ["report", folder]), (NOTHING, NO_CLASSES))
        nowhere = f"{folder}/nowhere"
        told = f"linkd: {nowhere}: entity not found\n".encode() + FAILED[1]
        rows.expect("a report of no path", run(program, ["report", nowhere, folder]), ((FAILED[0], told), NO_CLASSES))
        for asked in (["help"], ["--", "--help"], ["--", "-h"]):
            told = f"linkd: {asked[-1]}: entity not found\n".encode() + FAILED[1]
            rows.expect(f"a report of the path {asked}", run(program, ["report", *asked], cwd=folder), ((FAILED[0], told), NO_CLASSES))
        with open("/dev/full", "wb") as full:
            rows.expect("a report into a full device", run(program, ["report", folder], stdout=full)[0], FAILED)
        page = pathlib.Path(folder, "page.html")
        for asked, wanted, is_written in ((["report", "/dev/null"], ENDED, False), (["report", "--html", page, "/dev/null"], NOTHING, True)):
            reader, writer = os.pipe()
            os.close(reader)
            rows.expect(f"{asked} into a closed pipe", (run(program, asked, stdout=writer)[0], page.exists()), (wanted, is_written))
            os.close(writer)


def usage(rows, program, topic):
    """The usage of the subcommand, or of the program, which is the same whatever words ask for it."""
    texts = set()
    for asked in map(str.split, HELP[topic].split(",")):
        end, text = run(program, asked, LINKS)
        rows.expect(f"the words {asked}", end, BAD_WORDS)
        texts.add(text.decode())
    rows.expect(f"how many usages there are of {topic!r}", len(texts), 1)
    return texts.pop()


def section(name):
    """The section of docs/FORMATS.md, or the page that has it alone."""
    page = TOP / f"docs/{name.upper()}.md"
    return page.read_text() if page.exists() else (TOP / "docs/FORMATS.md").read_text().split(f"\n## {name}\n")[1].split("\n## ")[0]


def options_in(text):
    return set(re.findall(r"(?<![\w-])--[a-z][a-z-]*", text))


def examples(rows, program, text):
    """Runs the examples of a usage where it says so, which is there at hand as `linkd`."""
    with tempfile.TemporaryDirectory() as folder:
        os.symlink(program, f"{folder}/linkd")
        devices = {"cwd": TOP / "crates/linkd", "env": os.environ | {"PATH": f"{folder}:{os.environ['PATH']}"}}
        lines = re.findall("^  (.*)", text.split("\nExamples, in crates/linkd of the sources:\n")[1], re.MULTILINE)
        for line in lines:
            end, answers = run("bash", ["-o", "pipefail", "-c", line], **devices)
            rows.expect(f"the example {line}", (end, answers != b"", b"BadCommand" in answers), (ENDED, True, False))
        rows.expect("whether there are examples", lines != [], True)


def helps(rows, program):
    version = re.search("^Version: (.*)$", (TOP / "tools/install.sh").read_text(), re.MULTILINE)[1]
    for asked in ("--version", "-V"):
        rows.expect(asked, run(program, [asked]), (ENDED, f"linkd {version}\n".encode()))
    page = (TOP / "docs/linkd.1").read_text().replace("\\-", "-")
    usages, taken = {topic: usage(rows, program, topic) for topic in HELP}, {"--help"}
    for topic, text in usages.items():
        named = set(re.findall("^ +(--[a-z-]+)", text.partition("\nOptions:\n")[2], re.MULTILINE))
        wanted = options_in(section(OPTIONS_IN[topic])) if topic in OPTIONS_IN else set()
        told = f"the usage of {topic!r}"
        rows.expect(f"{told}, its first line", text.partition("\n")[0], f"linkd {version}")
        rows.expect(f"{told}, the options that are missing in it", wanted - named, set())
        rows.expect(f"{told}, its call", text.partition("\nUsage: ")[2].startswith(f"linkd {topic}".strip()), True)
        rows.expect(f"{told}, whether it says what prints it", f"`linkd {topic or 'COMMAND'} --help`" in text, True)
        examples(rows, program, text)
        taken |= named
    rows.expect("usages that are alike", len(usages) - len(set(usages.values())), 0)
    for topic in filter(None, HELP):
        about = usages[topic].split("\n")[2]
        rows.expect(f"what the program's usage says of {topic}", re.findall(f"^  {topic} +(.*)", usages[""], re.MULTILINE), [about])
    rows.expect("the options of docs/linkd.1", options_in(re.sub(r"(?s)\n\.EX\n.*?\n\.EE\n", "\n", page)), taken | {"--version"})
    rows.expect("the version of docs/linkd.1", f'"linkd {version}"' in page, True)
    rows.expect("the version of docs/FORMATS.md", f"`linkd {version}`" in section("Usage"), True)
    with open("/dev/full", "wb") as full:
        rows.expect("a usage into a full device", run(program, ["help"], stdout=full)[0], FAILED)
    reader, writer = os.pipe()
    os.close(reader)
    rows.expect("a usage into a closed pipe", run(program, ["help"], stdout=writer)[0], BAD_WORDS)
    os.close(writer)


# Inputs by their modes, and how many lines they have, all of them bad: an empty line is one, a last line without a newline is one unless
# it is empty; a carriage return is no hexadecimal digit, and a space no sketch.
BAD_INPUTS = (
    *(("scan", given, count) for given, count in [(b"", 0), (b"\n", 1), (b"0", 1), (b"0\n", 1), (b"zz\n\n0x00\n0", 4), (b"\n\n", 2)]),
    *(("scan", b"cafebabf\r", 1), ("sketch", b" ", 1)),
)
# How many digits 0 a line has, and why it is no class file: up to a million bytes, over these, and the longest line.
DIGITS = ((2_000_000, b"BadMagic"), (2_000_002, b"TooLarge"), (2_100_000, b"TooLarge"))


def lines(rows, program):
    for mode, given, count in BAD_INPUTS:
        rows.expect(f"{mode} of {given}", run(program, [mode], given), (ENDED, BAD_LINE * count))
    for count, refusal in DIGITS:
        rows.expect(f"{count} digits", run(program, ["scan"], b"0" * count), (ENDED, b'{"refused":"%s"}\n' % refusal))
    refused, longer = b'{"refused":"BadMagic"}\n', b"0" * 2_100_001 + b"\n"
    rows.expect("a longer line", run(program, ["scan"], b"cafebabf\n0\n" + longer + b"0\n"), (TOO_LONG, refused + BAD_LINE))
    ended_early = (TOO_LONG, b'{"class":0,"dropped":[]}\n')
    rows.expect("a longer line of a farm", run(program, ["farm", "--workers", "1"], OBJECT + longer + b"{\n"), ended_early)
    long = LINKS + b"x" * 2_100_001
    rows.expect("a long line", run(program, ["run"], long), (TOO_LONG, NO_LINKS))
    rows.expect("a long line of a farm", run(program, ["farm", "--workers", "2"], OBJECT + long[len(LINKS) :]), (TOO_LONG, b'{"class":0,"dropped":[]}\n'))
    rows.expect("a line that isn't too long", run(program, ["run"], long[:-1]), (ENDED, NO_LINKS + b'{"error":"BadCommand"}\n'))


# A site on A.f, whose link is prepared once more than 16 bits count.
PREPARED_SITE = (
    OBJECT
    + b'{"do":"define","loader":0,"sketch":{"name":"A","super":"java/lang/Object","flags":33,"methods":[{"name":"f","type":"()V","flags":9},'
    b'{"name":"g","type":"()V","flags":9,"calls":[{"kind":"invokestatic","of":"A","name":"f","type":"()V"}]}]}}\n'
    b'{"do":"request","class":1,"method":1,"pc":0}\n'
)
BATCHES = (1 << 16) + 1


def batches(rows, program):
    came, answers = run(program, ["run"], PREPARED_SITE + b'{"do":"prepare","sites":[0]}\n' * BATCHES)
    wanted = [b'{"prepared":%d,"rows":[[0,{"plain":[1,0]}]]}' % number for number in range(BATCHES)]
    rows.expect(f"{BATCHES} batches", (came, answers.splitlines()[3:] == wanted), (ENDED, True))


def devices(rows, program):
    for mode in MODES:
        with open("/dev/full", "wb") as full:
            rows.expect(f"{mode} into a full device", run(program, mode, LINKS, stdout=full)[0], FAILED)
        folder = os.open("/", os.O_RDONLY)
        rows.expect(f"{mode} of a folder", run(program, mode, stdin=folder), (FAILED, b""))
        os.close(folder)


def rooms(rows, program, mode, given, ways):
    """Runs with ever more room, until the input ends: each end before is one of these ways, and want of memory is among them."""
    came = set()
    for megabytes in range(1, 4096):
        end, _ = run(program, mode, given, megabytes * MEGABYTE)
        if end == ENDED:
            break
        # (the system's loader has no room for the program itself)
        if end[0] < 0 or end[0] == 127:
            continue
        came.add(end)
        if end not in ways:
            break
    rows.expect(f"{mode} with ever more room", (sorted(came - set(ways)), NO_MEMORY in came), ([], True))


def without_threads():
    """Has the process that begins make no thread. (The order matters: a user who has too many processes may begin none.)"""
    if os.geteuid() == 0:
        os.setgroups([])
        os.setgid(NOBODY)
        os.setuid(NOBODY)
    resource.setrlimit(resource.RLIMIT_NPROC, (0, 0))


def threads(rows, program):
    with tempfile.TemporaryDirectory() as folder:
        os.chmod(folder, 0o755)
        copy = shutil.copy(program, folder)
        os.chmod(copy, 0o755)
        words = [copy, "farm", "--workers", "2"]
        ran = subprocess.run(words, input=PREPARED_SITE, capture_output=True, cwd="/", preexec_fn=without_threads)
        answers = b'{"class":0,"dropped":[]}\n{"class":1,"dropped":[]}\n{"dropped":[],"site":0}\n'
        rows.expect("a farm without threads", ((ran.returncode, ran.stderr), ran.stdout), (FARM_FAILED, answers))


def main(*words_given):
    program, quiet = os.path.abspath(words_given[-1]), "--quiet" in words_given
    rows = Rows()
    words(rows, program)
    reports(rows, program)
    helps(rows, program)
    lines(rows, program)
    batches(rows, program)
    devices(rows, program)
    threads(rows, program)
    rooms(rows, program, ["run"], LINKS, [NO_MEMORY])
    rooms(rows, program, ["farm", "--workers", "16"], OBJECT, [NO_MEMORY, FARM_FAILED])
    if rows.wrong or not quiet:
        print(f"{rows.count} ends, {rows.wrong} wrong")
    return 1 if rows.wrong else 0


if __name__ == "__main__":
    sys.exit(main(*sys.argv[1:]))
