#!/usr/bin/env python3
"""Sends `linkd` and tools/classes.py inputs that are malformed, hostile or odd, and compares what comes: the exit status, the standard error,
the standard output, and what is written. Outcomes are worked out from docs/FORMATS.md and the head of tools/classes.py.

    bench/inputs.py [--quiet] PROGRAM..     each PROGRAM is a built linkd; with --quiet nothing is printed if all is as it must be

It makes its inputs in a temporary folder: class files that are cut, too large, of other versions, at other places, in circles; names that
would end a line, drive a terminal or turn a text round; files that never end, links in loops, what nobody may read; pages over class files,
on a full disk, for a closed pipe. It ends with status 0 only if all is as it must be.
"""
import contextlib
import os
import pathlib
import resource
import shutil
import signal
import socket
import subprocess
import sys
import tempfile
import time
import zipfile

from made_classes import OBJECT, VIRTUAL, calling, made_class

TOP = pathlib.Path(__file__).resolve().parent.parent
SECONDS = 120
NOBODY = 65534
# A Python that everybody may run.
PYTHON = "/usr/bin/python3"
BAD_WORDS, FAILED, NOTHING = "linkd: bad words\n", "linkd: input or output failed\n", "linkd: nothing to report\n"
ALL_OPTIONS = "\n`linkd report --help` has all options.\n"
NO_FILES = "no class of these paths was read: they have no files whose names end in .class\n"
EMPTY = "0 invocations in 0 methods of 0 classes\n"


# ---- what must come


def head(name, count):
    return f"{name:<28}{count:>12}\n"


def reason(count, text):
    return f"    {count:>12}  {text}\n"


def share(name, count, of):
    return f"    {name:<24}{count:>12}{f'{1000 * count // of / 10:.1f}':>8} %\n"


def calls(classes):
    """The totals of so many classes, each with one method that makes two calls, of which each runs one method."""
    count = 2 * classes
    return f"{count} invocations in {classes} methods of {classes} classes\n" + head("invokevirtual", count) + share("direct", count, count)


def left_out(*reasons):
    return head("files that are left out", sum(count for count, _ in reasons)) + "".join(reason(*one) for one in reasons)


def unread(kind, count, why, all_files=None):
    return f"no class of these paths was read: {count} of {all_files or count} files are left out by {kind}{why}\n{EMPTY}"


def refused(kind, path, why):
    """The report of one file that is left out."""
    return unread(kind, 1, why) + left_out((1, f"{kind}, {path}"))


NOT_CLASSES = ", and aren't class files that can be read"
NO_CLASSES = ", so they make no classes"
TOO_LARGE = ", and a class file has at most 1,000,000 bytes"
SPECIAL = ", and only files and folders are read"
ARCHIVE = ": its classes have to be unpacked first (unzip, or tools/classes.py)"


def called(name):
    """The rows of a class that `calling` makes, by --sites."""
    return (
        f"{name}.f()V\n      0 invokevirtual {name}.g()V  direct {name}.g; rests on the subclasses of {name}\n"
        "      3 invokevirtual java/lang/Object.hashCode()I  direct java/lang/Object.hashCode; rests on the subclasses of java/lang/Object\n"
    )


# ---- sending


def put(path, content):
    os.makedirs(os.path.dirname(path) or ".", exist_ok=True)
    with open(path, "wb") as file:
        file.write(content)


def pack(path, members, how=zipfile.ZIP_STORED):
    with zipfile.ZipFile(path, "w", how) as archive:
        for name, content in members:
            archive.writestr(name, content)


def as_nobody():
    if os.geteuid() == 0:
        os.setgroups([])
        os.setgid(NOBODY)
        os.setuid(NOBODY)


def with_small_files():
    """No file may have over 64 KB, as on a disk that is full by then."""
    signal.signal(signal.SIGXFSZ, signal.SIG_IGN)
    resource.setrlimit(resource.RLIMIT_FSIZE, (65_536, 65_536))


class Sender:
    def __init__(self, program):
        self.program, self.count, self.wrong = program, 0, 0

    def tell(self, told, what, came, wanted):
        self.wrong += 1
        print(f"{told}: {what}:\n  came:      {came!r}\n  must come: {wanted!r}")

    def expect(self, told, came, wanted, what="it"):
        self.count += 1
        if came != wanted:
            self.tell(told, what, came, wanted)

    def run(self, words, given=b"", **more):
        more = {"stdin": subprocess.DEVNULL} | more if given is None else {"input": given} | more
        devices = {"stdout": subprocess.PIPE, "stderr": subprocess.PIPE} | more
        return subprocess.run(words, timeout=SECONDS, **devices)

    def sends(self, told, words, status, errors, output, **more):
        """Runs the words, and compares. A wanted text that is a list has parts that must stand in what comes."""
        ran = self.run(words, **more)
        self.count += 1
        if ran.returncode != status:
            self.tell(told, "the status", ran.returncode, status)
        for what, came, wanted in (("the standard error", ran.stderr, errors), ("the standard output", ran.stdout, output)):
            text = (came or b"").decode(errors="backslashreplace")
            if isinstance(wanted, list):
                if missing := [part for part in wanted if part not in text]:
                    self.tell(told, what, text[:500], missing)
            elif text != wanted:
                self.tell(told, what, text[:500], wanted[:500])

    def report(self, told, words, status, errors, output, beside=("--with", "lang"), **more):
        self.sends(told, [self.program, "report", *words, *beside], status, errors, output, **more)

    def reads_nothing(self, told, path, kind, why):
        self.report(told, [path], 5, NOTHING, refused(kind, path, why))

    def classes(self, told, words, status, errors, output, **more):
        self.sends(told, [sys.executable, str(TOP / "tools/classes.py"), *words], status, errors, output, **more)


def archives(sender):
    put("plain.txt", b"no jar")
    no_archive = "neither a folder nor an archive that can be read"
    sender.classes("a text for a jar", ["o1", "plain.txt"], 2, [f"plain.txt: {no_archive}"], "")
    pack("good.jar", [("A.class", calling("A"))])
    put("cut.jar", pathlib.Path("good.jar").read_bytes()[:100])
    sender.classes("half a jar", ["o2", "cut.jar"], 2, [f"cut.jar: {no_archive}"], "")
    pack("bomb.jar", [("A.class", b"\xca\xfe\xba\xbe" + bytes(50_000_000))], zipfile.ZIP_DEFLATED)
    sender.classes("a jar with a class of 50 MB", ["o3", "bomb.jar"], 0, ["1,000,000 bytes: 1, such as A of bomb.jar"], ["1 classes"])
    sender.expect("that class", os.path.getsize("o3/A.class"), 1_000_001)
    sender.reads_nothing("a report of it", "o3/A.class", "TooLarge", TOO_LARGE)
    pack("slip.jar", [("../../evil.class", calling("evil"))])
    sender.classes("a name that leads out", ["o4", "slip.jar"], 2, ["a name that leads out of its folder"], "")
    sender.expect("whether it was written", os.path.exists("../../evil.class") or os.path.exists("../evil.class"), False)
    pack("long.jar", [("a" * 300 + ".class", calling("a" * 300))])
    sender.classes("a name of 300 letters", ["o5", "long.jar"], 2, ["File name too long"], "")
    pack("case.jar", [("x/A.class", calling("x/A")), ("x/A.class/B.class", calling("B"))])
    sender.classes("a file that is a folder, too", ["o6", "case.jar"], 2, ["x/A.class"], "")
    sender.expect("what these have made", [name for name in ("o1", "o2", "o4", "o5", "o6") if os.path.exists(name)], [])
    sender.report("a jar", ["good.jar"], 5, NOTHING, unread("Archive", 1, ARCHIVE) + left_out((1, f"Archive, good.jar{ARCHIVE}")))
    put("jars/A.class", pathlib.Path("good.jar").read_bytes())
    wanted = unread("Archive", 1, ARCHIVE) + left_out((1, f"Archive, jars/A.class{ARCHIVE}"))
    sender.report("a jar that is called as a class", ["jars"], 5, NOTHING, wanted)
    pack("latin.jar", [("é.class", calling("é"))])
    sender.classes("a name beyond ASCII", ["o7", "latin.jar"], 0, "", ["1 classes"])
    sender.report("a report of it", ["--sites", "o7"], 0, "", called("é") + calls(1))


def files(sender):
    for name, content in (("cafe", OBJECT[:4]), ("cut", calling("A")[:60]), ("empty", b""), ("more", calling("More") + b"\0"), ("text", b"hello")):
        put(f"m/{name}.class", content)
    wanted = unread("Truncated", 2, NOT_CLASSES, 5) + left_out(
        (2, "Truncated, m/cafe.class"), (1, "Pool.Truncated, m/cut.class"), (1, "TrailingBytes, m/more.class"), (1, "BadMagic, m/text.class")
    )
    sender.report("five malformed files", ["m"], 5, NOTHING, wanted)
    put("w/B.class", calling("A"))
    elsewhere = "files at other places" + f"{1:>19}  as w/B.class, which has A\n"
    sender.report("a class in another's file", ["--sites", "w"], 0, "", called("A") + calls(1) + elsewhere)
    put("w2/A.class", calling("A"))
    put("w2/B.class", calling("A"))
    again = left_out((1, "Define.AlreadyRecorded, w2/B.class"))
    sender.report("a class twice", ["w2"], 0, "", calls(1) + elsewhere.replace("w/", "w2/") + again)
    put("w3/p/q/A.class", calling("A"))
    sender.report("a class without a package in a folder", ["w3"], 0, "", calls(1))
    put("big/A.class", calling("A") + bytes(1_000_000))
    sender.reads_nothing("over 1,000,000 bytes", "big/A.class", "TooLarge", TOO_LARGE)
    for name, version in (("A", (65, 0)), ("B", (69, 0)), ("C", (61, 65535)), ("D", (44, 0))):
        put(f"v/{name}.class", calling(name, version=version))
    later = head("class files above 61.0", 2).rstrip("\n") + "  linked as SE 17 says\n"
    wanted = calls(2) + later + left_out((1, "BadVersion 61.65535, v/C.class"), (1, "BadVersion 44.0, v/D.class"))
    sender.report("later versions, a preview's and one of before Java", ["v"], 0, "", wanted)
    put("cy/A.class", made_class("A", "B"))
    put("cy/B.class", made_class("B", "A"))
    circle = head("circles of parents", 1) + "    A below B below A\n"
    wanted = unread("Define.MissingParent", 2, NO_CLASSES) + circle + left_out((2, "Define.MissingParent, cy/A.class"))
    sender.report("a circle of two", ["cy"], 5, NOTHING, wanted)
    put("self/A.class", made_class("A", "A"))
    sender.reads_nothing("a class below itself", "self/A.class", "Define.NamesItself", NO_CLASSES)
    put("fin/A.class", made_class("A", flags=0x31))
    put("fin/B.class", made_class("B", "A"))
    wanted = "0 invocations in 0 methods of 1 classes\n" + left_out((1, "Define.FinalSuper, fin/B.class"))
    sender.report("a class below a FINAL one", ["fin"], 0, "", wanted)
    put("obj/java/lang/Object.class", OBJECT)
    wanted = "0 invocations in 0 methods of 1 classes\n" + head("left out beside them", 1)
    sender.report("an Object of one's own", ["obj"], 0, "", wanted)
    for number in range(150):
        own = [(1, "f", "()V", [(VIRTUAL, "C0", "f", "()V")])] if number == 100 else []
        put(f"chain/C{number}.class", made_class(f"C{number}", f"C{number - 1}" if number else "java/lang/Object", methods=own))
    wanted = "1 invocations in 1 methods of 150 classes\n" + head("invokevirtual", 1) + share("throws", 1, 1)
    sender.report("a chain of 150 classes", ["chain"], 0, "", wanted)
    for number in range(20_000):
        put(f"many/f{number:05}.class", b"bad")
    wanted = unread("Truncated", 20_000, NOT_CLASSES) + left_out((20_000, "Truncated, many/f00000.class"))
    sender.report("20,000 files that are none", ["many"], 5, NOTHING, wanted)


def names(sender):
    script = "<script>alert(1)<!script>".replace("!", "\\")
    own = [(1, 'f"onload=alert(1)', "()V", [(VIRTUAL, "<img src=x onerror=alert(3)>", "i", "()V")])]
    put("x/A.class", made_class(script, methods=own))
    put("x/<img src=x onerror=alert(4)>.class", b"bad")
    sender.report("names that are HTML", ["x", "--html", "x.html"], 0, "", [])
    page = pathlib.Path("x.html").read_text()
    sender.expect("what the page has of them", [text for text in ("<img", "<script>alert") if text in page], [])
    own = [(1, "\x1b]0\x07f\nB()V", "()V", [(VIRTUAL, "\x9b2JClear", "g", "()V")])]
    put("ctl/A.class", made_class("\x1bcRED\x07\r\nFAKE", methods=own))
    wanted = [
        "\\u001bcRED\\u0007\\u000d\\u000aFAKE.\\u001b]0\\u0007f\\u000aB()V()V\n      0 invokevirtual \\u009b2JClear.g()V  waits for \\u009b2JClear\n",
        "               1  \\u009b2JClear\n",
    ]
    sender.report("names that drive a terminal", ["--sites", "ctl"], 0, "", wanted)
    ran = sender.run([sender.program, "report", "--sites", "ctl", "--with", "lang"])
    sender.expect("what is raw of them", [byte for byte in ran.stdout if byte < 32 and byte != 10 or 127 <= byte < 160], [])
    put("ctl2/\x1b[31mred\x07.class", b"bad")
    wanted = unread("Truncated", 1, NOT_CLASSES) + left_out((1, "Truncated, ctl2/\\u001b[31mred\\u0007.class"))
    sender.report("a file's name that does", ["ctl2"], 5, NOTHING, wanted)
    sender.report("a path that isn't there and does", ["no\x1b[2J"], 3, "linkd: no\\u001b[2J: entity not found\n" + FAILED, NO_FILES + EMPTY)
    put("bidi/A.class", calling("admin\u202eresU\u200f\u2066"))
    shown = "admin\\u202eresU\\u200f\\u2066"
    places = "files at other places" + f"{1:>19}  as bidi/A.class, which has {shown}\n"
    sender.report("a name that turns round", ["--sites", "bidi"], 0, "", called(shown) + calls(1) + places)
    put("slash/A.class", calling("A\\ud800"))
    put("slash/B.class", calling(b"A\xed\xa0\x80"))
    put("slash/C.class", calling(b"A\xed\xa0\x81"))
    three = [called(name) for name in ("A\\u005cud800", "A\\ud800", "A\\ud801")]
    sender.report("names that look alike", ["--sites", "slash"], 0, "", three)
    json_names = ['"class":"A\\\\u005cud800"', '"class":"A\\\\ud800"', '"class":"A\\\\ud801"']
    sender.report("the same in JSON", ["--json", "slash"], 0, "", json_names)
    long = "n" * 20_000
    put("huge/A.class", made_class(long, methods=[(1, "m" * 20_000, "()V", [(VIRTUAL, long, "m" * 20_000, "()V")])]))
    sender.report("a name of 20,000 letters", ["--sites", "huge", "--html", "huge.html"], 0, "", [f"direct {long}.{'m' * 20_000}; rests on"])
    put("dot/A.class", made_class("a.b"))
    sender.reads_nothing("a class called a.b", "dot/A.class", "Pool.BadDescriptor", NOT_CLASSES)
    put("nl/a\nb/A.class", b"bad")
    wanted = unread("Truncated", 1, NOT_CLASSES) + left_out((1, "Truncated, nl/a\\u000ab/A.class"))
    sender.report("a folder's name with a newline", ["nl"], 5, NOTHING, wanted)


def paths(sender):
    put("nu/A.class", calling("A"))
    os.makedirs(b"nu", exist_ok=True)
    put(b"nu/\xff\xfe.class", calling("B"))
    sender.report("a name that is no UTF-8", ["nu"], 3, "linkd: nu: invalid filename\n" + FAILED, calls(1))
    sender.report("a word that is none", [b"nu/\xff\xfe.class"], 1, BAD_WORDS, ["error: ", "UTF-8"])
    put("nv/A.class", calling("A"))
    put(b"nv/\xff\xfe/B.class", calling("B"))
    sender.report("a folder's name that is none", ["nv"], 3, "linkd: nv: invalid filename\n" + FAILED, calls(1))
    here = os.getcwd()
    os.mkdir("deep")
    os.chdir("deep")
    for _ in range(60):
        os.mkdir("d" * 100)
        os.chdir("d" * 100)
    put("A.class", calling("A"))
    os.chdir(here)
    sender.report("folders beyond the longest path", ["deep"], 3, ["linkd: deep/ddd", FAILED], NO_FILES + EMPTY)
    os.makedirs("sl/d")
    for target, link in (("..", "sl/d/up"), ("loop", "sl/loop"), ("nowhere", "sl/B.class")):
        os.symlink(target, link)
    put("sl/A.class", calling("A"))
    sender.report("links in loops", ["sl"], 0, "", calls(1))
    sender.report("a link to itself", ["sl/loop"], 3, ["linkd: sl/loop: ", FAILED], NO_FILES + EMPTY)
    for told, path in (("a link to nowhere", "sl/B.class"), ("a path that isn't there", "gone"), ("an empty word", "")):
        sender.report(told, [path], 3, f"linkd: {path}: entity not found\n" + FAILED, NO_FILES + EMPTY)
    sender.classes("links in a folder", ["o8", "sl"], 2, ["sl: a symbolic link"], "")
    for name, path in (("A", "ur/A.class"), ("B", "ur/p/B.class"), ("C", "ur/C.class")):
        put(path, calling(name))
    os.chmod("ur/p", 0)
    os.chmod("ur/C.class", 0)
    denied = "linkd: ur/p: permission denied\nlinkd: ur/C.class: permission denied\n"
    came = sender.run([sender.program, "report", "ur", "--with", "lang"], preexec_fn=as_nobody)
    told = (came.returncode, sorted(came.stderr.decode().splitlines()), came.stdout.decode())
    sender.expect("what nobody may read", told, (3, sorted((denied + FAILED).splitlines()), calls(1)))
    if os.path.exists(PYTHON):
        words = [PYTHON, shutil.copy(TOP / "tools/classes.py", "."), "/proc/none", "ur"]
        sender.sends("the same", words, 2, ["classes.py: "], "", preexec_fn=as_nobody)
    os.chmod("ur/p", 0o755)
    os.mkfifo("fifo")
    sender.reads_nothing("a pipe without a writer", "fifo", "Fifo", SPECIAL)
    os.makedirs("ff")
    os.mkfifo("ff/A.class")
    sender.report("one in a folder", ["ff"], 5, NOTHING, NO_FILES + EMPTY)
    for path in ("/dev/null", "/dev/zero", "/dev/full"):
        sender.reads_nothing(path, path, "Device", SPECIAL)
    listener = socket.socket(socket.AF_UNIX)
    listener.bind("sock")
    sender.reads_nothing("a socket", "sock", "Socket", SPECIAL)
    listener.close()
    sender.report("a file that can't be read", ["/proc/self/mem"], 3, ["linkd: /proc/self/mem: ", FAILED], NO_FILES + EMPTY)
    sender.report("a folder of links", ["/proc/self/fd"], 5, NOTHING, NO_FILES + EMPTY)
    put("dirc/A.class/B.class", calling("B"))
    sender.report("a folder that is called as a class", ["--sites", "dirc"], 0, "", called("B") + calls(1))
    put("p/A.class", calling("A"))
    again = left_out((1, "Define.AlreadyRecorded, p/A.class"))
    sender.report("a path twice", ["p", "p"], 0, "", calls(1) + again)
    sender.report("the same beside it", ["p", "--with", "p"], 0, "", calls(1) + head("left out beside them", 1))
    none = head("further classes", 0) + head("links that they drop", 0)
    sender.report("the same as further classes", ["p", "--breaks", "p"], 0, "", none + calls(1) + again)
    missing = "linkd: gone: entity not found\n" + FAILED
    sender.report("no further classes", ["p", "--breaks", "gone"], 3, missing, none + calls(1))
    alone = "no class of these paths has its parents: java/lang/Object is missing, and --with takes the classes of a JDK or a library\n"
    sender.report("nothing beside", ["p"], 3, missing, [alone, "Define.MissingParent, p/A.class"], beside=("--with", "gone"))
    sender.report("a prefix of no class", ["p", "--in", "q/"], 5, NOTHING, f"--in takes none of the 1 classes of these paths\n{EMPTY}")


def pages(sender):
    """What becomes of the page."""
    full = "linkd: /dev/full: no storage space\n" + FAILED
    sender.report("a page into a full device", ["p", "--html", "/dev/full"], 3, full, calls(1))
    for told, words in (("a report into one", []), ("the same with a page", ["--html", "p1.html"])):
        with open("/dev/full", "wb") as device:
            sender.report(told, ["p", *words], 3, FAILED, "", stdout=device)
    sender.expect("whether that page is there", os.path.exists("p1.html"), False)
    sender.report("a page in no folder", ["p", "--html", "none/p.html"], 3, "linkd: none/p.html: entity not found\n" + FAILED, calls(1))
    os.mkdir("folder")
    sender.report("a page for a folder", ["p", "--html", "folder"], 3, "linkd: folder: is a directory\n" + FAILED, calls(1))
    for words in (["p", "--html", "p"], ["p", "--html", "p/new.html"], ["p", "--html", "p/A.class"], ["p", "--html", "x.class"]):
        sender.report(f"a page over classes, {words}", words, 1, BAD_WORDS, ["error: ", words[2], ALL_OPTIONS])
    sender.expect("that class file", pathlib.Path("p/A.class").read_bytes(), calling("A"))
    old = b"OLD PAGE" * 1_000
    big = made_class("Big", methods=[(9, f"m{i}", "()V", [(VIRTUAL, "Big", f"x{j}", "()V") for j in range(99)]) for i in range(40)])
    put("large/Big.class", big)
    put("old.html", old)
    failed = "linkd: old.html: file too large\n" + FAILED
    sender.report("a page for a disk that is full", ["large", "--html", "old.html"], 3, failed, ["3960 invocations"], preexec_fn=with_small_files)
    sender.expect("the page of before", pathlib.Path("old.html").read_bytes(), old)
    words = [sender.program, "report", "--json", "large", "--with", "lang", "--html", "closed.html"]
    reader, writer = os.pipe()
    os.close(reader)
    ran = sender.run(words, stdout=writer)
    os.close(writer)
    written = pathlib.Path("closed.html").read_text() if os.path.exists("closed.html") else ""
    sender.expect("a page and a closed pipe", (ran.returncode, ran.stderr, written.endswith("</html>\n")), (0, b"", True))
    shell = ["sh", "-c", '"$0" report p --with lang >&-', sender.program]
    sender.sends("a closed standard output", shell, 3, FAILED, "")
    shell = ["sh", "-c", '"$0" report gone --with lang 2>&-', sender.program]
    sender.sends("a closed standard error", shell, 3, "", NO_FILES + EMPTY)
    process = subprocess.Popen([sender.program, "report", "--json", "large", "chain", "many", "--with", "lang", "--html", "old.html"], stdout=subprocess.PIPE)
    process.stdout.read(1)
    process.send_signal(signal.SIGINT)
    process.communicate()
    kept = pathlib.Path("old.html").read_bytes()
    sender.expect("a page and Ctrl-C", (process.returncode in (0, -signal.SIGINT), kept == old or kept.endswith(b"</html>\n")), (True, True))
    words = [sender.program, "report", "--sites", "p", "x", "m", "--with", "lang", "--html", "eight.html"]
    processes = [subprocess.Popen(words, stdout=subprocess.PIPE, stderr=subprocess.PIPE) for _ in range(8)]
    outputs = [process.communicate() for process in processes]
    whole = pathlib.Path("eight.html").read_text().endswith("</html>\n")
    told = ({process.returncode for process in processes}, len(set(outputs)), whole)
    sender.expect("eight runs into one page", told, ({0}, 1, True))
    sender.expect("what is left beside pages", sorted(name for name in os.listdir() if ".part" in name and not name.startswith("old.html")), [])


def lines(sender):
    """The modes that answer lines."""
    bad = '{"error":"BadCommand"}\n'
    long = '{"name":"' + "a" * 70_000 + '","flags":33}\n'
    number = '{"do":"request","class":' + "9" * 400 + ',"method":0,"pc":0}'
    later = calling("A", version=(65, 0)).hex() + "\n"
    rows = [
        ("scan", "", ""), ("scan", "caf\n", bad), ("scan", OBJECT.hex() + "\r\n", bad), ("scan", later, '{"refused":"BadVersion"}\n'),
        ("run", "[" * 2_000_000 + "\n", bad), ("run", f'{{"do":"define"}}\n{{}}\nnull\n{number}\n', bad * 4), ("sketch", long, '{"refused":"TooBig"}\n'),
    ]
    for mode, given, wanted in rows:
        sender.sends(f"{mode} of {given[:40]!r}", [sender.program, mode], 0, "", wanted, given=given.encode())
    sender.sends("bytes that are no text", [sender.program, "scan"], 0, "", bad, given=b"\xff\x00zz\n")
    sender.sends("a long line", [sender.program, "scan"], 2, "linkd: line too long\n", "", given=b"a" * 2_100_001 + b"\n")
    sender.sends("a farm of nothing", [sender.program, "farm", "--workers", "16"], 0, "", '{"links":[],"reports":[]}\n')


@contextlib.contextmanager
def room():
    """A folder that everybody may enter, in which the inputs are."""
    before = os.getcwd()
    folder = tempfile.mkdtemp()
    os.chmod(folder, 0o755)
    os.chdir(folder)
    try:
        yield folder
    finally:
        os.chdir(before)
        shutil.rmtree(folder, ignore_errors=True)


def main(*words):
    quiet, programs = "--quiet" in words, [os.path.abspath(word) for word in words if word != "--quiet"]
    wrong = 0
    for program in programs:
        began = time.monotonic()
        with room() as folder:
            copy = shutil.copy(program, f"{folder}/linkd")
            os.chmod(copy, 0o755)
            put("lang/java/lang/Object.class", OBJECT)
            sender = Sender(copy)
            for part in (archives, files, names, paths, pages, lines):
                part(sender)
        wrong += sender.wrong
        if sender.wrong or not quiet:
            print(f"{program}: {sender.count} inputs, {sender.wrong} wrong, {time.monotonic() - began:.1f} s")
    return 1 if wrong or not programs else 0


if __name__ == "__main__":
    sys.exit(main(*sys.argv[1:]))
