#!/usr/bin/env python3
"""Compares what `linkd` answers with the rows of rows/, whose forms docs/ROWS.md has ("Sessions", "Reports").

    bench/answers.py [--quiet] [--rows FOLDER] PROGRAM..     each PROGRAM is a built linkd; FOLDER stands for rows/
    bench/answers.py --only FILE[:NAME] PROGRAM              one file of sessions or of a report's words, or one script by its name

Each script is answered by a process of its own, which has to end with status 0 and with nothing on the standard error. Each row that
differs is printed, with its place, what must come and what came, and so is a line that may not stand where it does. A script without rows,
and a file that isn't of these forms, are wrong, too. With --quiet nothing is printed where all is as it must be. It ends with status 0
only there. It stops at words that define no class, and prints their place and what is wrong.
"""
import argparse
import itertools
import json
import os
import pathlib
import re
import subprocess
import sys

TOP = pathlib.Path(__file__).resolve().parent.parent
SECONDS = 120
# The words of each mode; a farm's lines are answered by one worker, and again by four.
MODES = {"run": [["run"]], "scan": [["scan"]], "sketch": [["sketch"]], "farm": [["farm", "--workers", count] for count in "14"]}


class Tally:
    """How many rows were compared, and how much is wrong."""

    def __init__(self):
        self.rows, self.wrong = 0, 0

    def tell(self, told):
        self.wrong += 1
        print(told)

    def compare(self, place, told, wanted, came):
        """Compares what came with what must come; None is nothing."""
        self.rows += wanted is not None
        if came != wanted:
            said = ["nothing" if it is None else it.decode(errors="backslashreplace") for it in (wanted, came)]
            self.tell(f"{place}: {told}\n  must come: {said[0]}\n  came:      {said[1]}")

    def compare_lines(self, place, rows, came):
        """Compares the lines that came with rows: each a place, what is told of it, and what must come."""
        *lines, after = came.split(b"\n")
        for number in range(max(len(rows), len(lines))):
            row = rows[number] if number < len(rows) else (place, "after the last row", None)
            self.compare(*row, lines[number] if number < len(lines) else None)
        if after:
            self.tell(f"{place}: no newline after the last line that came, {after.decode(errors='backslashreplace')}")


def run(program, words, given=b"", folder=None):
    """The exit status of a process, its standard error and its standard output."""
    ran = subprocess.run([program, *words], input=given, capture_output=True, cwd=folder, timeout=SECONDS)
    return ran.returncode, ran.stderr, ran.stdout


# ---- classes in words (docs/ROWS.md, "Definitions"), which crates/rows_text reads, too

OBJECT = "java/lang/Object"
FLAGS = {"public": 0x0001, "private": 0x0002, "protected": 0x0004, "static": 0x0008, "final": 0x0010, "super": 0x0020}
FLAGS |= {"interface": 0x0200, "abstract": 0x0400}
# The words that begin a part, and the keys of the parts in a sketch.
ONE_NAME = {"extends": "super", "nest-host": "host"}
NAMES = {"implements": "interfaces", "nest-members": "members"}
PARTS = {*ONE_NAME, *NAMES, "method"}
MAYBE_OF_INTERFACE = ("invokespecial", "invokestatic")
INSTRUCTIONS = (*MAYBE_OF_INTERFACE, "invokevirtual", "invokeinterface", "invokedynamic")
SIGNATURE = r"([^(]*)(\(.*)"


def refuse_unless(is_so, wrong):
    """Refuses the words for what is wrong with them, unless this is so."""
    if not is_so:
        raise ValueError(wrong)


def matched(form, word, what):
    """The groups of this form in the word, which has to be of it."""
    found = re.fullmatch(form, word)
    refuse_unless(found, f"no {what}: {word or 'the words end'}")
    return found.groups()


def flags_of(words):
    """The number of these flags."""
    for word in words:
        refuse_unless(word in FLAGS, f"no flag: {word}")
    return sum(FLAGS[word] for word in set(words))


def call_of(instruction, words):
    """The call by this instruction of what comes next in the words."""
    refuse_unless(instruction in INSTRUCTIONS, f"no instruction: {instruction}")
    word = next(words, "")
    if instruction == "invokedynamic":
        name, descriptor = matched(SIGNATURE, word, "signature")
        return {"kind": instruction, "name": name, "type": descriptor}
    more = {"itf": True} if word == "InterfaceMethodref" and instruction in MAYBE_OF_INTERFACE else {}
    of, name, descriptor = matched(rf"([^.]*)\.{SIGNATURE}", next(words, "") if more else word, "reference")
    return {"kind": instruction, "of": of, "name": name, "type": descriptor, **more}


def method_of(words):
    """The method of these words: flags, a signature, calls."""
    flags = list(itertools.takewhile(lambda word: "(" not in word, words))
    left = iter(words[len(flags) :])
    name, descriptor = matched(SIGNATURE, next(left, ""), "signature")
    calls = [call_of(instruction, left) for instruction in left]
    return {"name": name, "type": descriptor, "flags": flags_of(flags), **({"calls": calls} if calls else {})}


def parts_of(words):
    """The words before the first part, and then each part, with the word that begins it."""
    parts = [[]]
    for word in words:
        if word in PARTS:
            parts.append([])
        parts[-1].append(word)
    return parts


def sketch_of(name, words):
    """The sketch of the class of this name, by its flags and its parts. Only methods may be several, and they come last."""
    flags, *parts = parts_of(words)
    sketch = {"name": name, "super": None if name == OBJECT else OBJECT, "flags": flags_of(flags), "interfaces": [], "methods": []}
    told = set()
    for head, *part in parts:
        refuse_unless(head == "method" or not told & {head, "method"}, f"{head} again, or after a method")
        told.add(head)
        if head == "method":
            sketch["methods"].append(method_of(part))
        else:
            refuse_unless(len(part) == 1 or part and head in NAMES, f"{len(part)} names after {head}")
            sketch.update({NAMES[head]: part} if head in NAMES else {ONE_NAME[head]: part[0]})
    return {key: value for key, value in sketch.items() if value not in (None, [])}


def as_given(line):
    """The line as it is given: the command in JSON that a class in words stands for, and any other line as it is."""
    first, *words = line.split() or [""]
    if first != "define":
        return line
    refuse_unless(len(words) >= 2, "no loader, or no name")
    loader, name, *rest = words
    command = {"do": "define", "loader": int(*matched("([0-9]+)", loader, "loader")), "sketch": sketch_of(name, rest)}
    return json.dumps(command, ensure_ascii=False, separators=(",", ":"))


# ---- sessions


def whole_lines(text):
    """The lines that say something, with their numbers. A class in words takes each line below it that begins with a blank."""
    whole = []
    for number, line in enumerate(text.split("\n"), 1):
        if whole and line.startswith(" ") and re.match(r"(<|\$ \S+) define( |$)", whole[-1][1]):
            whole[-1][1] += f" {line.strip()}"
        elif line and not line.startswith("#"):
            whole.append([number, line])
    return whole


class Row:
    """A line as it stands in its file, the same as it is given, and its answer, once the file has one."""

    def __init__(self, number, line, given):
        self.number, self.line, self.given, self.answer = number, line, given, None


class Script:
    """Lines that a process answers, one after another."""

    def __init__(self, number, mode, name):
        self.number, self.mode, self.name, self.rows = number, mode, name, []

    def takes_answer(self, number, answer):
        """Takes the answer to the last line, or the line that a farm writes after all answers."""
        is_open = self.rows and self.rows[-1].answer is None
        if not is_open and self.mode == "farm" and (not self.rows or self.rows[-1].given is not None):
            self.rows.append(Row(number, "the end of the input", None))
        elif not is_open:
            return False
        self.rows[-1].answer = answer
        return True


class Reader:
    """The scripts of a file, and the texts that its names stand for so far."""

    def __init__(self):
        self.scripts, self.texts = [], {}

    def takes(self, number, line):
        """Takes the next line of the file, and tells whether it may stand there."""
        if begun := re.fullmatch(f"= ({'|'.join(MODES)}): (.*)", line):
            self.scripts.append(Script(number, *begun.groups()))
            return True
        if line.startswith("$ "):
            return self.takes_definition(line[2:])
        if self.scripts and line.startswith("> "):
            return self.scripts[-1].takes_answer(number, line[2:])
        if self.scripts and (line == "<" or line.startswith("< ")):
            return self.takes_line(number, line[2:])
        return False

    def takes_definition(self, definition):
        """Takes a definition, and tells whether it is a new name and a text."""
        name, gap, text = definition.partition(" ")
        is_new = gap != "" and name not in self.texts
        if is_new:
            self.texts[name] = as_given(text)
        return is_new

    def takes_line(self, number, line):
        """Takes a line, and tells whether each name in it stands for a text and no farm has ended before it."""
        given, *parts = line.split("${")
        for part in parts:
            name, end, rest = part.partition("}")
            if not end or name not in self.texts:
                return False
            given += self.texts[name] + rest
        rows = self.scripts[-1].rows
        if rows and rows[-1].given is None:
            return False
        rows.append(Row(number, line, as_given(given)))
        return True


def answer(program, file, script, tally):
    """Compares what the lines of a script are answered."""
    place = f"{file}:{script.number}"
    if not script.rows:
        tally.tell(f"{place}: a script without rows")
    for row in script.rows:
        if row.answer is None:
            tally.tell(f"{file}:{row.number}: a line without an answer")
    given = "".join(f"{row.given}\n" for row in script.rows if row.given is not None).encode()
    rows = [(f"{file}:{row.number}", row.line, (row.answer or "").encode()) for row in script.rows]
    for words in MODES[script.mode]:
        status, errors, came = run(program, words, given)
        tally.compare_lines(place, rows, came)
        if (status, errors) != (0, b""):
            tally.tell(f"{place}: {' '.join(words)} ended with status {status} and {errors}")


def answer_file(program, file, tally, name=None):
    """Compares what the scripts of a file are answered, or what the one of this name is."""
    reader = Reader()
    for number, line in whole_lines(file.read_bytes().decode()):
        try:
            if not reader.takes(number, line):
                tally.tell(f"{file}:{number}: not a line of a script")
        except ValueError as fault:
            sys.exit(f"{file}:{number}: {fault}")
    scripts = [script for script in reader.scripts if name in (None, script.name)]
    if not scripts:
        tally.tell(f"{file}: no script" + (f" named {name}" if name else ""))
    for script in scripts:
        answer(program, file, script, tally)


# ---- reports


def lines_of(file):
    """The lines of a file, each as a row; none where there is no such file."""
    if not file.exists():
        return []
    *lines, after = file.read_bytes().split(b"\n")
    if after:
        raise ValueError(f"{file}: no newline after the last line")
    return [(f"{file}:{number}", "a line of the report", line) for number, line in enumerate(lines, 1)]


def report(program, file, tally):
    """Compares the report that the words of this file ask for: its standard output, its standard error and its status."""
    words = [line.decode() for _, _, line in lines_of(file)]
    status, errors, came = run(program, words, folder=file.parent / "classes")
    tally.compare_lines(file, lines_of(file.with_suffix(".stdout")), came)
    tally.compare_lines(file, lines_of(file.with_suffix(".stderr")), errors)
    wanted = lines_of(file.with_suffix(".status")) or [(file, "", b"0")]
    tally.compare_lines(file, [(place, "the status", line) for place, _, line in wanted], b"%d\n" % status)


# ---- all


def files_of(rows):
    """The files of scripts, the files of reports' words, and what else stands in the folder, which nothing reads."""
    sessions, reports = sorted((rows / "sessions").glob("*.txt")), sorted((rows / "reports").glob("*.words"))
    known = {rows / "sessions", rows / "reports", rows / "reports/classes", rows / "reports/sources", *sessions, *reports}
    known |= {file.with_suffix(part) for file in reports for part in (".stdout", ".stderr", ".status")}
    folders = [folder for folder in (rows, rows / "sessions", rows / "reports") if folder.is_dir()]
    return sessions, reports, sorted({file for folder in folders for file in folder.iterdir()} - known)


def answer_only(program, only):
    """Compares one file, or one script of it, and tells how much is wrong."""
    file, gap, name = only.partition(":")
    file, tally = pathlib.Path(file), Tally()
    if file.suffix == ".words":
        report(program.resolve(), file, tally)
    else:
        answer_file(program.resolve(), file, tally, name if gap else None)
    print(f"{program}: {tally.rows} rows, {tally.wrong} differ")
    return 1 if tally.wrong else 0


def main():
    read = argparse.ArgumentParser(usage=__doc__)
    read.add_argument("--quiet", action="store_true")
    read.add_argument("--rows", type=pathlib.Path, default=pathlib.Path(os.path.relpath(TOP / "rows")))
    read.add_argument("--only")
    read.add_argument("programs", nargs="+", type=pathlib.Path)
    said = read.parse_args()
    if said.only:
        return max(answer_only(program, said.only) for program in said.programs)
    sessions, reports, others = files_of(said.rows)
    wrong = 0
    for program in said.programs:
        tally = Tally()
        for file in others:
            tally.tell(f"{file}: nothing reads this file")
        for file in sessions:
            answer_file(program.resolve(), file, tally)
        for file in reports:
            report(program.resolve(), file, tally)
        if not sessions or not reports:
            tally.tell(f"{said.rows}: no sessions, or no reports")
        if tally.wrong or not said.quiet:
            print(f"{program}: {tally.rows} rows, {tally.wrong} differ")
        wrong += tally.wrong
    return 1 if wrong else 0


if __name__ == "__main__":
    sys.exit(main())
