#!/usr/bin/env python3
"""Measures what a retirement takes and what it leaves, through `linkd run`.

    bench/retire.py PROGRAM     PROGRAM is the built linkd

First so many rounds as the limit of 65,536 classes allows of a loader with 100 classes and a call in each, requested, linked and
installed, and then retired; and once more without the retirements. It prints the memory of the process on the way (of Linux alone),
and how long a retirement's line takes. Then the same with classes that are only defined, with requested calls, and with installed ones:
bytes a class. Last, a loader of 100 classes is retired beside 30,000 others of loader 0.
"""
import json
import subprocess
import sys
import time

OBJECT = "java/lang/Object"
CLASSES, ROUNDS, BESIDE = 100, 640, 30000


class Session:
    """A program that is asked line by line."""

    def __init__(self, program):
        self.ran = subprocess.Popen([program, "run"], stdin=subprocess.PIPE, stdout=subprocess.PIPE, text=True, bufsize=1)

    def ask(self, **command):
        print(json.dumps(command, separators=(",", ":")), file=self.ran.stdin, flush=True)
        answer = json.loads(self.ran.stdout.readline())
        if "refused" in answer or "error" in answer:
            sys.exit(f"{command}: {answer}")
        return answer

    def megabytes(self):
        with open(f"/proc/{self.ran.pid}/status") as file:
            return next(int(line.split()[1]) for line in file if line.startswith("VmRSS:")) / 1024

    def end(self):
        self.ran.stdin.close()
        self.ran.wait()


def calling(name):
    """A class below java/lang/Object with a method, and a static one that calls it."""
    call = {"kind": "invokevirtual", "of": name, "name": "f", "type": "()V"}
    methods = [{"name": "f", "type": "()V", "flags": 1}, {"name": "m", "type": "()V", "flags": 9, "calls": [call]}]
    return {"name": name, "super": OBJECT, "flags": 33, "methods": methods}


DEFINED, REQUESTED, INSTALLED = range(3)


def fill(session, step=INSTALLED):
    """A loader more, with its classes and, up to this step, requested and installed sites; its number."""
    loader = session.ask(do="loader")["loader"]
    session.ask(do="delegate", loader=loader, name=OBJECT, to=0)
    sites = []
    for number in range(CLASSES):
        made = session.ask(do="define", loader=loader, sketch=calling(f"C{number}"))["class"]
        if step >= REQUESTED:
            sites.append(session.ask(do="request", **{"class": made}, method=1, pc=0)["site"])
    if step >= INSTALLED:
        session.ask(do="install", prepared=session.ask(do="prepare", sites=sites)["prepared"])
    return loader


def retire(session, loader):
    """How many milliseconds the answer takes, which names all sites of the loader."""
    begun = time.perf_counter()
    dropped = session.ask(do="retire", loader=loader)["dropped"]
    taken = 1000 * (time.perf_counter() - begun)
    if len(dropped) != CLASSES:
        sys.exit(f"loader {loader} dropped {len(dropped)} links")
    return taken


def rounds(program, is_retired):
    session = Session(program)
    session.ask(do="define", loader=0, sketch={"name": OBJECT, "flags": 33})
    taken = []
    for number in range(1, ROUNDS + 1):
        loader = fill(session)
        if is_retired:
            taken.append(retire(session, loader))
        if number % (ROUNDS // 4) == 0:
            last = taken[-ROUNDS // 4 :]
            times = f", a retirement {sorted(last)[len(last) // 2]:.2f} ms" if last else ""
            print(f"{number:6} loaders, {number * CLASSES:6} classes: {session.megabytes():6.1f} MB{times}", flush=True)
    session.end()


def bytes_a_class(program, step, is_retired):
    session = Session(program)
    session.ask(do="define", loader=0, sketch={"name": OBJECT, "flags": 33})
    before = session.megabytes()
    for _ in range(ROUNDS):
        loader = fill(session, step)
        if is_retired:
            session.ask(do="retire", loader=loader)
    taken = session.megabytes() - before
    session.end()
    return taken * (1 << 20) / (ROUNDS * CLASSES)


def beside(program):
    session = Session(program)
    session.ask(do="define", loader=0, sketch={"name": OBJECT, "flags": 33})
    for number in range(BESIDE):
        session.ask(do="define", loader=0, sketch=calling(f"B{number}"))
    taken = sorted(retire(session, fill(session)) for _ in range(9))
    print(f"beside {BESIDE} classes: {taken[0]:.2f} to {taken[-1]:.2f} ms, the middle {taken[4]:.2f}")
    session.end()


def main(words):
    if len(words) != 1:
        sys.exit(__doc__)
    print("each loader retired")
    rounds(words[0], True)
    print("none retired")
    rounds(words[0], False)
    for step, told in enumerate(("defined", "requested", "installed")):
        kept, left = (bytes_a_class(words[0], step, is_retired) for is_retired in (False, True))
        print(f"{told}: {kept:.0f} bytes a class, {left:.0f} where it is retired", flush=True)
    beside(words[0])


if __name__ == "__main__":
    main(sys.argv[1:])
