"""What runs may answer of which one growth, or all from one on, are refused. For growths.sh, which says how it is used.

Of `bench growths` (crates/bench) and of linker.c, whose lines are WHOSE: CALL: ANSWER, a run is one of
- as without refusals, with two lines more before the answer of a call: that it was answered Memory, and that all is as before (a call
  that has no state before has the first alone);
- ended with status 4, and its lines are the first ones of a run without refusals;
- as without refusals: the refused growth had no effect on the answers.
Of linkd, whose lines are answers, it is one of
- one line is {"refused":"Memory"}, and the others are as in a run without refusals of the lines without that one;
- ended with status 4, and its lines are the first answers, whole;
- as without refusals.
Of linkd farm, whose last line tells links and reports, it may also be one where
- the reports of some jobs are "Memory", their sites have no links, and all else is as without refusals;
- it ended with status 1 after all answers, and has no last line.
Where all growths are refused from one on, such lines may stand before the status 4, too.
Which line of linkd wanted the memory is told by the growths of runs of the first lines alone: no line before it is answered Memory, and
where the run ends with status 4 each of these is answered.

The named calls alone are those of NAMED, in `bench growths`, each by a core and by a server. Their growths are found by runs that have all
refused from one on; then each is refused by itself, and there has to be one that the call is answered Memory for.
"""

import bisect
import collections
import concurrent.futures
import json
import os
import subprocess
import sys

MEMORY = '{"refused":"Memory"}\n'
SECONDS = 60
LACKS = "status 4"
SAME = "no effect"

# The class M of 123 bytes: public static void run() with one invokevirtual of A.f:()V.
M = (
    "cafebabe0000003d000d0100014d0700010100106a6176612f6c616e672f4f626a65637407000301000372756e010003282956010004436f6465"
    "01000141070008010001660c000a00060a0009000b00210002000400000000000100090005000600010007000000100000000000000004b6000c"
    "b1000000000000"
)
F = '{"name":"f","type":"()V","flags":1}'
OBJECT = '{"do":"define","loader":0,"sketch":{"name":"java/lang/Object","flags":33}}'
RECEIVERS = [
    OBJECT,
    '{"do":"define","loader":0,"sketch":{"name":"A","super":"java/lang/Object","flags":33,"methods":[%s]}}' % F,
    '{"do":"define","loader":0,"sketch":{"name":"B","super":"A","flags":33}}',
    '{"do":"define","loader":0,"hex":"%s"}' % M,
    '{"do":"request","class":3,"method":0,"pc":0}',
    '{"do":"prepare","sites":[0]}',
    '{"do":"install","prepared":0}',
    '{"do":"define","loader":0,"sketch":{"name":"C","super":"A","flags":33,"methods":[%s]}}' % F,
    '{"do":"call","site":0,"recv":4}',
    '{"do":"install","prepared":0}',
]
GUARDS = [
    OBJECT,
    '{"do":"define","loader":0,"sketch":{"name":"T","super":"java/lang/Object","flags":33,"methods":['
    '{"name":"m","type":"()V","flags":9},{"name":"n","type":"()V","flags":9},'
    '{"name":"r","type":"()V","flags":9,"calls":[{"kind":"invokedynamic","name":"d","type":"()V"}]}]}}',
    '{"do":"request","class":1,"method":2,"pc":0}',
    '{"do":"switch"}',
    '{"do":"callsite","kind":"mutable","type":"()V","target":'
    '{"guard":0,"target":{"method":[1,0]},"fallback":{"method":[1,0]}}}',
    '{"do":"bind","site":0,"callsite":0}',
    '{"do":"prepare","sites":[0]}',
    '{"do":"install","prepared":0}',
    '{"do":"invalidate","switches":[0]}',
    '{"do":"switch"}',
    '{"do":"target","callsite":0,"target":{"guard":1,"target":{"method":[1,0]},"fallback":{"method":[1,1]}}}',
    '{"do":"invalidate","switches":[1]}',
    '{"do":"call","site":0}',
    '{"do":"invalidate","switches":[1]}',
    '{"do":"links"}',
]

RETIREMENT = [
    OBJECT,
    '{"do":"define","loader":0,"sketch":{"name":"A","super":"java/lang/Object","flags":33,"methods":[%s]}}' % F,
    '{"do":"loader"}',
    '{"do":"delegate","loader":1,"name":"java/lang/Object","to":0}',
    '{"do":"delegate","loader":1,"name":"A","to":0}',
    '{"do":"define","loader":1,"sketch":{"name":"B","super":"A","flags":33}}',
    '{"do":"define","loader":1,"hex":"%s"}' % M,
    '{"do":"request","class":3,"method":0,"pc":0}',
    '{"do":"prepare","sites":[0]}',
    '{"do":"install","prepared":0}',
    '{"do":"retire","loader":1}',
    '{"do":"call","site":0,"recv":1}',
    '{"do":"install","prepared":0}',
    '{"do":"retire","loader":1}',
]

SCANS = [M, "00", "zz", M[:-2], M]
SKETCHES = ['{"name":"java/lang/Object","flags":33}', "{}", '{"name":"B","super":"A","flags":33,"methods":[%s]}' % F,
            '{"name":"T","super":"A","flags":33,"methods":[{"name":"r","type":"()V","flags":9,"calls":'
            '[{"kind":"invokedynamic","name":"d","type":"()V"}]}]}', '{"name":"B","super":"A","flags":33}']

# What a farm obeys: a site on A.f with three receivers below it, and one bound to a call site, whose switch points become invalid.
FARM = RECEIVERS[:5] + [RECEIVERS[7], GUARDS[1]] + [
    '{"do":"request","class":5,"method":2,"pc":0}',
    '{"do":"switch"}',
    '{"do":"callsite","kind":"mutable","type":"()V","target":'
    '{"guard":0,"target":{"method":[5,0]},"fallback":{"method":[5,0]}}}',
    '{"do":"bind","site":1,"callsite":0}',
    '{"do":"invalidate","switches":[0]}',
    '{"do":"switch"}',
    '{"do":"target","callsite":0,"target":{"guard":1,"target":{"method":[5,0]},"fallback":{"method":[5,1]}}}',
    '{"do":"invalidate","switches":[1]}',
]

# What linkd is run on, by its words.
MODES = [("run", "run, receivers", RECEIVERS), ("run", "run, guards", GUARDS), ("run", "run, retirement", RETIREMENT),
         ("scan", "scan", SCANS), ("sketch", "sketch", SKETCHES), ("farm --workers 1", "farm of one worker", FARM),
         ("farm --workers 4", "farm of four workers", FARM)]
# The calls of which nothing is there before.
STATELESS = ("reading: ", "parts: ", "snapshot: ")

# The watched calls of the table: the name of each among the lines of one core or server, and which of that name it is.
TABLE = [("definition of M", "M", 0), ("definition of C", "C", 0), ("install of site 0", "install", 0),
         ("first invalidation", "invalidation", 0), ("second invalidation", "invalidation", 1)]
# The named calls: the table's, each by a core and by a server; the retirement and the release; and the reading of M's file.
OWNERS = ("core", "server")
ENDS = [("retirement", "retirement", 0), ("release", "release", 0)]
NAMED = [("reading", "M", 0)] + [(owner, call, which) for owner in OWNERS for _, call, which in [*TABLE, *ENDS]]

Run = collections.namedtuple("Run", "status lines error growths refused")


class Program:
    """A program with its words and its input, run with the shim in the folder."""

    def __init__(self, folder, *words):
        self.folder, self.words = folder, words

    def run(self, text="", how=None, n=0):
        """One run, of which HOW ("AT" or "FROM") the n-th growth is refused."""
        counts = f"{self.folder}/counts-{how}-{n}"
        env = {key: value for key, value in os.environ.items() if not key.startswith("GROWTHS_")}
        env |= {"LD_PRELOAD": f"{self.folder}/growths.so", "GROWTHS_INTO": counts}
        if how:
            env[f"GROWTHS_{how}"] = str(n)
        try:
            ran = subprocess.run(self.words, input=text.encode(), capture_output=True, env=env, timeout=SECONDS)
        except subprocess.TimeoutExpired:
            return Run("none: it hangs", [], "", n, 1)
        with open(counts, "rb") as file:
            growths, refused = (int.from_bytes(file.read(8), sys.byteorder) for _ in range(2))
        os.remove(counts)
        lines = ran.stdout.decode(errors="replace").splitlines(keepends=True)
        return Run(ran.returncode, lines, ran.stderr.decode(errors="replace"), growths, refused)

    def sweep(self, how, text=""):
        """The runs of n = 1, 2, .. up to the first that meets no refusal, each with its n."""
        jobs = int(os.environ.get("JOBS", "2"))
        with concurrent.futures.ThreadPoolExecutor(jobs) as pool:
            first = 1
            while True:
                numbers = range(first, first + 64)
                for n, run in zip(numbers, pool.map(lambda n: self.run(text, how, n), numbers)):
                    if not run.refused:
                        return
                    yield n, run
                first += 64


def is_first_of(lines, whole):
    return lines == whole[: len(lines)] and all(line.endswith("\n") for line in lines)


def called(line):
    """Whose call a line of `bench growths` tells, and which."""
    return ": ".join(line.split(": ")[:2])


def is_of_memory(line):
    return line.endswith((": Memory\n", ": as before\n"))


def are_of_one(memory):
    """Whether the lines say of one call that it was answered Memory and, but for a reading, that all is as before."""
    call = called(memory[0])
    want = [f"{call}: Memory\n"] + ([] if call.startswith(STATELESS) else [f"{call}: as before\n"])
    return memory == want


def watched_kind(run, whole, how):
    """What the run of `bench growths` is, and the number of the line of WHOLE that answers the call that was first answered Memory, if
    it isn't a look at the state. The kind is MEMORY, SAME or LACKS, or None where it is a fault."""
    memory = [line for line in run.lines if is_of_memory(line)]
    rest = [line for line in run.lines if not is_of_memory(line)]
    place = next((place for place, line in enumerate(run.lines) if is_of_memory(line)), len(whole))
    is_look = bool(memory) and ": a look at " in memory[0]
    is_named = place < len(whole) and bool(memory) and called(memory[0]) == called(whole[place])
    where = place if is_named else None
    if run.error or (memory and not (is_look or is_named)):
        return None, None
    if run.status == 4 and is_first_of(rest, whole) and (not memory or how == "FROM"):
        return LACKS, where
    if run.status != 0 or rest != whole:
        return None, None
    if not memory:
        return SAME, None
    is_told = are_of_one(memory) and run.lines[place : place + len(memory)] == memory
    return (MEMORY, where) if is_told else (None, None)


class Lines:
    """The lines of a script, and what linkd answers without some of them."""

    def __init__(self, program, lines):
        self.program, self.lines, self.known = program, lines, {}
        self.is_farm = "farm" in program.words
        self.growths = [program.run("".join(line + "\n" for line in lines[:count])).growths for count in range(len(lines) + 1)]

    def text(self, left_out=()):
        return "".join(line + "\n" for place, line in enumerate(self.lines) if place not in left_out)

    def answers(self, left_out=()):
        key = tuple(left_out)
        if key not in self.known:
            run = self.program.run(self.text(left_out))
            if run.status != 0 or len(run.lines) != len(self.lines) - len(left_out) + self.is_farm:
                sys.exit(f"linkd ends with {run.status} without refusals")
            self.known[key] = run.lines
        return self.known[key]

    def lacking(self, n):
        """How many lines are answered without the n-th growth."""
        return max(0, bisect.bisect_left(self.growths, n) - 1)

    def kind(self, run, how, n):
        """What the run of linkd is whose n-th growth was refused, as watched_kind."""
        memory = [place for place, line in enumerate(run.lines) if line == MEMORY]
        rest = [line for line in run.lines if line != MEMORY]
        first = min([len(run.lines)] + memory)
        if self.is_farm:
            return self.farm_kind(run, how, memory, rest)
        if first != self.lacking(n) if how == "AT" and (run.status == 4 or memory) else first < self.lacking(n):
            return None
        if run.status == 4:
            is_told = run.error == "linkd: out of memory\n" and (not memory or how == "FROM")
            return LACKS if is_told and is_first_of(rest, self.answers(memory)) else None
        if run.status != 0 or run.error or len(run.lines) != len(self.lines) or len(memory) > 1:
            return None
        if rest != self.answers(memory):
            return None
        return MEMORY if memory else SAME


    def farm_kind(self, run, how, memory, rest):
        """The same of linkd farm. Which line wanted the memory isn't told by its growths, since the farm's come after them."""
        whole = self.answers(memory)
        if run.status in (1, 4) and (not memory or how == "FROM"):
            is_told = run.error == ("linkd: out of memory\n" if run.status == 4 else "linkd: farm failed\n")
            is_behind_all = run.status == 4 or len(rest) == len(whole) - 1
            return LACKS if is_told and is_behind_all and is_first_of(rest, whole[:-1]) else None
        if run.status != 0 or run.error or len(rest) != len(whole) or rest[:-1] != whole[:-1]:
            return None
        if how == "AT" and len(memory) > 1:
            return None
        if rest[-1] == whole[-1]:
            return MEMORY if memory else SAME
        return MEMORY if is_without_jobs(json.loads(rest[-1]), json.loads(whole[-1])) else None


def is_without_jobs(told, whole):
    """Whether the farm's last line is this one, but that some jobs lacked memory. Job n is of site n here."""
    lacking = [job for job, report in enumerate(told["reports"]) if report == "Memory"]
    reports = ["Memory" if job in lacking else report for job, report in enumerate(whole["reports"])]
    return told == {"links": [row for row in whole["links"] if row[0] not in lacking], "reports": reports}


class Tally:
    """How the runs of one sweep ended."""

    def __init__(self, name, growths):
        self.name, self.growths, self.faults = name, growths, 0
        self.kinds = collections.Counter()

    def add(self, n, run, kind):
        self.kinds[kind] += 1
        if kind is None:
            self.faults += 1
            if self.faults <= 5:
                print(f"FAULT: {self.name}, growth {n}: status {run.status}, standard error {run.error[:500]!r}, lines:")
                print("".join(run.lines[-8:]))

    def tell(self):
        ways = "".join(f"{self.kinds[kind]:10}" for kind in (MEMORY, LACKS, SAME))
        print(f"{self.name:38}{self.growths:8}{sum(self.kinds.values()):8}{ways}{self.faults:8}")


def cell(place, alone, together):
    """The growths of a call: those that were refused with all after them, and how many of them didn't matter alone."""
    retried = together[place] - alone[place]
    return f"{together[place]}" + (f" ({retried} asked again)" if retried else "")


def tell_calls(whole, alone, together):
    """Prints the growths of the watched calls, by core and server."""
    reading = next(place for place, line in enumerate(whole) if called(line) == "reading: M")
    print("growths of the reading of M:", cell(reading, alone, together))
    owners = list(dict.fromkeys(line.split(": ")[0] for line in whole if not line.startswith(STATELESS)))
    print(f"\n{'growths':22}" + "".join(f"{owner:>26}" for owner in owners))
    for name, call, which in TABLE:
        places = [[place for place, line in enumerate(whole) if called(line) == f"{owner}: {call}"][which] for owner in owners]
        print(f"{name:22}" + "".join(f"{cell(place, alone, together):>26}" for place in places))
    print()
    if os.environ.get("LINES"):
        for place, line in enumerate(whole):
            print(f"{cell(place, alone, together):>22}  {line}", end="")


def sweep_watched(program, name, tells_calls):
    """Sweeps `bench growths` or linker.c, and maybe prints the growths of its calls."""
    whole = program.run()
    if whole.status != 0 or whole.refused or any(map(is_of_memory, whole.lines)):
        sys.exit(f"{name} ends with {whole.status} without refusals")
    calls = {"AT": collections.Counter(), "FROM": collections.Counter()}
    for how, counts in calls.items():
        tally = Tally(f"{name}, {how.lower()} the n-th", whole.growths)
        for n, run in program.sweep(how):
            kind, place = watched_kind(run, whole.lines, how)
            tally.add(n, run, kind)
            counts[place] += 1
        yield tally
    if tells_calls:
        tell_calls(whole.lines, *calls.values())


class Places:
    """Where a run of `bench growths` leaves the lines of a whole one where all growths are refused from one on."""

    def __init__(self, program, whole):
        self.program, self.whole, self.known = program, whole, {}

    def place(self, n):
        """The number of the first line that isn't as in the whole run."""
        if n not in self.known:
            lines = self.program.run("", "FROM", n).lines
            pairs = enumerate(zip(lines, self.whole))
            self.known[n] = next((at for at, (line, wanted) in pairs if line != wanted), min(len(lines), len(self.whole)))
        return self.known[n]

    def first(self, place, growths):
        """The first growth from which on this line is missing or another one, or one before it is."""
        return bisect.bisect_left(range(1, growths + 1), place, key=self.place) + 1


def sweep_named(program):
    """Sweeps the named calls of `bench growths`: how each call's runs ended."""
    whole = program.run()
    if whole.status != 0 or whole.refused or any(map(is_of_memory, whole.lines)):
        sys.exit(f"growths ends with {whole.status} without refusals")
    places = Places(program, whole.lines)
    jobs = int(os.environ.get("JOBS", "2"))
    with concurrent.futures.ThreadPoolExecutor(jobs) as pool:
        for owner, call, which in NAMED:
            place = [at for at, line in enumerate(whole.lines) if called(line) == f"{owner}: {call}"][which]
            numbers = range(places.first(place, whole.growths), places.first(place + 1, whole.growths))
            tally, lacking = Tally(f"{owner}: {call}" + (", again" if which else ""), len(numbers)), 0
            for n, run in zip(numbers, pool.map(lambda n: program.run("", "AT", n), numbers)):
                kind, where = watched_kind(run, whole.lines, "AT")
                tally.add(n, run, kind if run.refused else None)
                lacking += kind == MEMORY and where == place
            if not lacking:
                tally.faults += 1
                print(f"FAULT: {tally.name}: of {len(numbers)} growths that were refused the call is answered Memory for none")
            yield tally


def check_named(folder, bench, is_quiet):
    """Sweeps the named calls, tells how many runs there were, and gives the exit status."""
    tallies = list(sweep_named(Program(folder, os.path.abspath(bench), "growths")))
    runs = sum(sum(tally.kinds.values()) for tally in tallies)
    if not is_quiet:
        tell_tallies(tallies)
    print(f"growths: {runs} runs of {len(tallies)} named calls, each with one growth refused")
    return 1 if not runs or any(tally.faults for tally in tallies) else 0


def tell_tallies(tallies):
    print(f"{'refused':38}{'growths':>8}{'runs':>8}{'Memory':>10}{LACKS:>10}{SAME:>10}{'faults':>8}")
    for tally in tallies:
        tally.tell()


def sweep_script(program, name, lines):
    """Sweeps linkd over the lines."""
    script = Lines(program, lines)
    script.answers()
    for how in "AT", "FROM":
        tally = Tally(f"linkd {name}, {how.lower()} the n-th", program.run(script.text()).growths)
        for n, run in program.sweep(how, script.text()):
            tally.add(n, run, script.kind(run, how, n))
        yield tally


def main():
    folder, bench, *others = sys.argv[1:]
    if others[:1] == ["--named"]:
        sys.exit(check_named(folder, bench, others[1:] == ["--quiet"]))
    tallies = list(sweep_watched(Program(folder, os.path.abspath(bench), "growths"), "growths", True))
    for path in others[:1]:
        for words, name, lines in MODES:
            tallies += sweep_script(Program(folder, os.path.abspath(path), *words.split()), name, lines)
    for path in others[1:]:
        tallies += sweep_watched(Program(folder, os.path.abspath(path)), "linker", False)
    tell_tallies(tallies)
    sys.exit(1 if any(tally.faults for tally in tallies) else 0)


if __name__ == "__main__":
    main()
