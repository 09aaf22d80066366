#!/usr/bin/env python3
"""Compares what `linkd` makes of changed class files with what a reader and a writer of its own make of them.

    bench/hostile.py [--quiet] [--all] PROGRAM..     each PROGRAM is a built linkd

Five class files are changed: each byte to each of its 255 other values, and 100,000 pairs of bytes of each, which a generator draws.
Without --all a tenth of these 618,575 are taken: where the sum of a place and its byte is a multiple of 10, and each tenth pair.

Of each changed file, of the file with one byte more after it and with one byte less, `linkd scan` has to answer what the class shows, or
the fault with its numbers; `linkd run`, asked to define it where no class is defined, the same fault, or that the superclass is missing,
by its name. A file that is accepted is then said as a sketch: `linkd sketch` has to answer the bytes of its class file, or why it has
none, and `linkd scan` of these bytes shows the same but for the pcs. And the file without what isn't looked at (other attributes than
those that are read, exceptions and attributes of a code) shows the same, pcs, too.

The reader (hostile_reader.py) and the writer follow docs/FORMATS.md and JVMS SE 17 chapter 4, and share nothing with those of the crates.
Each answer that differs is printed, of many the first ones; with --quiet nothing is, where all is as it must be. It ends with status 0
only there. The reader and the writer take nine seconds, with --all ten times that; the programs' time comes on top.
"""
import argparse
import json
import subprocess
import sys
from collections import Counter

from hostile_reader import Bytes, Fault, read_class, read_pool, slots_of, text_of

OBJECT = "cafebabe0000003d0003010010" "6a6176612f6c616e672f4f626a656374" "0700010021000200000000000000000000"
A_FRONT = (
    "cafebabe0000003d0008" "01000141" "070001" "0100106a6176612f6c616e672f4f626a656374" "070003" "01000166"
    "010003282956" "010004436f6465" "0021000200040000" "0000" "0001" "0001000500060001"
)
A = A_FRONT + "00070000000d" "0000000000000001b100000000" "0000"
M = (
    "cafebabe0000003d000d0100014d0700010100106a6176612f6c616e672f4f626a65637407000301000372756e010003282956010004"
    "436f646501000141070008010001660c000a00060a0009000b00210002000400000000000100090005000600010007000000100000"
    "000000000004b6000cb1000000000000"
)
IN = (
    "cafebabe0000003d0008" "010002496e" "070001" "0100106a6176612f6c616e672f4f626a656374" "070003"
    "0100084e657374486f7374" "0100034f7574" "070006" "0021000200040000" "0000" "0000" "0001" "000500000002" "0007"
)
SWITCH = (
    A_FRONT + "000700000021" "0000000000000015" "00aa000000000013000000000000000000000013b1" "00000000" "0000"
)
FILES = [("Object", OBJECT, 46, 32), ("A", A, 97, 56), ("M", M, 123, 79), ("In", IN, 82, 60), ("Switch", SWITCH, 117, 56)]


# How many lines a process is given, how many seconds it has, and how many answers that differ are printed.
LINES, SECONDS, SHOWN = 10_000, 120, 20

# ---- what the program says of it

KINDS_BY_NUMBER = ["invokevirtual", "invokespecial", "invokestatic", "invokeinterface", "invokedynamic"]


def text(name):
    """A name as text: surrogates as what they are in pairs, and else as U+FFFD."""
    units = name.replace(b"\xc0\x80", b"\0").decode("utf-8", "surrogatepass")
    return units.encode("utf-16", "surrogatepass").decode("utf-16", "replace")


def told(value):
    """Compact JSON with keys in the order of their bytes."""
    return json.dumps(value, ensure_ascii=False, separators=(",", ":"), sort_keys=True)


def site_object(site):
    pc, kind, operand = site
    parts = {"kind": KINDS_BY_NUMBER[kind], "name": text(operand[-2]), "pc": pc, "type": text(operand[-1])}
    return parts | ({"bootstrap": operand[0]} if kind == 4 else {"of": text(operand[1])})


def class_object(shown):
    methods = [
        {"flags": flags, "name": text(name), "sites": [site_object(site) for site in sites], "type": text(descriptor)}
        for flags, name, descriptor, sites in shown.methods
    ]
    return {"class": text(shown.name), "methods": methods}


def refusal(found):
    """A fault as the program says it."""
    name, number, method = found.args
    parts = {"refused": name}
    if name.startswith("Code.") or name in ("DuplicateMethod", "TwoCodes"):
        parts["method"] = method
    if name in ("BadMember", "BadLink") or name.startswith(("Code.", "Pool.")) and name not in ("Code.BadLayout", "Pool.Truncated"):
        parts["at"] = number
    return parts


def read(data):
    """What a class file shows, or none; and the answer of a scan."""
    try:
        shown = read_class(data)
    except Fault as found:
        return None, told(refusal(found))
    return shown, told(class_object(shown))


# ---- sketches


class Pool:
    """Constants, each once, after those that it names."""

    def __init__(self):
        self.numbers, self.bytes = {}, b""

    def number(self, constant):
        if constant not in self.numbers:
            self.numbers[constant] = len(self.numbers) + 1
            self.bytes += constant
        return self.numbers[constant].to_bytes(2, "big")

    def utf8(self, name):
        return self.number(b"\1" + len(name).to_bytes(2, "big") + name)

    def named(self, name):
        return self.number(b"\7" + self.utf8(name))

    def signature(self, name, descriptor):
        name = self.utf8(name)
        return self.number(b"\x0c" + name + self.utf8(descriptor))

    def operand(self, kind, operand):
        """What an invocation of this kind names, of the first bootstrap method."""
        if kind == 4:
            return self.number(b"\x12\0\0" + self.signature(*operand[1:]))
        owner = self.named(operand[1])
        return self.number((b"\x0b" if operand[0] else b"\x0a") + owner + self.signature(*operand[2:]))


def counted(items, size=2):
    return len(items).to_bytes(size, "big") + b"".join(items)


def lengthy(data):
    return len(data).to_bytes(4, "big") + data


def written_call(pool, site):
    _, kind, operand = site
    after = {3: bytes([slots_of(operand[-1]) + 1, 0]), 4: b"\0\0"} if kind > 2 else {}
    return bytes([182 + kind]) + pool.operand(kind, operand) + after.get(kind, b"")


def written_method(pool, method):
    flags, name, descriptor, sites = method
    front = flags.to_bytes(2, "big") + pool.utf8(name) + pool.utf8(descriptor)
    if flags & 0x500:
        return front + b"\0\0"
    code_name = pool.utf8(b"Code")
    code = b"".join(written_call(pool, site) for site in sites) + b"\xb1"
    return front + b"\0\1" + code_name + lengthy(bytes(4) + lengthy(code) + bytes(4))


def written(shown):
    """The class file of the sketch of what a class file shows."""
    pool = Pool()
    own, above = pool.named(shown.name), pool.named(shown.superclass) if shown.superclass is not None else b"\0\0"
    head = shown.flags.to_bytes(2, "big") + own + above + counted([pool.named(name) for name in shown.interfaces])
    methods = counted([written_method(pool, method) for method in shown.methods])
    attributes = []
    if shown.host is not None:
        attributes.append(pool.utf8(b"NestHost") + lengthy(pool.named(shown.host)))
    if shown.nested:
        attributes.append(pool.utf8(b"NestMembers") + lengthy(counted([pool.named(name) for name in shown.nested])))
    count = (len(pool.numbers) + 1).to_bytes(2, "big")
    return b"\xca\xfe\xba\xbe\0\0\0\x3d" + count + pool.bytes + head + b"\0\0" + methods + counted(attributes)


def call_object(site):
    _, kind, operand = site
    parts = {"kind": KINDS_BY_NUMBER[kind], "name": text(operand[-2]), "type": text(operand[-1])}
    if kind in (1, 2) and operand[0]:
        parts["itf"] = True
    return parts | ({"of": text(operand[1])} if kind != 4 else {})


def sketch(shown):
    """What a class file shows, as a sketch."""
    parts = {"name": text(shown.name), "flags": shown.flags, "interfaces": [text(name) for name in shown.interfaces]}
    parts["methods"] = [
        {"flags": flags, "name": text(name), "type": text(descriptor), "calls": [call_object(site) for site in sites]}
        for flags, name, descriptor, sites in shown.methods
    ]
    named = {"super": shown.superclass, "host": shown.host}
    return parts | {"members": [text(name) for name in shown.nested]} | {key: text(name) for key, name in named.items() if name is not None}


# ---- what isn't looked at


def cut_code(info):
    """A Code attribute without its exceptions and its attributes."""
    return info[: 8 + int.from_bytes(info[4:8], "big")] + bytes(4)


def kept(pool, attributes, names):
    """Of attributes those that have one of these names, counted."""
    left = [(number, info) for number, info in attributes if text_of(pool, number) in names]
    return counted([number.to_bytes(2, "big") + lengthy(cut_code(info) if names == (b"Code",) else info) for number, info in left])


def cut(shown):
    """The class file without what isn't looked at."""
    numbers = lambda member: b"".join(number.to_bytes(2, "big") for number in member[:3])
    fields = counted([numbers(member) + b"\0\0" for member in shown.fields])
    methods = counted([numbers(member) + kept(shown.pool, member[3], (b"Code",)) for member in shown.members])
    read = (b"NestHost", b"NestMembers") if shown.major >= 55 else ()
    return shown.front + fields + methods + kept(shown.pool, shown.attributes, read)


def singles(data, share):
    """Each byte changed to each other value, as far as the share goes: one in so many sums of a place and a value."""
    for place in range(len(data)):
        for value in range(256):
            if value != data[place] and (place + value) % share == 0:
                yield data[:place] + bytes([value]) + data[place + 1 :]


SEED, PAIRS, MASK = 0x9E3779B97F4A7C15, 100_000, (1 << 64) - 1


def pairs(data, share):
    """Pairs of changed bytes, by a xorshift generator (Marsaglia 2003, 13, 7, 17), of which one in so many counts."""
    state = SEED
    for number in range(PAIRS):
        state ^= state << 13 & MASK
        state ^= state >> 7
        state ^= state << 17 & MASK
        if number % share:
            continue
        first = (state & 0xFFFF) % len(data)
        second = (first + 1 + (state >> 16 & 0xFFFF) % (len(data) - 1)) % len(data)
        changed = bytearray(data)
        changed[first] ^= 1 + (state >> 32 & 0xFFFF) % 255
        changed[second] ^= 1 + (state >> 48) % 255
        yield bytes(changed)


# ---- the program


def is_same(shown, again):
    """Whether two class files show the same, but for pcs and bootstrap methods, which a sketch doesn't say."""
    head = lambda it: (it.name, it.flags, it.superclass, it.interfaces, it.host, it.nested)
    operand = lambda kind, it: it[1:] if kind == 4 else it
    methods = lambda it: [(*method[:3], [(kind, operand(kind, named)) for _, kind, named in method[3]]) for method in it.methods]
    return head(shown) == head(again) and methods(shown) == methods(again)


def sketch_answer(shown):
    """What the sketch of a class file is answered, and its bytes if it has any."""
    for place, (flags, _, _, sites) in enumerate(shown.methods):
        if flags & 0x500 and sites:
            return told({"method": place, "refused": "CallsWithoutCode"}), None
    data = written(shown)
    again, answer = read(data)
    if again is None:
        return answer, None
    assert is_same(shown, again), data.hex()
    return data.hex(), data


def defined(data, shown, answer):
    """The command that defines a file where no class is, and its answer; none for java/lang/Object, which needs no other class."""
    command = told({"do": "define", "loader": 0, "hex": data.hex()})
    if shown is None:
        return [("run", command, answer)]
    if shown.superclass is None:
        return []
    if shown.name in (shown.superclass, *shown.interfaces):
        return [("run", command, told({"refused": "Define.NamesItself"}))]
    return [("run", command, told({"name": text(shown.superclass), "refused": "Define.MissingParent"}))]


def asked(data):
    """Lines about a changed file, each with its subcommand and its answer, and how the file is read."""
    shown, answer = read(data)
    lines = [("scan", other.hex(), read(other)[1]) for other in (data + b"\0", data[:-1])]
    lines += [("scan", data.hex(), answer), *defined(data, shown, answer)]
    if shown is None:
        return lines, json.loads(answer)["refused"]
    sketched, again = sketch_answer(shown)
    lines.append(("sketch", told(sketch(shown)), sketched))
    if again is not None:
        lines.append(("scan", again.hex(), read(again)[1]))
    shorter = cut(shown)
    assert read(shorter)[1] == answer, data.hex()
    if shorter != data:
        lines.append(("scan", shorter.hex(), answer))
    return lines, "Ok"


class Tally:
    """Lines to be given to the programs, each with its answer, by subcommands; and what came of those that were given."""

    def __init__(self, programs):
        self.programs, self.lines, self.names = programs, {"scan": [], "sketch": [], "run": []}, Counter()
        self.given, self.wrong = 0, 0

    def take(self, data):
        lines, name = asked(data)
        self.names[name] += 1
        for mode, line, answer in lines:
            self.lines[mode].append((line, answer))
            if len(self.lines[mode]) == LINES:
                self.give(mode)

    def give(self, mode):
        """Gives the lines of this subcommand to each program, and compares."""
        lines, self.lines[mode] = self.lines[mode], []
        given = "".join(line + "\n" for line, _ in lines).encode()
        for program in self.programs if lines else ():
            ran = subprocess.run([program, mode], input=given, capture_output=True, timeout=SECONDS)
            *answers, after = ran.stdout.decode().split("\n")
            if (ran.returncode, ran.stderr, after, len(answers)) != (0, b"", "", len(lines)):
                self.tell(f"{program} {mode}: status {ran.returncode}, {len(answers)} answers to {len(lines)} lines, {ran.stderr}")
            for (line, answer), came in zip(lines, answers):
                if came != answer:
                    self.tell(f"{program} {mode}: {line}\n  must come: {answer}\n  came:      {came}")
            self.given += len(lines)

    def tell(self, told):
        self.wrong += 1
        if self.wrong <= SHOWN:
            print(told)


def pool_end(data):
    reader = Bytes(data, "", 8)
    read_pool(reader)
    return reader.at


def main():
    said = argparse.ArgumentParser(usage=__doc__)
    said.add_argument("--quiet", action="store_true")
    said.add_argument("--all", action="store_true")
    said.add_argument("programs", nargs="+")
    words = said.parse_args()
    share = 1 if words.all else 10
    tally = Tally(words.programs)
    for name, digits, length, end in FILES:
        data = bytes.fromhex(digits)
        assert (len(data), pool_end(data)) == (length, end), name
        for changes in (singles, pairs):
            for file in changes(data, share):
                tally.take(file)
    for mode in tally.lines:
        tally.give(mode)
    if tally.wrong or not words.quiet:
        read_so = ", ".join(f"{name} {count}" for name, count in sorted(tally.names.items()))
        print(f"{sum(tally.names.values())} changed files ({read_so}): {tally.given} lines, {tally.wrong} differ")
    return 1 if tally.wrong else 0


if __name__ == "__main__":
    sys.exit(main())
