"""A reader of class files, for bench/hostile.py.

It follows docs/FORMATS.md and JVMS SE 17 chapter 4, pass after pass, and shares nothing with that of the crates: no text, no table, no
order of work but that of the faults.
"""


class Fault(Exception):
    """Why bytes are no class file: a name, and the numbers that go with it."""


def fault(name, number=0, method=0):
    raise Fault(name, number, method)


class Bytes:
    """Bytes that are taken from the front; `short` is the fault where they end too early."""

    def __init__(self, data, short, at=0):
        self.data, self.short, self.at = data, short, at

    def take(self, count):
        if len(self.data) - self.at < count:
            fault(self.short)
        self.at += count
        return self.data[self.at - count : self.at]

    def number(self, count):
        return int.from_bytes(self.take(count), "big")

    def u1(self):
        return self.number(1)

    def u2(self):
        return self.number(2)

    def u4(self):
        return self.number(4)


# ---- texts


def is_mutf8(text):
    at = 0
    while at < len(text):
        first = text[at]
        if 1 <= first <= 0x7F:
            at += 1
        elif 0xC0 <= first <= 0xDF:
            later = text[at + 1 : at + 2]
            if len(later) < 1 or later[0] >> 6 != 2:
                return False
            unit = (first & 31) << 6 | later[0] & 63
            if unit < 0x80 and unit != 0:
                return False
            at += 2
        elif 0xE0 <= first <= 0xEF:
            later = text[at + 1 : at + 3]
            if len(later) < 2 or any(byte >> 6 != 2 for byte in later):
                return False
            if ((first & 15) << 12 | (later[0] & 63) << 6 | later[1] & 63) < 0x800:
                return False
            at += 3
        else:
            return False
    return True


def is_class_name(text):
    return all(part and not any(c in b".;[" for c in part) for part in text.split(b"/"))


def behind_field_type(text, at):
    """Where the field descriptor that begins at `at` ends, and the slots that it takes; None where there is none."""
    start = at
    while text[at : at + 1] == b"[":
        at += 1
    depth = at - start
    if depth > 255:
        return None
    letter = text[at : at + 1]
    if letter and letter in b"BCDFIJSZ":
        return at + 1, 2 if depth == 0 and letter in b"DJ" else 1
    if letter == b"L":
        end = text.find(b";", at)
        if end >= 0 and is_class_name(text[at + 1 : end]):
            return end + 1, 1
    return None


def is_field_type(text):
    found = behind_field_type(text, 0)
    return found is not None and found[0] == len(text)


def slots_of(text):
    """The slots of a method descriptor's parameters; None where it is none."""
    if text[:1] != b"(":
        return None
    at, slots = 1, 0
    while text[at : at + 1] != b")":
        found = behind_field_type(text, at)
        if found is None:
            return None
        at, more = found
        slots += more
    result = text[at + 1 :]
    return slots if slots <= 255 and (result == b"V" or is_field_type(result)) else None


# ---- the pool, whose entries are (tag, value)

NAMED = {7: 1, 8: 1, 16: 1, 19: 1, 20: 1}
REFERENCES = {9: (7, 12), 10: (7, 12), 11: (7, 12), 12: (1, 1)}
HANDLES = {1: {9}, 2: {9}, 3: {9}, 4: {9}, 5: {10}, 6: {10, 11}, 7: {10, 11}, 8: {10}, 9: {11}}


def read_pool(reader):
    count = reader.u2()
    if count == 0:
        fault("Pool.BadTag", 0)
    pool = {}
    number = 1
    while number < count:
        tag = reader.u1()
        step = 1
        if tag == 1:
            value = reader.take(reader.u2())
        elif tag in (3, 4):
            value = reader.u4()
        elif tag in (5, 6):
            if number + 1 >= count:
                fault("Pool.BadTag", number)
            value = reader.number(8)
            step = 2
        elif tag in NAMED:
            value = (reader.u2(),)
        elif tag in REFERENCES or tag in (17, 18):
            value = (reader.u2(), reader.u2())
        elif tag == 15:
            value = (reader.u1(), reader.u2())
        else:
            fault("Pool.BadTag", number)
        pool[number] = (tag, value)
        number += step
    check_pool(pool)
    return pool


def tag_of(pool, number):
    return pool[number][0] if number in pool else None


def names_well(pool, tag, value):
    if tag in NAMED:
        return tag_of(pool, value[0]) == NAMED[tag]
    if tag in REFERENCES:
        return tuple(tag_of(pool, n) for n in value) == REFERENCES[tag]
    if tag in (17, 18):
        return tag_of(pool, value[1]) == 12
    if tag == 15:
        return tag_of(pool, value[1]) in HANDLES.get(value[0], ())
    return True


def text_of(pool, number):
    return pool[number][1]


def signature_of(pool, number):
    name, descriptor = pool[number][1]
    return text_of(pool, name), text_of(pool, descriptor)


def is_typed_well(pool, tag, value):
    if tag == 7:
        text = text_of(pool, value[0])
        return is_class_name(text) or text[:1] == b"[" and is_field_type(text)
    if tag == 16:
        return slots_of(text_of(pool, value[0])) is not None
    if tag == 12:
        text = text_of(pool, value[1])
        return is_field_type(text) or slots_of(text) is not None
    if tag in (9, 17):
        return is_field_type(signature_of(pool, value[1])[1])
    if tag in (10, 11, 18):
        return slots_of(signature_of(pool, value[1])[1]) is not None
    return True


def check_pool(pool):
    for number, (tag, value) in pool.items():
        if tag == 1 and not is_mutf8(value):
            fault("Pool.BadUtf8", number)
    for number, (tag, value) in pool.items():
        if not names_well(pool, tag, value):
            fault("Pool.BadIndex", number)
    for number, (tag, value) in pool.items():
        if not is_typed_well(pool, tag, value):
            fault("Pool.BadDescriptor", number)


def class_name(pool, number):
    """The class name at a number; None where there is none."""
    if tag_of(pool, number) != 7:
        return None
    text = text_of(pool, pool[number][1][0])
    return text if is_class_name(text) else None


# ---- the rest


def read_attributes(reader):
    return [(reader.u2(), reader.take(reader.u4())) for _ in range(reader.u2())]


def read_member(reader):
    flags, name, descriptor = reader.u2(), reader.u2(), reader.u2()
    return flags, name, descriptor, read_attributes(reader)


def check_links(major, pool, flags, this_class, super_class, interfaces):
    if flags & 0x8000 and major >= 53:
        fault("ModuleFile")
    for number in [this_class] + ([super_class] if super_class else []) + interfaces:
        if class_name(pool, number) is None:
            fault("BadLink", number)
    is_object = class_name(pool, this_class) == b"java/lang/Object"
    if is_object != (super_class == 0):
        fault("BadSuper")
    if flags & 0x0200 and (super_class == 0 or class_name(pool, super_class) != b"java/lang/Object"):
        fault("BadSuper")


def check_names(pool, attributes):
    for name, _ in attributes:
        if tag_of(pool, name) != 1:
            fault("BadLink", name)


def check_member_texts(pool, member):
    for number in member[1:3]:
        if tag_of(pool, number) != 1:
            fault("BadLink", number)


def is_unqualified(name):
    return name and not any(c in b".;[/" for c in name)


def check_field(pool, k, member):
    check_member_texts(pool, member)
    if not is_unqualified(text_of(pool, member[1])) or not is_field_type(text_of(pool, member[2])):
        fault("BadMember", k)
    check_names(pool, member[3])


def is_good_method(pool, is_interface, member):
    flags, name = member[0], text_of(pool, member[1])
    slots = slots_of(text_of(pool, member[2]))
    special = name in (b"<init>", b"<clinit>")
    if not is_unqualified(name) or not special and (b"<" in name or b">" in name):
        return False
    if slots is None or slots + (0 if flags & 8 else 1) > 255:
        return False
    if name == b"<clinit>":
        return True
    if bin(flags & 7).count("1") > 1 or flags & 0x400 and flags & 0xA:
        return False
    return not is_interface or bool(flags & 3)


def check_method(pool, is_interface, fields, i, member, seen):
    check_member_texts(pool, member)
    if not is_good_method(pool, is_interface, member):
        fault("BadMember", fields + i)
    signature = text_of(pool, member[1]), text_of(pool, member[2])
    if signature in seen:
        fault("DuplicateMethod", 0, i)
    seen.add(signature)
    check_names(pool, member[3])
    if len(called(pool, b"Code", member[3])) > 1:
        fault("TwoCodes", 0, i)


def called(pool, name, attributes):
    return [info for number, info in attributes if text_of(pool, number) == name]


def read_nest(major, pool, attributes):
    """The nest host's name or None, and the members' names."""
    check_names(pool, attributes)
    if major < 55:
        return None, []
    hosts, lists = called(pool, b"NestHost", attributes), called(pool, b"NestMembers", attributes)
    if len(hosts) + len(lists) > 1:
        fault("BadNest")
    for info in hosts + lists:
        reader = Bytes(info, "BadNest")
        names = [class_name(pool, reader.u2()) for _ in range(1 if hosts else reader.u2())]
        if reader.at != len(info) or None in names:
            fault("BadNest")
        return (names[0], []) if hosts else (None, names)
    return None, []


# ---- codes


def code_of(info):
    reader = Bytes(info, "Code.BadLayout")
    reader.take(4)
    length = reader.u4()
    if not 1 <= length <= 65535:
        fault("Code.BadLayout")
    code = reader.take(length)
    reader.take(8 * reader.u2())
    read_attributes(reader)
    if reader.at != len(info):
        fault("Code.BadLayout")
    return code


# How many bytes the instructions from one opcode to another have, in all.
LENGTHS = {}
for low, high, size in [
    (0, 15, 1), (16, 16, 2), (17, 17, 3), (18, 18, 2), (19, 20, 3), (21, 25, 2), (26, 53, 1), (54, 58, 2), (59, 131, 1),
    (132, 132, 3), (133, 152, 1), (153, 168, 3), (169, 169, 2), (172, 177, 1), (178, 184, 3), (185, 186, 5), (187, 187, 3),
    (188, 188, 2), (189, 189, 3), (190, 191, 1), (192, 193, 3), (194, 195, 1), (197, 197, 4), (198, 199, 3), (200, 201, 5),
]:
    for opcode in range(low, high + 1):
        LENGTHS[opcode] = size


def size_of(code, pc):
    """The bytes of the instruction at a pc, as far as its own numbers tell; a fault where they can't be."""
    opcode = code[pc]
    if opcode in LENGTHS:
        return LENGTHS[opcode]
    if opcode == 196:
        if pc + 1 == len(code):
            fault("Code.CutShort", pc)
        widened = code[pc + 1]
        if 21 <= widened <= 25 or 54 <= widened <= 58 or widened == 169:
            return 4
        if widened == 132:
            return 6
        fault("Code.BadOpcode", pc)
    if opcode not in (170, 171):
        fault("Code.BadOpcode", pc)
    start = (pc // 4 + 1) * 4
    words = [int.from_bytes(code[at : at + 4], "big", signed=True) for at in range(start, start + 12, 4)]
    if start + (12 if opcode == 170 else 8) > len(code):
        fault("Code.CutShort", pc)
    if opcode == 170:
        if words[1] > words[2]:
            fault("Code.BadSwitch", pc)
        return start - pc + 12 + 4 * (words[2] - words[1] + 1)
    if words[1] < 0:
        fault("Code.BadSwitch", pc)
    return start - pc + 8 + 8 * words[1]


KINDS = {182: {10}, 183: {10, 11}, 184: {10, 11}, 185: {11}, 186: {18}}


def site_at(pool, code, pc):
    """The invocation at a pc: its kind, 0 to 4, and what it names."""
    opcode = code[pc]
    number = code[pc + 1] << 8 | code[pc + 2]
    tag = tag_of(pool, number)
    if tag not in KINDS[opcode]:
        fault("Code.BadOperand", pc)
    first, second = pool[number][1]
    name, descriptor = signature_of(pool, second)
    slots = slots_of(descriptor)
    if name[:1] == b"<" and not (name == b"<init>" and opcode == 183):
        fault("Code.BadOperand", pc)
    if opcode in (182, 183, 185) and slots > 254:
        fault("Code.BadOperand", pc)
    if opcode == 185 and code[pc + 3 : pc + 5] != bytes([slots + 1, 0]):
        fault("Code.BadOperand", pc)
    if opcode == 186:
        if code[pc + 3 : pc + 5] != b"\0\0":
            fault("Code.BadOperand", pc)
        return opcode - 182, (first, name, descriptor)
    return opcode - 182, (tag == 11, text_of(pool, pool[first][1][0]), name, descriptor)


def scan(pool, code):
    sites = []
    pc = 0
    while pc < len(code):
        size = size_of(code, pc)
        if pc + size > len(code):
            fault("Code.CutShort", pc)
        if code[pc] in KINDS:
            sites.append((pc,) + site_at(pool, code, pc))
        pc += size
    return sites


def sites_of(pool, method, member):
    for info in called(pool, b"Code", member[3]):
        try:
            return scan(pool, code_of(info))
        except Fault as found:
            name, number, _ = found.args
            fault(name, number, method)
    return []


# ---- the file


class Shown:
    """What a class file shows, and its parts."""


def read_class(data):
    if len(data) > 1000000:
        fault("TooLarge")
    reader = Bytes(data, "Truncated")
    if reader.take(4) != b"\xca\xfe\xba\xbe":
        fault("BadMagic")
    minor, major = reader.u2(), reader.u2()
    if not 45 <= major <= 61 or major >= 56 and minor != 0:
        fault("BadVersion")
    reader.short = "Pool.Truncated"
    pool = read_pool(reader)
    reader.short = "Truncated"
    flags, this_class, super_class = reader.u2(), reader.u2(), reader.u2()
    interfaces = [reader.u2() for _ in range(reader.u2())]
    front = data[: reader.at]
    fields = [read_member(reader) for _ in range(reader.u2())]
    methods = [read_member(reader) for _ in range(reader.u2())]
    attributes = read_attributes(reader)
    if reader.at != len(data):
        fault("TrailingBytes")
    check_links(major, pool, flags, this_class, super_class, interfaces)
    for k, member in enumerate(fields):
        check_field(pool, k, member)
    seen = set()
    for i, member in enumerate(methods):
        check_method(pool, bool(flags & 0x200), len(fields), i, member, seen)
    shown = Shown()
    shown.major, shown.flags, shown.fields, shown.attributes, shown.members = major, flags, fields, attributes, methods
    shown.pool, shown.front = pool, front
    shown.host, shown.nested = read_nest(major, pool, attributes)
    shown.name, shown.superclass = class_name(pool, this_class), class_name(pool, super_class)
    shown.interfaces = [class_name(pool, number) for number in interfaces]
    shown.methods = [
        (member[0], text_of(pool, member[1]), text_of(pool, member[2]), sites_of(pool, i, member))
        for i, member in enumerate(methods)
    ]
    return shown
