"""Class files for scripts, made by hand (JVMS SE 17 §4): each method of a class has a code of invocations and a return."""
import struct

VIRTUAL, SPECIAL, STATIC, INTERFACE = 0xB6, 0xB7, 0xB8, 0xB9


def mutf8(text):
    """The modified UTF-8 of a text (§4.4.7); bytes stay as they are."""
    if isinstance(text, bytes):
        return text
    out = b""
    for (unit,) in struct.iter_unpack(">H", text.encode("utf-16-be", "surrogatepass")):
        if 1 <= unit <= 0x7F:
            out += bytes([unit])
        elif unit <= 0x7FF:
            out += bytes([0xC0 | unit >> 6, 0x80 | unit & 63])
        else:
            out += bytes([0xE0 | unit >> 12, 0x80 | unit >> 6 & 63, 0x80 | unit & 63])
    return out


class Pool:
    """A constant pool that grows, each entry once."""

    def __init__(self):
        self.entries = {}

    def add(self, entry):
        return self.entries.setdefault(entry, len(self.entries) + 1)

    def text(self, text):
        text = mutf8(text)
        return self.add(b"\x01" + struct.pack(">H", len(text)) + text)

    def named(self, name):
        return self.add(b"\x07" + struct.pack(">H", self.text(name)))

    def method(self, instruction, owner, name, descriptor):
        signature = self.add(b"\x0c" + struct.pack(">HH", self.text(name), self.text(descriptor)))
        tag = 11 if instruction == INTERFACE else 10
        return self.add(bytes([tag]) + struct.pack(">HH", self.named(owner), signature))


def code(pool, calls):
    """The attribute Code of a method with these calls."""
    text = b""
    for instruction, owner, name, descriptor in calls:
        text += struct.pack(">BH", instruction, pool.method(instruction, owner, name, descriptor))
        text += b"\x01\x00" if instruction == INTERFACE else b""
    text += b"\xb1"
    return struct.pack(">HIHHI", pool.text("Code"), 12 + len(text), 255, 255, len(text)) + text + bytes(4)


def made_class(name, parent="java/lang/Object", flags=0x21, interfaces=(), methods=(), version=(61, 0)):
    """A class file. Each method is its flags, name, descriptor, and calls, each an instruction and the class, name and descriptor that it
    names."""
    pool = Pool()
    this, above = pool.named(name), pool.named(parent) if parent else 0
    body = struct.pack(">HHHH", flags, this, above, len(interfaces)) + b"".join(struct.pack(">H", pool.named(one)) for one in interfaces)
    body += struct.pack(">HH", 0, len(methods))
    for method_flags, own, descriptor, calls in methods:
        body += struct.pack(">HHHH", method_flags, pool.text(own), pool.text(descriptor), 1) + code(pool, calls)
    major, minor = version
    head = b"\xca\xfe\xba\xbe" + struct.pack(">HHH", minor, major, len(pool.entries) + 1)
    return head + b"".join(pool.entries) + body + bytes(2)


OBJECT = made_class("java/lang/Object", None, methods=[(1, "<init>", "()V", []), (1, "hashCode", "()I", [])])


def calling(name, parent="java/lang/Object", version=(61, 0), **more):
    """A class with the methods f, which calls its own g and java/lang/Object's hashCode, and g, which calls nothing."""
    calls = [(VIRTUAL, name, "g", "()V"), (VIRTUAL, "java/lang/Object", "hashCode", "()I")]
    return made_class(name, parent, methods=[(1, "f", "()V", calls), (1, "g", "()V", [])], version=version, **more)
