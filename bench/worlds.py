#!/usr/bin/env python3
"""Writes the classes and places of a world for crates/bench: lines of hexadecimal, and a line of class, method and pc for each call.

    bench/worlds.py LINKD WORLD [RECEIVERS]      LINKD is the built linkd, which writes the class files

Of `static` a class calls its own static method 1,000 times. Of `table` and `megamorphic` a class calls a method of an interface 1,000 times,
with eight and 64 classes below it; they are the classes from the fourth on. Of the others a class calls a method 256 times, on so many
receivers: `flat`, direct subclasses without a method; `own`, with a method each; `chain`, below one another and without a method; `beside`,
direct subclasses without a method, and an abstract one beside them with it; `implementers` of an interface, with a method each.
"""

import json
import subprocess
import sys

METHOD = {"name": "f", "type": "()V", "flags": 1}
ABSTRACT = {"name": "f", "type": "()V", "flags": 1025}
OBJECT = "java/lang/Object"


def a_class(name, superclass=OBJECT, methods=(), flags=33, interfaces=()):
    return {"name": name, "super": superclass, "flags": flags, "interfaces": list(interfaces), "methods": list(methods)}


def an_interface(name):
    return a_class(name, methods=[ABSTRACT], flags=1537)


def calling(kind, of, count, *methods):
    """The class W, whose first method makes so many calls."""
    call = {"kind": kind, "of": of, "name": "f", "type": "()V"}
    return a_class("W", methods=[{"name": "m", "type": "()V", "flags": 9, "calls": [call] * count}, *methods])


def statics():
    return [calling("invokestatic", "W", 1000, {"name": "f", "type": "()V", "flags": 9})]


def receivers_of_interface(of):
    below = [a_class(f"D{number}", methods=[METHOD], interfaces=["I", "J"] if number < 8 else ["I"]) for number in range(64)]
    return [an_interface("I"), an_interface("J"), *below, calling("invokeinterface", of, 1000)]


def implementers(count):
    below = [a_class(f"C{number}", methods=[METHOD], interfaces=["I"]) for number in range(count)]
    return [an_interface("I"), *below, calling("invokeinterface", "I", 256)]


def subclasses(shape, count):
    """A is one of so many receivers."""
    above = ["A"] + [f"C{number}" if shape == "chain" else "A" for number in range(count)]
    methods = [METHOD] if shape == "own" else []
    below = [a_class(f"C{number}", superclass=above[number], methods=methods) for number in range(count - 1)]
    beside = [a_class("B", superclass="A", methods=[METHOD], flags=1057)] if shape == "beside" else []
    return [a_class("A", methods=[METHOD]), *beside, *below, calling("invokevirtual", "A", 256)]


def classes_of(world, count):
    if world == "static":
        return statics()
    if world in ("table", "megamorphic"):
        return receivers_of_interface("J" if world == "table" else "I")
    if world == "implementers":
        return implementers(count)
    if world in ("flat", "own", "chain", "beside"):
        return subclasses(world, count)
    sys.exit(__doc__)


def main():
    if len(sys.argv) not in (3, 4):
        sys.exit(__doc__)
    linkd, world, count = sys.argv[1], sys.argv[2], int(sys.argv[3]) if len(sys.argv) == 4 else 1
    classes = [{"name": OBJECT, "flags": 33}, *classes_of(world, count)]
    text = "".join(json.dumps(sketch) + "\n" for sketch in classes)
    files = subprocess.run([linkd, "sketch"], input=text, stdout=subprocess.PIPE, text=True, check=True).stdout
    if "{" in files:
        sys.exit("linkd refuses a sketch")
    calls = classes[-1]["methods"][0]["calls"]
    size = 5 if calls[0]["kind"] == "invokeinterface" else 3
    print(files, end="")
    for number in range(len(calls)):
        print(len(classes) - 1, 0, number * size)


if __name__ == "__main__":
    main()
