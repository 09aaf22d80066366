#!/usr/bin/env python3
"""Compares what `linkd run` answers to drawn lines with what a plain model of its own answers.

    bench/drawn.py PROGRAM          draws 20,000 lines, starts the program anew for each 2,000 of them, and compares all answers
    bench/drawn.py --script FILE    writes 2,000 lines to FILE and the model's answers to FILE.answers; it needs no program
    bench/drawn.py --together BENCH the same of a core, by the program of crates/bench: among the commands are retirements of several loaders at
                                    once, and releases of call sites and switch points, which no line of linkd has, and lines that are no
                                    commands aren't

    --events N, --seed S            so many lines; the number with which the generator begins, one more at each start
    --after FILE                    what is drawn comes after the commands of this file
    --without invokers,retire       draws none of these, for a program without them

The model follows docs/FORMATS.md and JVMS SE 17 (5.3.5, 5.4.3 to 5.4.6, 6.5) and shares nothing with the crates: plain functions
over the classes, places, call sites and switch points that there are. It links each installed site from scratch after each event,
so it knows every answer before the program is asked. Status 1 says that an answer isn't the model's, byte for byte, and then the
line, its number and both answers are printed; or, where there are 20,000 lines or more, that of these and of lines that come to
each limit none was answered in some way that the rules have and that lines can bring about. The model takes half a minute.
"""
import argparse
import json
import subprocess
import sys
from collections import Counter

from drawn_world import (
    ABSTRACT, A_HEX, CUT, FINAL, HANDLES, INTERFACE, LARGE, LOADERS, MANY, OBJECT, OTHER, PRIVATE, PROTECTED, PUBLIC,
    START, STATIC, VOID, World, ancestors, invoke, method, sketch, superclasses, text_of,
)

# ---- draws

KINDS = ["virtual"] * 8 + ["interface"] * 4 + ["special"] * 4 + ["static"] + ["dynamic"] * 5
PRIVATE_CALLS = [("interface", "p/J", "h")] + [("virtual", of, "h") for of in ("p/B", "p/M", "p/N", "p/O")]
PROTECTED_CALLS = [("special", "p/B", "m")] + [("virtual", of, "m") for of in ("p/B", "p/D", "p/E", "q/C")]
OTHER_CALLS = [("virtual", "q/X", "g"), ("special", "q/X", "g")] + [("virtual", "p/B", "k"), ("virtual", "p/E", "m")] * 2
NEVER, SOME = "p/Missing", "fffgggkkmmhso"
ODD_OWNERS = ["[I", "[Lp/B;", *HANDLES, NEVER]
CLASS_FLAGS = [PUBLIC] * 4 + [PROTECTED] * 2 + [0, 0, PRIVATE, STATIC | PUBLIC, ABSTRACT | PUBLIC, ABSTRACT]
INTERFACE_FLAGS = [PUBLIC] * 3 + [ABSTRACT | PUBLIC] * 2 + [PRIVATE, STATIC | PUBLIC]

# Name, flags, superclass, superinterfaces, methods with their flags, and the nest. An object of q/X has two default methods g.
SHAPES = [
    ("A", 33, OBJECT, [], {"f": 1}, {}),
    ("p/I", 1537, OBJECT, [], {"f": 1025, "g": 1}, {}),
    ("p/B", 33, "A", [], {"f": 1, "k": 0, "m": 4, "h": 2}, {}),
    ("p/J", 1537, OBJECT, ["p/I"], {"g": 1, "h": 2, "s": 9}, {}),
    ("q/K", 1537, OBJECT, ["p/I"], {"g": 1, "k": 1025}, {}),
    ("q/X", 33, "A", ["p/J", "q/K"], {}, {}),
    ("q/C", 33, "p/B", ["p/I"], {"k": 0, "g": 1}, {}),
    ("p/N", 33, OBJECT, [], {"h": 2, "f": 1}, {"members": ["p/M", "p/O"]}),
    ("p/O", 33, OBJECT, [], {"h": 2}, {"host": "p/N"}),
    ("p/M", 33, "A", ["p/I"], {"h": 2}, {"host": "p/N"}),
    ("p/D", 33, "q/C", [], {"f": 1, "k": 0}, {}),
    ("p/E", 1057, "p/B", ["p/J"], {"f": 1025, "k": 1}, {}),
    ("q/F", 49, "p/E", ["q/K"], {"k": 1}, {}),
    ("p/G", 33, "p/D", [], {"k": 4}, {}),
    ("p/Y", 33, "q/X", [], {"f": 1}, {}),
    ("T", 33, OBJECT, [], {"s": 9, "t": 9, "k": 1, "g": 9}, {}),
]
NAMES = [shape[0] for shape in SHAPES]
INTERFACES = [shape[0] for shape in SHAPES if shape[1] & INTERFACE]


def parents_of(name):
    """The superclasses of the class of the name, by its shape."""
    return [parent for shape in SHAPES if shape[0] == name for parent in [shape[2]] + parents_of(shape[2])]


def known_methods(name):
    """The methods that it declares or inherits, with their flags."""
    for shape in (shape for shape in SHAPES if shape[0] == name):
        yield from shape[4].items()
        for parent in [shape[2]] + shape[3]:
            yield from known_methods(parent)


def guards(count):
    """So many guards within one another."""
    return {"guard": 0, "target": guards(count - 1), "fallback": {"method": [0, 0]}} if count else {"method": [0, 0]}


def bush(parts):
    """A shallow target of so many parts, an odd number."""
    half = (parts - 1) // 4 * 2 + 1
    return {"guard": 0, "target": bush(half), "fallback": bush(parts - 1 - half)} if parts > 1 else {"method": [0, 0]}


TARGETS = [guards(63), guards(64), guards(124), bush(255), bush(257)]
BAD_TARGETS = [{}, {"method": [0]}, {"method": [0, MANY]}, {"invoker": 0, "method": [0, 0]}, {"guard": 0, "target": {}}, guards(125)]
BAD_LINES = [text_of({"do": "target", "callsite": 0, "target": target}) for target in BAD_TARGETS] + ["", "{", "[]"] + """
{"do":"lines"} {"do":"links","x":1} {"do":"install"} {"do":"switch"}} {"do":"invalidate","switches":0} {"do":"define","loader":0}
{"do":"retire","loader":-1} {"do":"retire","loader":4294967296} {"do":"call","site":0.0} {"do":"call","site":1e0}
{"do":"call","site":"0"} {"do":"request","class":0,"method":65536,"pc":0} {"do":"define","loader":0,"hex":"0"}
{"do":"define","loader":0,"hex":"","sketch":{"flags":33,"name":"A"}} {"do":"define","loader":0,"sketch":{"name":"A"}}
{"do":"define","loader":0,"sketch":{"flags":33,"name":"A","super":null}}
{"do":"define","loader":0,"sketch":{"flags":65536,"name":"A"}}
{"do":"callsite","kind":"lazy","target":{"method":[0,0]},"type":"()V"}
{"do":"callsite","kind":"mutable","target":{"method":[0,0]},"type":"V"}
""".split()


class Draws:
    """The lines that are drawn, by a fixed generator of numbers (Knuth's MMIX)."""

    def __init__(self, seed, world, without, together=False):
        self.state, self.world, self.without, self.together = seed, world, without, together
        self.queue = [{"do": "define", "loader": 0, "sketch": self.object()}]

    def below(self, bound):
        self.state = (self.state * 6364136223846793005 + 1442695040888963407) % 2**64
        return (self.state >> 33) % bound

    def is_one_in(self, times):
        return self.below(times) == 0

    def one_of(self, *choices):
        """One of the first of these lists that isn't empty."""
        choices = next(filter(None, choices))
        return choices[self.below(len(choices))]

    def recent(self, count, few):
        """One of the last few, or the one that comes next and isn't there."""
        return count if self.is_one_in(32) else max(0, count - 1 - self.below(few))

    def loader(self):
        there = self.world.loaders()
        return self.below(len(self.world.records) + 1) if self.is_one_in(24) else self.one_of([0] + there + there[-2:] * 3)

    # -- classes

    def object(self):
        more = [method(name, self.one_of(CLASS_FLAGS[3:])) for name in "hgk" if self.is_one_in(5)]
        return sketch(OBJECT, 33, None, [method("o", PUBLIC), method("<init>", PUBLIC), method("s", STATIC | PUBLIC)] + more)

    def invocation(self, shape):
        kind = self.one_of(KINDS)
        pointed = PRIVATE_CALLS if shape[5] else PROTECTED_CALLS if shape[0] in ("q/C", "q/F") else []
        if self.is_one_in(2 if pointed else 8):
            return invoke(*self.one_of(pointed, PRIVATE_CALLS + OTHER_CALLS))
        if kind == "dynamic":
            return invoke(kind, None, "d", self.one_of([VOID] * 7 + [OTHER]))
        wants_interface = kind == "interface" or kind != "virtual" and self.is_one_in(3)
        of = self.one_of([name for name in NAMES[:12] if (name in INTERFACES) == wants_interface])
        if self.is_one_in(16):
            of = self.one_of(self.one_of([ODD_OWNERS, NAMES + [OBJECT]]))
        elif kind != "interface" and self.is_one_in(3):
            of = self.one_of([shape[0], *parents_of(shape[0])])
        more = {"itf": (of in INTERFACES) != self.is_one_in(8)} if kind in ("special", "static") else {}
        known = [name for name, flags in known_methods(of) if (flags & STATIC != 0) == (kind == "static")]
        name = self.one_of([] if self.is_one_in(6) else known + ["o"] * (kind == "interface"), SOME)
        return invoke(kind, of, "<init>" if kind == "special" and not more["itf"] and self.is_one_in(4) else name, **more)

    def methods(self, shape, flags):
        choices = INTERFACE_FLAGS if flags & INTERFACE else CLASS_FLAGS
        drawn = {name: each for name, each in shape[4].items() if not self.is_one_in(8)}
        drawn = {name: self.one_of(choices) if self.is_one_in(6) or each not in choices else each for name, each in drawn.items()}
        if self.is_one_in(3):
            drawn[self.one_of(SOME)] = self.one_of(choices)
        made = [method(name, each) for name, each in drawn.items()]
        made += [method("i", STATIC | PUBLIC, type=OTHER)] * (shape[0] == "T")
        made += [method("<init>", PUBLIC)] * (self.is_one_in(4) and not flags & INTERFACE)
        if not self.is_one_in(4):
            made.insert(self.below(len(made) + 1), method("r", STATIC | PUBLIC, [self.invocation(shape) for _ in range(6)]))
        return made

    def shaped(self, shape):
        name, flags, superclass, interfaces, _, nest = shape
        if self.is_one_in(10):
            flags ^= self.one_of([PUBLIC, FINAL, ABSTRACT, ABSTRACT, INTERFACE | ABSTRACT])
        superclass = self.one_of(NAMES) if self.is_one_in(16) else superclass
        interfaces = interfaces + [self.one_of(NAMES)] if self.is_one_in(12) else interfaces
        if nest and self.is_one_in(2):
            nest = {"members": ["p/O"]} if "members" in nest else {"host": NEVER}
        superclass = OBJECT if flags & INTERFACE else superclass
        return sketch(name, flags, superclass, self.methods(shape, flags), interfaces=interfaces, **nest)

    def is_definable(self, loader, shape):
        """Whether the loader hasn't recorded the class, and has recorded its parents."""
        records = self.world.records[loader] if self.world.is_loader(loader) else {}
        return shape[0] not in records and all(name in records for name in [shape[2], *shape[3]])

    def define(self):
        loader, place = self.loader(), self.below(len(SHAPES))
        if self.is_one_in(14):
            file = self.one_of(CUT)[0]
            return {"do": "define", "loader": loader, "hex" if isinstance(file, str) else "sketch": file}
        if self.is_one_in(64):
            return {"do": "define", "loader": loader, "sketch": self.object()}
        shape = SHAPES[place]
        if not self.is_one_in(10):
            pairs = [(each, one) for each in [loader] + self.world.loaders()[::-1] for one in SHAPES[place:] + SHAPES[:place]]
            loader, shape = self.one_of([pair for pair in pairs if self.is_definable(*pair)][:3], [(loader, shape)])
        if shape[0] == "A" and self.is_one_in(2):
            return {"do": "define", "loader": loader, "hex": A_HEX}
        return {"do": "define", "loader": loader, "sketch": self.shaped(shape)}

    def delegate(self):
        loader, to = self.loader(), self.loader() if self.is_one_in(3) else 0
        names = [OBJECT] + NAMES[: self.one_of([2, 4, 6, 16])]
        if not self.is_one_in(8) and self.world.is_loader(loader) and self.world.is_loader(to):
            ours, others = self.world.records[loader], self.world.records[to]
            names = [name for name in others if name not in ours and others[name].loader == to][:4] or names
        return {"do": "delegate", "loader": loader, "name": self.one_of(names), "to": to}

    def request(self):
        classes = self.world.classes
        there = [one for one in classes if self.world.present(one.number)]
        places = [(one, each.place, pc) for one in there for each in one.methods for pc in each.sites]
        if not places or self.is_one_in(8):
            return {"do": "request", "class": self.below(len(classes) + 1), "method": self.below(5), "pc": self.below(24)}
        free = [place for place in places if place not in self.world.sites] if not self.is_one_in(4) else []
        one, place, pc = self.one_of(free[-24:] if self.is_one_in(2) else free, places)
        return {"do": "request", "class": one.number, "method": place, "pc": pc}

    # -- sites

    def site(self):
        count, links = len(self.world.places), self.world.links
        pending = [site for site in range(count) if site not in links and self.world.link(site)]
        if pending and not self.is_one_in(3):
            return self.one_of(pending)
        return self.recent(count, 8) if self.is_one_in(2) else self.below(count + 1)

    def prepare(self):
        sites = [self.site() for _ in range(self.one_of([1, 1, 2, 3]))]
        if self.is_one_in(50):
            sites = self.one_of([[], [0] * 257])
        elif not self.is_one_in(12):
            linked = [site for site in sites if site < len(self.world.places) and self.world.link(site)]
            sites = list(dict.fromkeys(linked)) or sites
        if not self.is_one_in(4):
            self.queue.append({"do": "install", "prepared": len(self.world.batches)})
        return {"do": "prepare", "sites": sites}

    def install(self):
        count, number = len(self.world.batches), self.below(len(self.world.batches) + 1)
        gone = [each for each in range(count) if self.world.is_gone(self.world.batches[each][0][0])]
        number = self.recent(count, 4) if self.is_one_in(2) else self.one_of(gone, [number]) if self.is_one_in(8) else number
        return {"do": "install", "prepared": number}

    def call(self):
        world, draw, count = self.world, self.below(8), len(self.world.places)
        site = self.site() if self.is_one_in(2) else self.below(count + 1)
        if self.is_one_in(4):
            site = self.one_of([each for each in range(count) if not world.is_gone(each) and not world.link(each)], [site])
        recv = self.below(len(world.classes) + 1)
        if draw > 3 and site < count:
            caller, call = world.site(site)
            below = world.receivers(world.records[caller.loader].get(call.get("of")))
            recv = self.one_of([one.number for one in below], [recv])
        return {"do": "call", "site": site, **({} if draw == 0 else {"recv": None if draw == 1 else recv})}

    # -- call sites

    def target_method(self, type):
        methods = [each for one in self.world.classes if self.world.present(one.number) for each in one.methods]
        if self.is_one_in(24):
            return {"method": [self.below(len(self.world.classes) + 1), self.below(4)]}
        fits = [] if self.is_one_in(24) else [each for each in methods if each.has(STATIC) and each.called[1] == type]
        first = [] if self.is_one_in(6) else [each for each in fits if each.owner.loader == 0]
        return {"method": self.one_of(first, fits, methods).pair()}

    def some_target(self, type, own, depth=0):
        draw = self.below(12 if depth < 3 else 4)
        if draw == 3 and own and "invokers" not in self.without:
            return {"invoker": own if self.is_one_in(24) else self.below(own)}
        if draw <= 3:
            return self.target_method(type)
        target, fallback = (self.some_target(type, own, depth + 1) for _ in range(2))
        return {"guard": self.recent(len(self.world.switches), 3), "target": target, "fallback": fallback}

    def new_target(self, type, own):
        return self.one_of(TARGETS) if self.is_one_in(24) else self.some_target(type, own)

    def callsite(self):
        type, kind = self.one_of([VOID] * 7 + [OTHER]), self.one_of(["mutable"] * 5 + ["constant", "volatile"])
        return {"do": "callsite", "kind": kind, "type": type, "target": self.new_target(type, len(self.world.call_sites))}

    def call_site(self, fits):
        """One of the first call sites that fit, or any, or the one that comes next and isn't there."""
        numbers = [number for number, each in enumerate(self.world.call_sites) if each and fits(each)][:6]
        count = len(self.world.call_sites)
        return self.one_of([] if self.is_one_in(8) else numbers, [count] if self.is_one_in(4) else range(min(6, count)), [0])

    def target(self):
        number = self.call_site(lambda each: each["kind"] != "constant")
        type = self.world.call_sites[number]["type"] if self.world.has_call_site(number) else VOID
        return {"do": "target", "callsite": number, "target": self.new_target(type, number)}

    def switch(self):
        return {"do": "switch"}

    def invalidate(self):
        count = len(self.world.switches)
        return {"do": "invalidate", "switches": [self.recent(count, 4) for _ in range(self.one_of([0, 1, 1, 1, 2, 2]))]}

    def bind(self):
        world, count = self.world, len(self.world.places)
        there = [site for site in range(count) if not world.is_gone(site) and site not in world.bindings]
        free = [site for site in there if world.site(site)[1]["kind"] == "invokedynamic"]
        if not free and not self.is_one_in(4):
            return self.target()
        site = self.site() if self.is_one_in(6) else self.one_of(free, [count])
        type = world.site(site)[1]["type"] if site < count else VOID
        return {"do": "bind", "site": site, "callsite": self.call_site(lambda each: each["type"] == type)}

    def rare(self):
        draw = self.below(4)
        if draw == 0 and "retire" not in self.without:
            return {"do": "retire", "loader": self.below(len(self.world.records)) if self.is_one_in(2) else self.loader()}
        if draw == 3 and self.together:
            return self.retire_all()
        return {"do": "loader"} if draw < 2 else {"do": "links"} if draw == 2 else self.one_of(BAD_LINES)

    def holders(self, loader):
        """The other loaders that record a class of this one, or have a class below one."""
        world = self.world
        recorders = [other for other in world.loaders() if loader in {one.loader for one in world.records[other].values()}]
        heirs = [one.loader for one in world.classes if world.present(one.number) and loader in {each.loader for each in ancestors(one)}]
        return sorted({*recorders, *heirs} - {loader})

    def retire_all(self):
        """One to four loaders, often with those that hold one of them, in any order."""
        loaders, there = [], self.world.loaders()[1:]
        for _ in range(self.one_of([1, 2, 2, 3, 3, 4])):
            held = [other for loader in loaders for other in self.holders(loader) if other not in loaders]
            others = [loader for loader in there if loader not in loaders]
            drawn = self.loader() if self.is_one_in(8) else self.one_of([] if self.is_one_in(8) else held, others, there, [1])
            loaders.insert(self.below(len(loaders) + 1), drawn)
        return {"do": "retire_all", "loaders": loaders}

    def release(self):
        """Some call sites and switch points, often with the call sites that name one of them, in any order. Where few are left there are new
        ones instead."""
        world = self.world
        if len(world.targets()) < 8 and not self.is_one_in(6):
            return self.callsite()
        call_sites = [self.call_site(lambda each: True) for _ in range(self.one_of([0, 0, 1, 1, 2]))]
        switches = [self.recent(len(world.switches), 6) for _ in range(self.one_of([0, 0, 1, 2]))]
        naming = world.naming(call_sites, switches)
        if len(naming) < 4 and self.is_one_in(2):
            for number in naming:
                call_sites.insert(self.below(len(call_sites) + 1), number)
        return {"do": "release", "callsites": call_sites, "switches": switches}

    def family(self):
        """Two new loaders that find classes in loader 0 and in each other, with classes of their own, some of them below the other one's."""
        world = self.world
        pair = [len(world.records), len(world.records) + 1]
        lines, known, own = [{"do": "loader"}] * 2, {loader: {OBJECT} for loader in pair}, {0: list(world.records[0]), pair[0]: [], pair[1]: []}
        lines += [{"do": "delegate", "loader": loader, "name": OBJECT, "to": 0} for loader in pair]
        for loader, others in ((pair[0], [0]), (pair[1], [0, pair[0]]), (pair[0], [pair[1]])):
            for other in others:
                for name in [name for name in own[other] if name not in known[loader] and not self.is_one_in(3)]:
                    lines.append({"do": "delegate", "loader": loader, "name": name, "to": other})
                    known[loader].add(name)
            for shape in [shape for shape in SHAPES if not self.is_one_in(3)]:
                if shape[0] not in known[loader] and known[loader].issuperset([shape[2], *shape[3]]) and len(own[loader]) < 4:
                    lines.append({"do": "define", "loader": loader, "sketch": self.shaped(shape)})
                    known[loader].add(shape[0])
                    own[loader].append(shape[0])
        self.queue += lines[1:]
        return lines[0]

    def lines(self, count):
        events = EVENTS + [Draws.retire_all, Draws.retire_all, Draws.family, Draws.release, Draws.release] * self.together
        for _ in range(count):
            yield self.queue.pop(0) if self.queue else self.one_of(events)(self)


WEIGHTS = {
    Draws.prepare: 10, Draws.install: 2, Draws.call: 4, Draws.define: 9, Draws.delegate: 3, Draws.request: 4, Draws.callsite: 2,
    Draws.target: 6, Draws.switch: 2, Draws.invalidate: 3, Draws.bind: 3, Draws.rare: 4,
}
EVENTS = [draw for draw, weight in WEIGHTS.items() for _ in range(weight)]


def limit_lines():
    """Lines that come to each limit that the rules have, and one step further."""
    place = invoke("static", "T", "s")
    yield {"do": "define", "loader": 0, "sketch": sketch(OBJECT, 33, None)}
    yield {"do": "define", "loader": 0, "sketch": sketch("T", 33, methods=[method("s", 9), method("r", 9, [place])])}
    yield {"do": "define", "loader": 0, "hex": LARGE}
    yield from [{"do": "loader"}] * LOADERS
    yield from [{"do": "switch"}] * (MANY + 1)
    yield from [{"do": "callsite", "kind": "constant", "type": VOID, "target": {"method": [1, 0]}}] * (MANY + 1)
    for number in range(2, 6):
        yield {"do": "define", "loader": 0, "sketch": sketch(f"S{number}", methods=[method("r", 9, [place] * (MANY // 4))])}
        yield from ({"do": "request", "class": number, "method": 0, "pc": 3 * count} for count in range(MANY // 4))
    yield {"do": "request", "class": 1, "method": 1, "pc": 0}
    yield {"do": "request", "class": 5, "method": 0, "pc": 0}
    yield from ({"do": "define", "loader": 0, "sketch": sketch(f"C{number}")} for number in range(MANY - 5))


# ---- kinds of answers

# What must come. Lines can't bring about Memory, and of an install BatchSize, UnknownSite and Repeated.
WANTED = """
loader: ok LoadersFull
define: ok drops Define.UnknownLoader Define.SecondObject Define.AlreadyRecorded Define.NamesItself Define.MissingParent
define: Define.SuperIsInterface Define.FinalSuper Define.NotAnInterface Define.InaccessibleParent Define.Full
define: TooLarge Truncated BadMagic BadVersion Pool.BadTag TrailingBytes BadSuper ModuleFile Pool.BadDescriptor TooBig BadNest
define: BadMember DuplicateMethod CallsWithoutCode Code.BadOperand
delegate: ok Delegate.UnknownLoader Delegate.NotRecorded Delegate.AlreadyRecorded
retire: ok drops Retire.UnknownLoader Retire.FirstLoader Retire.Inherited Retire.Recorded Retire.Targeted
request: ok UnknownClass NoSuchPlace NotLinkable.ArrayReceiver NotLinkable.PolymorphicSignature SitesFull
callsite: ok CallSite.Full CallSite.TooDeep CallSite.UnknownSwitch CallSite.UnknownMethod CallSite.NotStatic CallSite.WrongType
callsite: CallSite.InvokerOrder
target: ok drops CallSite.UnknownCallSite CallSite.Constant CallSite.TooDeep CallSite.UnknownSwitch CallSite.UnknownMethod
target: CallSite.NotStatic CallSite.WrongType CallSite.InvokerOrder
switch: ok CallSite.Full
invalidate: ok drops CallSite.UnknownSwitch
bind: ok UnknownSite NotDynamic AlreadyBound CallSite.UnknownCallSite TypeMismatch
prepare: ok Prepare.BatchSize Prepare.UnknownSite Prepare.Repeated Prepare.NotReady
install: ok BadCommand NotReady Stale
links: ok
line: BadCommand
call: run NullPointerException AbstractMethodError IncompatibleClassChangeError IllegalAccessError NoSuchMethodError
call: BadReceiver NoSite Gone Unbound NotReady.named NotReady.callerHost NotReady.methodHost
fault: NoSuchMethodError IncompatibleClassChangeError IllegalAccessError
plain: ok
direct: run AbstractMethodError IncompatibleClassChangeError
virtual: empty run AbstractMethodError IncompatibleClassChangeError
interface: empty run AbstractMethodError IncompatibleClassChangeError IllegalAccessError
mega: ok
"""
OF_RETIREMENT, OF_INVOKERS = ("retire: ", "call: Gone", "install: NotReady"), ("InvokerOrder",)

# Of loaders that go at once: `bound` are those of which none may go alone, `later` a list in which another one than the first may not go.
WANTED_TOGETHER = """
retire_all: ok drops bound later Retire.UnknownLoader Retire.FirstLoader Retire.Inherited Retire.Recorded Retire.Targeted
release: ok drops Release.UnknownCallSite Release.UnknownSwitch Release.Invoked Release.Guarded
callsite: CallSite.UnknownCallSite
"""
OF_LINES = ("line: ",)


def wanted(without, together):
    rows = (WANTED + (WANTED_TOGETHER.strip() if together else "")).strip().split("\n")
    kinds = [f"{do}: {kind}" for do, rest in (row.split(": ") for row in rows) for kind in rest.split()]
    words = OF_RETIREMENT * ("retire" in without) + OF_INVOKERS * ("invokers" in without) + OF_LINES * together
    return [kind for kind in kinds if not any(word in kind for word in words)]


def kinds_of_link(link):
    if "table" in link:
        return [f"{link['kind']}: {kind}" for kind in {came.get("throws", "run") for _, came in link["table"]} or ["empty"]]
    (form, said), = link.items()
    return [f"{form}: {said if form == 'fault' else said.get('throws', 'run') if form == 'direct' else 'ok'}"]


def kinds_of(line, answer):
    do = "line" if isinstance(line, str) else line["do"]
    if "error" in answer or "refused" in answer:
        return [f"{do}: {answer.get('error') or answer['refused']}"]
    if do == "call":
        return ["call: " + (".".join(answer.values()) if "unlinked" in answer else answer.get("throws", "run"))]
    links = [kind for _, link in answer.get("rows", []) for kind in kinds_of_link(link)]
    return [f"{do}: ok"] + [f"{do}: drops"] * (answer.get("dropped", []) != []) + links


def is_together(line):
    return not isinstance(line, str) and line["do"] == "retire_all"


def any_alone(world, line):
    """Whether one of the loaders that are to go at once may go alone."""
    return is_together(line) and any(map(world.may_go, line["loaders"]))


def kinds_together(line, alone, answer):
    """What else there is to say of loaders that are to go at once."""
    if not is_together(line) or not line["loaders"]:
        return []
    if "refused" in answer:
        return ["retire_all: later"] * (answer["retire"] != line["loaders"][0])
    return ["retire_all: bound"] * (not alone)


# ---- lines with their answers, and the program's


def line_text(line):
    """What the program reads: a line of linkd, or the loaders, or call sites and switch points, that go at once."""
    if is_together(line):
        return " ".join(["retire", *map(str, line["loaders"])])
    if not isinstance(line, str) and line["do"] == "release":
        return " ".join(["release", *map(str, line["callsites"]), "/", *map(str, line["switches"])])
    return line if isinstance(line, str) else text_of(line)


class Tally:
    def __init__(self):
        self.kinds, self.lines, self.changes = Counter(), 0, 0

    def row(self, world, line):
        """The line's text and its answer's, which are counted."""
        before = dict(world.links)
        alone = any_alone(world, line)
        answer = world.answer(line)
        self.kinds.update(kinds_of(line, answer) + kinds_together(line, alone, answer))
        self.lines += 1
        self.changes += world.links != before
        return line_text(line), text_of(answer)

    def rows(self, world, lines):
        return [self.row(world, line) for line in lines]

    def drawn_rows(self, seed, events, without, together, first=()):
        world = World()
        begun = [(line, text_of(world.answer(json.loads(line)))) for line in first]
        return begun + self.rows(world, Draws(seed, world, without, together).lines(events))

    def tell(self, missing):
        print(f"{self.lines} lines, of which {self.changes} changed what is installed")
        for kind, count in sorted(self.kinds.items()):
            print(f"{count:8} {kind}")
        for kind in missing:
            print(f"    none {kind}")


def compare(program, word, rows, what):
    """Ends with status 1 at the first answer of the program, with this word, that isn't the model's."""
    ran = subprocess.run([program, word], input="".join(line + "\n" for line, _ in rows), stdout=subprocess.PIPE, text=True)
    answers = ran.stdout.split("\n")[:-1] + [f"none, and status {ran.returncode}"] * len(rows)
    for number, (line, answer) in enumerate(rows):
        if answers[number] != answer:
            sys.exit(f"{what}, event {number}:\n{line}\nmodel:   {answer}\nprogram: {answers[number]}")
    if ran.returncode != 0 or len(answers) != 2 * len(rows):
        sys.exit(f"{what}: status {ran.returncode}, and {len(answers) - len(rows)} answers to {len(rows)} lines")


def write(path, rows):
    for place, end in enumerate(("", ".answers")):
        with open(path + end, "w") as file:
            file.writelines(row[place] + "\n" for row in rows)


def main():
    parser = argparse.ArgumentParser(description=__doc__, formatter_class=argparse.RawDescriptionHelpFormatter)
    parser.add_argument("program", nargs="?")
    for word, kind, default in (("script", str, None), ("after", str, None), ("events", int, 20000), ("seed", int, 1), ("without", str, "")):
        parser.add_argument("--" + word, type=kind, default=default)
    parser.add_argument("--together", action="store_true")
    given = parser.parse_args()
    without, together, tally = given.without.split(","), given.together, Tally()
    if given.script:
        first = open(given.after).read().splitlines() if given.after else ()
        return write(given.script, tally.drawn_rows(given.seed, min(given.events, START), without, together, first))
    if not given.program:
        parser.error("name the program, or a file for --script")
    word = "drawn" if together else "run"
    for number in range(0, given.events, START):
        seed = given.seed + number // START
        compare(given.program, word, tally.drawn_rows(seed, min(START, given.events - number), without, together), f"seed {seed}")
    if given.events >= 20000:
        compare(given.program, word, tally.rows(World(), limit_lines()), "limits")
    missing = [kind for kind in wanted(without, together) if given.events >= 20000 and not tally.kinds[kind]]
    tally.tell(missing)
    sys.exit(1 if missing else 0)


if __name__ == "__main__":
    main()
