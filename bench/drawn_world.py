"""The plain model of `linkd run` with which bench/drawn.py compares a program: what each line is answered, by the documented rules. It knows
two commands more, which a host has and no line: `retire_all`, by which several loaders go at once, and `release`, by which call sites and switch
points do.

    bench/drawn_world.py            works out small worlds in which loaders or call sites need each other, and compares them with what is known
                                    by hand
"""
import functools
import json

PUBLIC, PRIVATE, PROTECTED, STATIC, FINAL, INTERFACE, ABSTRACT = 1, 2, 4, 8, 16, 512, 1024
OBJECT, HANDLES = "java/lang/Object", ["java/lang/invoke/MethodHandle", "java/lang/invoke/VarHandle"]
ABSTRACT_ERROR, ACCESS_ERROR, CHANGE_ERROR = "AbstractMethodError", "IllegalAccessError", "IncompatibleClassChangeError"
VOID, OTHER = "()V", "(I)V"
MANY, LOADERS, START = 65536, 1024, 2000


def text_of(value):
    return json.dumps(value, sort_keys=True, separators=(",", ":"))


# ---- sketches, a file that is none, and files that are refused, by the lists of docs/FORMATS.md


def sketch(name="A", flags=33, superclass=OBJECT, methods=(), **more):
    return {"name": name, "flags": flags, "methods": list(methods), **({"super": superclass} if superclass else {}), **more}


def method(name, flags, calls=None, type=VOID):
    return {"name": name, "type": type, "flags": flags, **({"calls": calls} if calls else {})}


def invoke(kind, of, name, type=VOID, **more):
    return {"kind": "invoke" + kind, "name": name, "type": type, **({"of": of} if of else {}), **more}


A_HEX = (
    "cafebabe0000003d0008010001410700010100106a6176612f6c616e672f4f626a65637407000301000166010003282956010004436f6465"
    "002100020004000000000001000100050006000100070000000d0000000000000001b1000000000000"
)
FILES = {A_HEX: sketch(methods=[method("f", PUBLIC)])}
LARGE = "00" * 1000001
CUT = [
    ("", {"refused": "Truncated"}),
    ("00" * 8, {"refused": "BadMagic"}),
    ("cafebabe0000003e", {"refused": "BadVersion"}),
    ("cafebabe0000003d0000", {"refused": "Pool.BadTag", "at": 0}),
    (A_HEX + "00", {"refused": "TrailingBytes"}),
    (sketch(superclass=None), {"refused": "BadSuper"}),
    (sketch(flags=32801), {"refused": "ModuleFile"}),
    (sketch(name="a//b"), {"refused": "Pool.BadDescriptor", "at": 2}),
    (sketch(name="a" * MANY), {"refused": "TooBig"}),
    (sketch(host="B", members=["C"]), {"refused": "BadNest"}),
    (sketch(methods=[method("f", 1), method("g", 3)]), {"refused": "BadMember", "at": 1}),
    (sketch(methods=[method("f", 1), method("f", 9)]), {"refused": "DuplicateMethod", "method": 1}),
    (sketch(methods=[method("f", 1025, [invoke("dynamic", None, "d")])]), {"refused": "CallsWithoutCode", "method": 0}),
    (sketch(methods=[method("f", 9, [invoke("static", "A", "<init>")])]), {"refused": "Code.BadOperand", "method": 0, "at": 0}),
]
FAULTS = {text_of(file): answer for file, answer in CUT + [(LARGE, {"refused": "TooLarge"})]}


# ---- classes, and what invocations come to in them


class Method:
    def __init__(self, owner, place, said):
        self.owner, self.place, self.flags, self.called = owner, place, said["flags"], (said["name"], said["type"])
        self.sites, pc = {}, 0
        for call in said.get("calls", ()):
            self.sites[pc] = call
            pc += 5 if call["kind"] in ("invokeinterface", "invokedynamic") else 3

    def has(self, flags):
        return self.flags & flags != 0

    def pair(self):
        return [self.owner.number, self.place]


class Class:
    def __init__(self, number, loader, said, superclass, interfaces):
        self.number, self.loader, self.name, self.flags = number, loader, said["name"], said["flags"]
        self.superclass, self.interfaces = superclass, interfaces
        self.parents = [superclass] * (superclass is not None) + interfaces
        self.host, self.members, self.package = said.get("host"), said.get("members", ()), (loader, self.name.rpartition("/")[0])
        self.methods = [Method(self, place, one) for place, one in enumerate(said.get("methods", ()))]

    def is_interface(self):
        return self.flags & INTERFACE != 0

    def is_open_to(self, other):
        """§5.4.4, of classes."""
        return self.flags & PUBLIC != 0 or self.package == other.package

    def declared(self, called, without=0):
        return next((one for one in self.methods if one.called == called and not one.has(without)), None)


@functools.cache
def superclasses(one):
    return [one] + (superclasses(one.superclass) if one.superclass else [])


@functools.cache
def ancestors(one):
    return frozenset([one]).union(*map(ancestors, one.parents))


def candidates(one, called):
    """Superinterface methods that are neither private nor static, by the number of the interface."""
    above = sorted(ancestors(one) - {one}, key=lambda each: each.number)
    return list(filter(None, (each.declared(called, PRIVATE | STATIC) for each in above if each.is_interface())))


def defaults(one, called):
    """The maximally-specific ones that aren't abstract."""
    found = candidates(one, called)
    most = [high for high in found if not any(high.owner in ancestors(low.owner) - {low.owner} for low in found)]
    return [each for each in most if not each.has(ABSTRACT)]


def object_method(one, called):
    """The public instance method of java/lang/Object."""
    found = superclasses(one)[-1].declared(called, STATIC)
    return found if found and found.has(PUBLIC) else None


def in_superclasses(one, called, without=0):
    return next(filter(None, (each.declared(called, without) for each in superclasses(one))), None)


def found_method(one, called):
    """§5.4.3.3 and §5.4.3.4, without access."""
    found = one.declared(called) or object_method(one, called) if one.is_interface() else in_superclasses(one, called)
    single = defaults(one, called)
    return found or (single if len(single) == 1 else candidates(one, called) + [None])[0]


@functools.cache
def can_override(low, high):
    """§5.4.5."""
    if low.has(PRIVATE) or high.has(PRIVATE):
        return False
    if high.has(PUBLIC | PROTECTED) or low.owner.package == high.owner.package:
        return True
    between = [each for each in superclasses(low.owner)[1:] if each != high.owner and high.owner in superclasses(each)]
    middle = filter(None, (each.declared(low.called, STATIC) for each in between))
    return any(can_override(low, each) and can_override(each, high) for each in middle)


def of_defaults(one, called):
    """What is left where no class has a method: the single default method, else an error (§6.5)."""
    found = defaults(one, called)
    return found[0] if len(found) == 1 else CHANGE_ERROR if found else ABSTRACT_ERROR


@functools.cache
def selected(one, high):
    """§5.4.6, or an error."""
    if high.has(PRIVATE):
        return high
    declared = filter(None, (each.declared(high.called, STATIC) for each in superclasses(one)))
    return next((low for low in declared if can_override(low, high)), None) or of_defaults(one, high.called)


def outcome(found):
    """What comes of a method, or of the error in its place."""
    if isinstance(found, str) or found.has(ABSTRACT):
        return {"throws": found if isinstance(found, str) else ABSTRACT_ERROR}
    return {"run": found.pair()}


def interface_outcome(one, named, high):
    found = selected(one, high) if named in ancestors(one) else CHANGE_ERROR
    return outcome(found if isinstance(found, str) or found.has(PUBLIC | PRIVATE) else ACCESS_ERROR)


def special_outcome(caller, named, called):
    """The search of an invokespecial (§6.5)."""
    start = named
    if called[0] != "<init>" and not named.is_interface() and named in superclasses(caller)[1:]:
        start = caller.superclass
    if start.is_interface():
        return outcome(start.declared(called, STATIC) or object_method(start, called) or of_defaults(start, called))
    return outcome(in_superclasses(start, called, STATIC) or of_defaults(start, called))


# ---- the world: what events leave


class Waits(Exception):
    """A site waits for a class: "named", "callerHost" or "methodHost"."""


class Throws(Exception):
    """Each call of a site throws this throwable."""


class Refused(Exception):
    """The answer to a command that changes nothing."""


def refuse_if(holds, reason, /, **keys):
    if holds:
        raise Refused({"refused": reason, **keys})


def parts_of(target, depth=1):
    """The parts of a target with their depths, a guard before its two."""
    yield target, depth
    if "guard" in target:
        yield from parts_of(target["target"], depth + 1)
        yield from parts_of(target["fallback"], depth + 1)


class World:
    def __init__(self):
        self.records, self.retired, self.classes = [{}], set(), []
        self.places, self.sites, self.bindings = [], {}, {}
        self.call_sites, self.switches, self.batches, self.links = [], [], [], {}

    # -- what there is

    def is_loader(self, loader):
        return loader < len(self.records) and loader not in self.retired

    def loaders(self):
        return [loader for loader in range(len(self.records)) if loader not in self.retired]

    def present(self, number):
        """The class of the number, if there is one and its loader isn't retired."""
        one = self.classes[number] if number is not None and number < len(self.classes) else None
        return one if one and one.loader not in self.retired else None

    def is_concrete(self, one):
        return not one.flags & (INTERFACE | ABSTRACT) and one.loader not in self.retired

    def receivers(self, named):
        return [one for one in self.classes if named in ancestors(one) and self.is_concrete(one)]

    def site(self, number):
        """The class that invokes, and the invocation."""
        one, place, pc = self.places[number]
        return one, one.methods[place].sites[pc]

    def is_in_retired(self, number):
        """Whether the site's class is retired."""
        return self.places[number][0].loader in self.retired

    def is_gone(self, number):
        """Whether that is so, or the call site is released to which it is bound."""
        return self.is_in_retired(number) or number in self.bindings and self.call_sites[self.bindings[number]] is None

    def has_call_site(self, number):
        return number < len(self.call_sites) and self.call_sites[number] is not None

    def has_switch(self, number):
        return number < len(self.switches) and self.switches[number] is not None

    def targets(self):
        """The call sites that there are, each with the parts of its target."""
        return [(number, [part for part, _ in parts_of(each["target"])]) for number, each in enumerate(self.call_sites) if each]

    # -- links

    def host(self, one, what):
        host = one if one.host is None else self.records[one.loader].get(one.host)
        if host is None:
            raise Waits(what)
        return host if host.package == one.package and one.name in host.members else one

    def is_accessible(self, caller, named, found):
        """§5.4.4, of methods."""
        owner = found.owner
        if found.has(PRIVATE):
            return owner == caller or self.host(caller, "callerHost") == self.host(owner, "methodHost")
        if found.has(PUBLIC) or owner.package == caller.package:
            return True
        is_near = found.has(STATIC) or caller in superclasses(named) or named in superclasses(caller)
        return found.has(PROTECTED) and owner in superclasses(caller) and is_near

    def resolved(self, caller, call):
        """The class that an invocation names, and its method (§5.4.3, and what §6.5 has before the receiver)."""
        kind, called = call["kind"], (call["name"], call["type"])
        named = self.records[caller.loader].get(call["of"])
        if named is None:
            raise Waits("named")
        if not named.is_open_to(caller):
            raise Throws(ACCESS_ERROR)
        if named.is_interface() != (kind == "invokeinterface" or call.get("itf", False)):
            raise Throws(CHANGE_ERROR)
        found = found_method(named, called)
        if found and not self.is_accessible(caller, named, found):
            raise Throws(ACCESS_ERROR)
        if not found or called[0] == "<init>" and found.owner != named:
            raise Throws("NoSuchMethodError")
        if found.has(STATIC) != (kind == "invokestatic"):
            raise Throws(CHANGE_ERROR)
        return named, found

    def run_by(self, number):
        """The method that a call site runs."""
        target = self.call_sites[number]["target"]
        while "method" not in target:
            if "invoker" in target:
                target = self.call_sites[target["invoker"]]["target"]
            else:
                target = target["target" if self.switches[target["guard"]] else "fallback"]
        return target["method"]

    def linked(self, number):
        caller, call = self.site(number)
        if call["kind"] == "invokedynamic":
            return {"plain": self.run_by(self.bindings[number])} if number in self.bindings else None
        named, found = self.resolved(caller, call)
        if call["kind"] == "invokestatic":
            return {"plain": found.pair()}
        if call["kind"] == "invokespecial":
            return {"direct": special_outcome(caller, named, found.called)}
        below = self.receivers(named)
        if call["kind"] == "invokeinterface":
            kind, rows = "interface", [[one.number, interface_outcome(one, named, found)] for one in below]
        else:
            kind, rows = "virtual", [[one.number, outcome(selected(one, found))] for one in below]
            if found.has(PRIVATE) or rows and "run" in rows[0][1] and all(row[1] == rows[0][1] for row in rows):
                return {"direct": {"run": found.pair()} if found.has(PRIVATE) else rows[0][1]}
        return {"kind": kind, "table": rows} if len(rows) <= 8 else {"mega": True}

    def link(self, number):
        """The link from scratch, or none."""
        try:
            return None if self.is_gone(number) else self.linked(number)
        except Waits:
            return None
        except Throws as error:
            return {"fault": error.args[0]}

    def settle(self):
        """Drops the installed links that aren't those from scratch any more."""
        gone = [site for site in sorted(self.links) if self.link(site) != self.links[site]]
        for site in gone:
            del self.links[site]
        return gone

    # -- commands that are no events

    def list_links(self):
        return {"links": [list(row) for row in sorted(self.links.items())]}

    def prepare(self, sites):
        refuse_if(not 1 <= len(sites) <= 256, "Prepare.BatchSize")
        for place, site in enumerate(sites):
            refuse_if(site >= len(self.places), "Prepare.UnknownSite", site=site)
            refuse_if(site in sites[:place], "Prepare.Repeated", site=site)
        rows = [[site, self.link(site)] for site in sites]
        for site, link in rows:
            refuse_if(link is None, "Prepare.NotReady", site=site)
        self.batches.append(rows)
        return {"prepared": len(self.batches) - 1, "rows": rows}

    def call(self, site, recv=None):
        if site >= len(self.places) or self.is_gone(site):
            return {"unlinked": "NoSite" if site >= len(self.places) else "Gone"}
        caller, call = self.site(site)
        if call["kind"] == "invokedynamic":
            return {"run": self.run_by(self.bindings[site])} if site in self.bindings else {"unlinked": "Unbound"}
        try:
            return self.come_to(caller, call, recv)
        except Waits as wait:
            return {"unlinked": "NotReady", "wants": wait.args[0]}
        except Throws as error:
            return {"throws": error.args[0]}

    def come_to(self, caller, call, recv):
        """What an invocation comes to. A receiver is an object, and of an invokevirtual one of the class that is named."""
        named, found = self.resolved(caller, call)
        if call["kind"] == "invokestatic":
            return {"run": found.pair()}
        if recv is None:
            raise Throws("NullPointerException")
        one = self.present(recv)
        refuse_if(one is None or not self.is_concrete(one), "BadReceiver")
        if call["kind"] == "invokespecial":
            return special_outcome(caller, named, found.called)
        if call["kind"] == "invokeinterface":
            return interface_outcome(one, named, found)
        refuse_if(named not in ancestors(one), "BadReceiver")
        return outcome(selected(one, found))

    # -- events

    def loader(self):
        refuse_if(len(self.records) == LOADERS, "LoadersFull")
        self.records.append({})
        return {"loader": len(self.records) - 1}

    def define(self, loader, **file):
        (form, said), = file.items()
        if text_of(said) in FAULTS:
            raise Refused(FAULTS[text_of(said)])
        said = FILES[said] if form == "hex" else said
        name, superclass, interfaces = said["name"], said.get("super"), said.get("interfaces", [])
        refuse_if(not self.is_loader(loader), "Define.UnknownLoader")
        refuse_if(name == OBJECT and loader != 0, "Define.SecondObject")
        records, upward = self.records[loader], [superclass] * (superclass is not None) + interfaces
        refuse_if(name in records, "Define.AlreadyRecorded")
        refuse_if(name in upward, "Define.NamesItself")
        for parent in upward:
            refuse_if(parent not in records, "Define.MissingParent", name=parent)
        one = Class(len(self.classes), loader, said, records.get(superclass), [records[each] for each in interfaces])
        refuse_if(one.superclass and one.superclass.is_interface(), "Define.SuperIsInterface")
        refuse_if(one.superclass and one.superclass.flags & FINAL, "Define.FinalSuper")
        for parent in one.interfaces:
            refuse_if(not parent.is_interface(), "Define.NotAnInterface", name=parent.name)
        for parent in one.parents:
            refuse_if(not parent.is_open_to(one), "Define.InaccessibleParent", name=parent.name)
        refuse_if(len(self.classes) == MANY, "Define.Full")
        self.classes.append(one)
        records[name] = one
        return {"class": one.number}

    def delegate(self, loader, name, to):
        refuse_if(not self.is_loader(loader) or not self.is_loader(to), "Delegate.UnknownLoader")
        refuse_if(name not in self.records[to], "Delegate.NotRecorded")
        refuse_if(name in self.records[loader], "Delegate.AlreadyRecorded")
        self.records[loader][name] = self.records[to][name]
        return {}

    def test_retirement(self, loader, going, **told):
        """Refuses that the loader goes, where all of these go at once."""
        refuse_if(not self.is_loader(loader), "Retire.UnknownLoader", **told)
        refuse_if(loader == 0, "Retire.FirstLoader", **told)
        staying = [other for other in self.loaders() if other not in going]
        for one in self.classes:
            above = [each.loader for each in ancestors(one)]
            refuse_if(one.loader in staying and loader in above, "Retire.Inherited", **{"class": one.number}, **told)
        for other in staying:
            found = [one.loader for one in self.records[other].values()]
            refuse_if(loader in found, "Retire.Recorded", loader=other, **told)
        for number, parts in self.targets():
            named = [self.classes[part["method"][0]].loader for part in parts if "method" in part]
            refuse_if(loader in named, "Retire.Targeted", callsite=number, **told)

    def may_go(self, loader):
        """Whether it may be retired alone."""
        try:
            self.test_retirement(loader, [loader])
        except Refused:
            return False
        return True

    def go(self, loaders):
        for loader in loaders:
            self.retired.add(loader)
            self.records[loader] = {}
        return {}

    def retire(self, loader):
        self.test_retirement(loader, [loader])
        return self.go([loader])

    def retire_all(self, loaders):
        for loader in loaders:
            self.test_retirement(loader, loaders, retire=loader)
        return self.go(loaders)

    def release(self, callsites, switches):
        for number in callsites:
            refuse_if(not self.has_call_site(number), "Release.UnknownCallSite", callsite=number)
        for number in switches:
            refuse_if(not self.has_switch(number), "Release.UnknownSwitch", switch=number)
        staying = [(number, parts) for number, parts in self.targets() if number not in callsites]
        for number, parts in staying:
            refuse_if(any(part.get("invoker") in callsites for part in parts), "Release.Invoked", callsite=number)
        for number, parts in staying:
            refuse_if(any(part.get("guard") in switches for part in parts), "Release.Guarded", callsite=number)
        for number in callsites:
            self.call_sites[number] = None
        for number in switches:
            self.switches[number] = None
        return {}

    def naming(self, callsites, switches):
        """The other call sites whose targets name one of these, or one of those."""
        going = set(callsites)
        for number, parts in self.targets():
            if any(part.get("invoker") in going or part.get("guard") in switches for part in parts):
                going.add(number)
        return sorted(going - set(callsites))

    def request(self, method, pc, **keys):
        one = self.present(keys["class"])
        refuse_if(one is None, "UnknownClass")
        refuse_if(method >= len(one.methods) or pc not in one.methods[method].sites, "NoSuchPlace")
        owner = one.methods[method].sites[pc].get("of", "")
        refuse_if(owner.startswith("["), "NotLinkable.ArrayReceiver")
        refuse_if(owner in HANDLES, "NotLinkable.PolymorphicSignature")
        place = one, method, pc
        if place not in self.sites:
            refuse_if(len(self.places) == MANY, "SitesFull")
            self.sites[place] = len(self.places)
            self.places.append(place)
        return {"site": self.sites[place]}

    def test_target(self, target, own, type):
        """Refuses a target of the call site of this number and type."""
        parts = list(parts_of(target))
        refuse_if(len(parts) > 255 or any(depth > 64 for _, depth in parts), "CallSite.TooDeep")
        for part, _ in parts:
            if "guard" in part:
                refuse_if(not self.has_switch(part["guard"]), "CallSite.UnknownSwitch")
            elif "invoker" in part:
                refuse_if(part["invoker"] >= own, "CallSite.InvokerOrder", callsite=part["invoker"])
                refuse_if(not self.has_call_site(part["invoker"]), "CallSite.UnknownCallSite")
                refuse_if(self.call_sites[part["invoker"]]["type"] != type, "CallSite.WrongType")
            else:
                self.test_method(self.present(part["method"][0]), part["method"][1], type)

    def test_method(self, one, place, type):
        refuse_if(one is None or place >= len(one.methods), "CallSite.UnknownMethod")
        refuse_if(one.methods[place].called[0].startswith("<"), "CallSite.UnknownMethod")
        refuse_if(not one.methods[place].has(STATIC), "CallSite.NotStatic")
        refuse_if(one.methods[place].called[1] != type, "CallSite.WrongType")

    def callsite(self, **keys):
        refuse_if(len(self.call_sites) == MANY, "CallSite.Full")
        self.test_target(keys["target"], len(self.call_sites), keys["type"])
        self.call_sites.append(keys)
        return {"callsite": len(self.call_sites) - 1}

    def target(self, callsite, target):
        refuse_if(not self.has_call_site(callsite), "CallSite.UnknownCallSite")
        refuse_if(self.call_sites[callsite]["kind"] == "constant", "CallSite.Constant")
        self.test_target(target, callsite, self.call_sites[callsite]["type"])
        self.call_sites[callsite] = {**self.call_sites[callsite], "target": target}
        return {}

    def switch(self):
        refuse_if(len(self.switches) == MANY, "CallSite.Full")
        self.switches.append(True)
        return {"switch": len(self.switches) - 1}

    def invalidate(self, switches):
        refuse_if(not all(map(self.has_switch, switches)), "CallSite.UnknownSwitch")
        for number in switches:
            self.switches[number] = False
        return {}

    def bind(self, site, callsite):
        refuse_if(site >= len(self.places) or self.is_in_retired(site), "UnknownSite", site=site)
        refuse_if(self.site(site)[1]["kind"] != "invokedynamic", "NotDynamic")
        refuse_if(site in self.bindings, "AlreadyBound", callsite=self.bindings.get(site))
        refuse_if(not self.has_call_site(callsite), "CallSite.UnknownCallSite")
        refuse_if(self.call_sites[callsite]["type"] != self.site(site)[1]["type"], "TypeMismatch")
        self.bindings[site] = callsite
        return {}

    def install(self, prepared):
        if prepared >= len(self.batches):
            raise Refused({"error": "BadCommand"})
        for site, link in self.batches[prepared]:
            present = self.link(site)
            refuse_if(present is None, "NotReady", site=site)
            refuse_if(present != link, "Stale", site=site, present=present)
        self.links.update(map(tuple, self.batches[prepared]))
        return {}

    def answer(self, line):
        """What the line is answered: a command, or a text that is none."""
        if isinstance(line, str):
            return {"error": "BadCommand"}
        keys = {key: value for key, value in line.items() if key != "do"}
        if line["do"] == "links":
            return self.list_links()
        try:
            made = getattr(self, line["do"])(**keys)
        except Refused as why:
            return why.args[0]
        return made if line["do"] in ("prepare", "call") else {**made, "dropped": self.settle()}


# ---- worlds that are known by hand


def define(loader, name, superclass=OBJECT, methods=()):
    return {"do": "define", "loader": loader, "sketch": sketch(name, PUBLIC | 32, superclass, methods)}


def find(loader, name, of):
    return {"do": "delegate", "loader": loader, "name": name, "to": of}


def together(*loaders):
    return {"do": "retire_all", "loaders": list(loaders)}


def release(callsites, switches=()):
    return {"do": "release", "callsites": list(callsites), "switches": list(switches)}


def calling(name):
    return [method("run", PUBLIC | STATIC, [invoke("virtual", name, "f")])]


# Loaders 1 and 2 find Object and A in loader 0, C 2 stands in loader 1, and E 3 below C in loader 2.
BELOW = [
    define(0, OBJECT, None), define(0, "A", methods=[method("f", PUBLIC)]), {"do": "loader"}, {"do": "loader"},
    *(find(loader, name, 0) for loader in (1, 2) for name in (OBJECT, "A")),
    define(1, "C", "A", [method("f", PUBLIC), method("s", PUBLIC | STATIC), *calling("A")]), find(2, "C", 1),
    define(2, "E", "C", calling("A")),
]
# Loader 1 finds E, too.
OF_EACH_OTHER = [*BELOW, find(1, "E", 2)]
# M 4 of loader 0 calls A.f at site 0, C at site 1, E at site 2.
CALLED = [
    *OF_EACH_OTHER, define(0, "M", methods=calling("A")),
    *({"do": "request", "class": one, "method": place, "pc": 0} for one, place in ((4, 0), (2, 2), (3, 0))),
    {"do": "prepare", "sites": [0, 1, 2]}, {"do": "install", "prepared": 0},
]
# Loader 3 finds C, too.
HELD = [*OF_EACH_OTHER, {"do": "loader"}, find(3, "C", 1)]
# A call site runs C.s on a side that isn't taken.
TARGETED = [
    *OF_EACH_OTHER, define(0, "T", methods=[method("s", PUBLIC | STATIC)]), {"do": "switch"},
    {"do": "callsite", "kind": "mutable", "type": VOID, "target": {"guard": 0, "target": {"method": [4, 0]}, "fallback": {"method": [2, 1]}}},
]
# The call site 1 invokes that one, and is bound to the installed site 0 of U 5.
INVOKED = [
    *TARGETED, {"do": "callsite", "kind": "constant", "type": VOID, "target": {"invoker": 0}},
    define(0, "U", methods=[method("r", PUBLIC | STATIC, [invoke("dynamic", None, "d")])]),
    {"do": "request", "class": 5, "method": 0, "pc": 0}, {"do": "bind", "site": 0, "callsite": 1},
    {"do": "prepare", "sites": [0]}, {"do": "install", "prepared": 0},
]
UNKNOWN, FIRST = {"refused": "Retire.UnknownLoader"}, {"refused": "Retire.FirstLoader"}
INHERITED, RECORDED = {"refused": "Retire.Inherited", "class": 3}, {"refused": "Retire.Recorded", "loader": 3}
GOES = {"dropped": []}
WORKED = [
    (BELOW, together(), GOES),
    (BELOW, together(1), {**INHERITED, "retire": 1}),
    (BELOW, together(2), GOES),
    (BELOW, together(1, 2), GOES),
    (OF_EACH_OTHER, {"do": "retire", "loader": 1}, INHERITED),
    (OF_EACH_OTHER, {"do": "retire", "loader": 2}, {**RECORDED, "loader": 1}),
    (OF_EACH_OTHER, together(1), {**INHERITED, "retire": 1}),
    (OF_EACH_OTHER, together(2, 2), {**RECORDED, "loader": 1, "retire": 2}),
    (OF_EACH_OTHER, together(1, 2), GOES),
    (OF_EACH_OTHER, together(2, 1), GOES),
    (OF_EACH_OTHER, together(2, 1, 2), GOES),
    (OF_EACH_OTHER, together(1, 2, 3), {**UNKNOWN, "retire": 3}),
    (OF_EACH_OTHER, together(3, 0), {**UNKNOWN, "retire": 3}),
    (OF_EACH_OTHER, together(0, 3), {**FIRST, "retire": 0}),
    (OF_EACH_OTHER, together(1, 0), {**INHERITED, "retire": 1}),
    (HELD, together(1, 2), {**RECORDED, "retire": 1}),
    (HELD, together(2, 1), {**RECORDED, "retire": 1}),
    (HELD, together(3, 1), {**INHERITED, "retire": 1}),
    (HELD, together(1, 2, 3), GOES),
    (CALLED, together(1, 2), {"dropped": [0, 1, 2]}),
    (CALLED, together(2, 1), {"dropped": [0, 1, 2]}),
    (TARGETED, together(2, 1), {"refused": "Retire.Targeted", "callsite": 0, "retire": 1}),
    (INVOKED, release([]), GOES),
    (INVOKED, release([0]), {"refused": "Release.Invoked", "callsite": 1}),
    (INVOKED, release([0], [0]), {"refused": "Release.Invoked", "callsite": 1}),
    (INVOKED, release([1], [0]), {"refused": "Release.Guarded", "callsite": 0}),
    (INVOKED, release([0, 7, 8], [9]), {"refused": "Release.UnknownCallSite", "callsite": 7}),
    (INVOKED, release([0], [0, 9]), {"refused": "Release.UnknownSwitch", "switch": 9}),
    (INVOKED, release([1]), {"dropped": [0]}),
    (INVOKED, release([0, 1, 0], [0]), {"dropped": [0]}),
]
# What is left of the pair.
LEFT = [
    (find(2, "A", 0), {"refused": "Delegate.UnknownLoader"}),
    (together(2), {**UNKNOWN, "retire": 2}),
    (together(2, 1), {**UNKNOWN, "retire": 2}),
    ({"do": "links"}, {"links": []}),
    *(({"do": "call", "site": site, "recv": 1}, {"unlinked": "Gone"}) for site in (1, 2)),
    ({"do": "call", "site": 0, "recv": 1}, {"run": [1, 0]}),
    ({"do": "call", "site": 0, "recv": 3}, {"refused": "BadReceiver"}),
    ({"do": "prepare", "sites": [0]}, {"prepared": 1, "rows": [[0, {"direct": {"run": [1, 0]}}]]}),
    ({"do": "loader"}, {"dropped": [], "loader": 3}),
]
# What is left of both call sites.
LEFT_OF_CALL_SITES = [
    ({"do": "call", "site": 0}, {"unlinked": "Gone"}),
    ({"do": "bind", "site": 0, "callsite": 0}, {"refused": "AlreadyBound", "callsite": 1}),
    ({"do": "target", "callsite": 0, "target": {"method": [4, 0]}}, {"refused": "CallSite.UnknownCallSite"}),
    ({"do": "callsite", "kind": "mutable", "type": VOID, "target": {"invoker": 1}}, {"refused": "CallSite.UnknownCallSite"}),
    ({"do": "invalidate", "switches": [0]}, {"refused": "CallSite.UnknownSwitch"}),
    (release([1]), {"refused": "Release.UnknownCallSite", "callsite": 1}),
    (together(1, 2), GOES),
    ({"do": "callsite", "kind": "mutable", "type": VOID, "target": {"method": [4, 0]}}, {"callsite": 2, "dropped": []}),
    ({"do": "switch"}, {"dropped": [], "switch": 1}),
]


def world_after(lines):
    world = World()
    for line in lines:
        answer = world.answer(line)
        assert "refused" not in answer and "error" not in answer, (line, answer)
    return world


def seen(world):
    there = [world.call_sites, world.switches, len(world.classes), len(world.places)]
    return [world.list_links(), world.loaders(), [sorted(each) for each in world.records], *map(str, there)]


def main():
    for lines, line, answer in WORKED:
        world = world_after(lines)
        before, came = seen(world), world.answer(line)
        assert came == answer, (line, came, answer)
        assert "refused" not in answer or seen(world) == before, line
    for lines, left in (([*CALLED, together(2, 1)], LEFT), ([*INVOKED, release([1, 0], [0])], LEFT_OF_CALL_SITES)):
        world = world_after(lines)
        for line, answer in left:
            assert world.answer(line) == answer, (line, answer)
    print(f"{len(WORKED) + len(LEFT) + len(LEFT_OF_CALL_SITES)} answers are as known by hand")


if __name__ == "__main__":
    main()
