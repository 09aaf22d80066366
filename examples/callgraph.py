#!/usr/bin/env python3
"""Makes a call graph of a report: a line `caller -> callee` for each pair, then a line for each other method that is declared.

    tools/classes.py app app.jar
    tools/classes.py jdk --jdk
    linkd report --json --classes --all-receivers app --with jdk | examples/callgraph.py > graph
    linkd report --json --classes --all-receivers app jdk > report
    examples/callgraph.py --from jvm --from Main.main --files app --files jdk < report > reachable

A method is its class, its name and its descriptor: java/lang/Object.hashCode()I. What the graph hasn't is told on standard error.

    --from CLASS.METHOD     what is reachable from all methods of this name, or from the one whose descriptor stands after it
    --from public           from all public methods of all public classes that are reported
    --from public:PREFIX    from those of the classes whose names begin so, as org/apache/tools/
    --from jvm              from what HotSpot 17 calls by itself of whatever program: JVM_CALLS, as far as it is reported
    --methods               the reachable methods, one a line, sorted, and no pairs
    --files FOLDER          a folder that was reported: its class files say whose fields are used and what invokedynamics name

There may be several --from, and several --files, of which the first counts that has a class. The status is 2 where a --from names nothing.

What is reachable is a rapid type analysis: reachable methods and made classes grow until nothing changes. Each row of a reachable method is
followed.

    A direct row's method is reachable.
    A receiver's method in a table is reachable once its class is made.
    A megamorphic row's method in `runs` is reachable once a class is made that is below the row's class and below the method's, or is it.
    So a row reaches no method that the report doesn't name there.

    A class is made by an invokespecial of its `<init>`. A constructor's own `this(..)` or `super(..)` makes none: that is its only call
    of a constructor of its class or its superclass. Where a constructor has several such calls, each is taken as making its class.
    A root that isn't static makes its class, unless that is abstract. It is called on all made objects below its class: look-up.
    An invokedynamic that gives objects makes the class or interface of its type: the objects have what is inherited from it.
    A class that isn't reported is taken as made. A made class below one that isn't reported is taken as below any class.

Without a row these are reachable:

    `<clinit>` of each class of which a method is reachable, and of each class and interface above it.
    With --files `<clinit>` of the classes whose fields the files of such classes name, and of those above them.
    On made objects JVM_CALLS_ON_OBJECTS: `run()V` of threads and Runnables, finalizers, `loadClass` of loaders: look-up.
    The constructors of JVM_THROWS, which a JVM throws by itself. They are made, and so are the classes of JVM_MAKES.
    With --files what invokedynamics name: their bootstrap methods, and the methods among the arguments of these: look-up.
    At rows that are marked as having receivers made by an invokedynamic, methods that those have from the interface: look-up.
    At rows that are never linked, java/lang/Object's method where they name an array, else that of MethodHandle or VarHandle: look-up.

At a look-up the script finds methods by itself, by name and type: in the class that is named, above it, and in and above the made classes
below it. No proof says that these are the ones.

Without --files what invokedynamics make isn't followed, and a class that is used by its fields alone isn't initialized. Never followed
are reflection, calls and objects of native code, what other method handles run, and what a class that isn't reported calls: so report the
JDK, too. For the counts the graph is made a second time, in which each receiver counts, made or not.
"""

import argparse
import collections
import json
import os
import re
import struct
import sys

# What stands among the classes above one that has a class above it that isn't reported.
UNKNOWN = "?"

# What the JVM calls by itself, as soon as an object of the class or below it is made.
JVM_CALLS_ON_OBJECTS = (
    ("java/lang/Thread", "run()V"),
    ("java/lang/Runnable", "run()V"),
    ("java/lang/Object", "finalize()V"),
    ("java/lang/ClassLoader", "loadClass(Ljava/lang/String;)Ljava/lang/Class;"),
)

# Classes of which the JVM makes objects without a constructor.
JVM_MAKES = (
    *("java/lang/" + name for name in "Class String Boolean Byte Character Double Float Integer Long Short StackTraceElement".split()),
    *("java/lang/reflect/" + name for name in "Constructor Field Method Parameter RecordComponent".split()),
)

# Classes that the JVM throws by itself, in java/lang.
JVM_THROWS = tuple(
    "java/lang/" + name
    for name in """AbstractMethodError ArithmeticException ArrayIndexOutOfBoundsException ArrayStoreException BootstrapMethodError
    ClassCastException ClassCircularityError ClassFormatError ClassNotFoundException CloneNotSupportedException ExceptionInInitializerError
    IllegalAccessError IllegalMonitorStateException IncompatibleClassChangeError InstantiationError InstantiationException InternalError
    InterruptedException LinkageError NegativeArraySizeException NoClassDefFoundError NoSuchFieldError NoSuchMethodError
    NullPointerException OutOfMemoryError StackOverflowError UnsatisfiedLinkError UnsupportedClassVersionError VerifyError""".split()
)

# What HotSpot 17 and its launcher call by themselves, of whatever program.
JVM_CALLS = (
    "java/lang/ClassLoader.addClass",
    "java/lang/ClassLoader.findNative",
    "java/lang/ClassLoader.getPlatformClassLoader",
    "java/lang/ClassLoader.getSystemClassLoader",
    "java/lang/Shutdown.shutdown",
    "java/lang/System.initPhase1",
    "java/lang/System.initPhase2",
    "java/lang/System.initPhase3",
    "java/lang/Thread.<init>(Ljava/lang/ThreadGroup;Ljava/lang/String;)V",
    "java/lang/Thread.<init>(Ljava/lang/ThreadGroup;Ljava/lang/Runnable;)V",
    "java/lang/Thread.dispatchUncaughtException",
    "java/lang/Thread.exit",
    "java/lang/ThreadGroup.<init>()V",
    "java/lang/ThreadGroup.<init>(Ljava/lang/ThreadGroup;Ljava/lang/String;)V",
    "java/lang/ThreadGroup.add(Ljava/lang/Thread;)V",
    "java/lang/invoke/MethodHandleNatives.findMethodHandleType",
    "java/lang/invoke/MethodHandleNatives.linkCallSite",
    "java/lang/invoke/MethodHandleNatives.linkDynamicConstant",
    "java/lang/invoke/MethodHandleNatives.linkMethod",
    "java/lang/invoke/MethodHandleNatives.linkMethodHandleConstant",
    "java/lang/ref/Finalizer.register",
    "java/nio/DirectByteBuffer.<init>(JI)V",
    "jdk/internal/loader/NativeLibraries.getFromClass",
    "jdk/internal/misc/Signal.dispatch",
    "sun/launcher/LauncherHelper.checkAndLoadMain",
    "sun/launcher/LauncherHelper.getApplicationClass",
    "sun/launcher/LauncherHelper.makePlatformString",
)

ACC_PUBLIC, ACC_STATIC, ACC_ABSTRACT = 0x1, 0x8, 0x400
REF_INVOKE_VIRTUAL, REF_INVOKE_STATIC, REF_NEW_INVOKE_SPECIAL = 5, 6, 8


def tell(text):
    print(text, file=sys.stderr)


def class_of(method):
    """The class of a method, which has no dot in its name."""
    return method.partition(".")[0]


def receivers_run(row):
    """The class whose method runs for each receiver of a table: none where each call throws."""
    return {name: outcome["run"] for name, outcome in row.get("link", {}).get("table", []) if "run" in outcome}


def classes_run_always(row):
    """The classes whose method an invocation runs whatever the receiver."""
    link = row.get("link", {})
    plain = [link["plain"]] if "plain" in link else []
    return plain + [outcome for key, outcome in link.get("direct", {}).items() if key == "run"]


def classes_run(row):
    """The classes whose method an invocation may run: none where it has no link, or each call throws."""
    return classes_run_always(row) + list(receivers_run(row).values()) + row.get("runs", [])


def refused_handle(row):
    """A row that is never linked, as a method handle is told: arrays have java/lang/Object's methods."""
    rest = row["name"] + row["type"]
    if row["of"].startswith("["):
        return REF_INVOKE_STATIC, "java/lang/Object", rest
    return REF_INVOKE_VIRTUAL if row["kind"] == "invokevirtual" else REF_INVOKE_STATIC, row["of"], rest


def count_missing(missing, row):
    """Counts what the graph hasn't by this row."""
    missing["invokedynamics, whose call sites a running program binds"] += row["kind"] == "invokedynamic"
    missing["rows that wait for a class"] += row.get("unlinked") == "NotReady"
    missing["rows where an invokedynamic may make further receivers"] += row.get("made", False)
    missing["megamorphic rows whose methods --all-receivers would name"] += "mega" in row.get("link", {}) and "runs" not in row
    missing["rows that are never linked, of arrays, MethodHandle and VarHandle"] += "refused" in row


def print_whole(rows):
    """The graph of all rows."""
    declared, edges, missing = [], {}, collections.Counter()
    for row in rows:
        if "declares" in row:
            declared += [f"{row['class']}.{method['name']}{method['type']}" for method in row["declares"]]
        elif "pc" in row:
            caller = f"{row['class']}.{row['method']}{row['methodType']}"
            edges.update(dict.fromkeys((caller, f"{name}.{row['name']}{row['type']}") for name in classes_run(row)))
            count_missing(missing, row)
        missing["files that are left out"] += row.get("leftOut", 0)
    print_graph(edges, declared)
    for what, count in missing.items():
        tell(f"{count} {what}")
    tell("never there: what runs by initialization, reflection, native code and the JVM itself")


def print_graph(edges, methods):
    """A line for each edge, and one for each method that is an end of none."""
    ends = {end for edge in edges for end in edge}
    for edge in edges:
        print(*edge, sep=" -> ")
    for method in dict.fromkeys(methods):
        if method not in ends:
            print(method)


class Choice:
    """What a call runs by the class of its object. `methods` are by that class in a table, else by the class that declares them."""

    def __init__(self, of, methods, is_table):
        self.of, self.methods, self.is_table = of, methods, is_table

    def picks(self, receiver, above):
        """The methods that count for a made class, which has these classes as itself and above it."""
        if self.is_table:
            return [self.methods[receiver]] if receiver in self.methods else []
        if self.of not in above and UNKNOWN not in above:
            return []
        return [self.methods[name] for name in above if name in self.methods]


class Body:
    """What the rows of a method say: what it calls, and which classes it makes."""

    def __init__(self):
        self.callees, self.choices, self.makes, self.marked, self.refused = {}, {}, {}, {}, {}
        self.constructors, self.bootstraps, self.missing = [], [], collections.Counter()

    def close(self, own):
        """Takes all constructors that are called as making their classes, but in a constructor the only one of the classes `own`."""
        chained = [made for made in self.constructors if made in own]
        self.makes.update((made, None) for made in self.constructors if len(chained) != 1 or made not in own)


class Report:
    """The classes, methods and rows of a report."""

    def __init__(self, rows):
        self.parents, self.class_flags, self.flags, self.bodies, self.own = {}, {}, {}, {}, {}
        self.left_out, self.shared, self.looked_up, self.kept_above = 0, {}, {}, {}
        for row in rows:
            if "declares" in row:
                self.add_class(row)
            elif "pc" in row:
                self.add_row(row)
            self.left_out += row.get("leftOut", 0)
        for method, body in self.bodies.items():
            name = class_of(method)
            body.close([name, *self.parents.get(name, [])[:1]] if method.startswith(f"{name}.<init>(") else [])
        self.declaring = collections.defaultdict(dict)
        for method, flags in self.flags.items():
            name, _, rest = method.partition(".")
            if not flags & ACC_ABSTRACT:
                self.declaring[rest][name] = method

    def add_class(self, row):
        name = row["class"]
        self.parents[name] = [row["super"], *row["interfaces"]] if "super" in row else []
        self.class_flags[name] = row["flags"]
        self.own[name] = {f"{name}.{method['name']}{method['type']}": method["flags"] for method in row["declares"]}
        self.flags.update(self.own[name])

    def add_row(self, row):
        body = self.bodies.setdefault(f"{row['class']}.{row['method']}{row['methodType']}", Body())
        rest = f"{row['name']}{row['type']}"
        always = classes_run_always(row)
        body.callees.update((f"{name}.{rest}", None) for name in always)
        if row["kind"] == "invokespecial" and row["name"] == "<init>":
            body.constructors += always
        if row["kind"] == "invokedynamic":
            body.bootstraps.append(row["bootstrap"])
            body.makes.update((name, None) for name in re.findall(r"\)L(.*);", row["type"]))
        if row.get("made"):
            body.marked[row["of"], rest] = None
        if "refused" in row:
            body.refused[refused_handle(row)] = None
        for methods, is_table in ((receivers_run(row), True), (dict(zip(row.get("runs", []), row.get("runs", []))), False)):
            if methods:
                body.choices[self.choice(row["of"], rest, methods, is_table)] = None
        count_missing(body.missing, row)

    def choice(self, of, rest, methods, is_table):
        """The choice of such rows, which is one for all that are alike."""
        key = of, rest, is_table, tuple(methods.items())
        if key not in self.shared:
            self.shared[key] = Choice(of, {name: f"{run}.{rest}" for name, run in methods.items()}, is_table)
        return self.shared[key]

    def above(self, name):
        """The class itself and the classes and interfaces above it, with UNKNOWN where one of them isn't reported."""
        if name not in self.kept_above:
            found, waiting = {}, [name]
            while waiting:
                one = waiting.pop()
                if one not in found:
                    found[one] = None
                    waiting += self.parents.get(one, [UNKNOWN] if one != UNKNOWN else [])
            self.kept_above[name] = list(found)
        return self.kept_above[name]

    def roots(self, word):
        """The methods that a --from names."""
        if word == "jvm":
            return [method for call in JVM_CALLS for method in self.named(call)]
        if word == "public" or word.startswith("public:"):
            prefix = word[len("public:") :].replace(".", "/")
            return [method for method in self.flags if class_of(method).startswith(prefix) and self.is_public(method)]
        return self.named(word)

    def named(self, word):
        """The methods of this class and name, or the one that has this descriptor, too."""
        name, bracket, type_ = word.partition("(")
        of, _, name = name.rpartition(".")
        of = of.replace(".", "/")
        start = f"{of}.{name}("
        return [method for method in self.own.get(of, ()) if method.startswith(start) and (not bracket or method == start + type_)]

    def is_public(self, method):
        return bool(self.flags[method] & self.class_flags[class_of(method)] & ACC_PUBLIC)

    def look_up(self, of, rest):
        """What may run on an object of this class or below it, by a look-up of this script's own."""
        if (of, rest) not in self.looked_up:
            self.looked_up[of, rest] = Choice(of, self.declaring.get(rest, {}), is_table=False)
        return self.looked_up[of, rest]


# How many bytes an entry of a constant pool has after its tag, but for CONSTANT_Utf8.
POOL_LENGTHS = {3: 4, 4: 4, 5: 8, 6: 8, 7: 2, 8: 2, 9: 4, 10: 4, 11: 4, 12: 4, 15: 3, 16: 2, 17: 4, 18: 4, 19: 2, 20: 2}


class ClassFile:
    """What is read of a class file: the classes whose fields it names, and the method handles of each of its bootstrap methods."""

    def __init__(self, text):
        self.text, self.pool = text, {}
        at = self.read_pool()
        self.field_classes = dict.fromkeys(self.name(index) for tag, (index, _) in self.references() if tag == 9)
        self.bootstraps = self.read_bootstraps(self.skip_members(at))

    def number(self, at):
        return self.text[at] << 8 | self.text[at + 1]

    def read_pool(self):
        """Keeps where each entry stands, and gives where the pool ends."""
        at, index = 10, 1
        while index < self.number(8):
            self.pool[index], tag = at, self.text[at]
            at += 1 + (2 + self.number(at + 1) if tag == 1 else POOL_LENGTHS[tag])
            index += 2 if tag in (5, 6) else 1
        return at

    def pair(self, index):
        """The two numbers of an entry that has two."""
        return self.number(self.pool[index] + 1), self.number(self.pool[index] + 3)

    def references(self):
        """The tag and the two numbers of each field and method that the pool names."""
        return [(self.text[at], self.pair(index)) for index, at in self.pool.items() if self.text[at] in (9, 10, 11)]

    def utf8(self, index):
        at = self.pool[index]
        return self.text[at + 3 : at + 3 + self.number(at + 1)].decode("utf-8", "surrogatepass")

    def name(self, index):
        """The name of a class."""
        return self.utf8(self.number(self.pool[index] + 1))

    def handle(self, index):
        """The kind of a method handle, the class that it names, and the name and the type that it names."""
        at = self.pool[index]
        of, name_and_type = self.pair(self.number(at + 2))
        name, type_ = self.pair(name_and_type)
        return self.text[at + 1], self.name(of), self.utf8(name) + self.utf8(type_)

    def skip_attributes(self, at):
        for _ in range(self.number(at)):
            at += 6 + struct.unpack_from(">I", self.text, at + 4)[0]
        return at + 2

    def skip_members(self, at):
        """Where the attributes of the class begin, after its interfaces, fields and methods."""
        at += 8 + 2 * self.number(at + 6)
        for _ in ("fields", "methods"):
            count = self.number(at)
            at += 2
            for _ in range(count):
                at = self.skip_attributes(at + 6)
        return at

    def read_bootstraps(self, at):
        """The method handles of each bootstrap method: its own, and those among its arguments."""
        for _ in range(self.number(at)):
            if self.utf8(self.number(at + 2)) == "BootstrapMethods":
                return self.read_entries(at + 8)
            at += 6 + struct.unpack_from(">I", self.text, at + 4)[0]
        return []

    def read_entries(self, at):
        entries, count = [], self.number(at)
        at += 2
        for _ in range(count):
            words = 2 + self.number(at + 2)
            indexes = [self.number(at)] + [self.number(at + 2 * word) for word in range(2, words)]
            entries.append(indexes)
            at += 2 * words
        return [self.handles(entries, number, set()) for number in range(count)]

    def handles(self, entries, number, met):
        """The method handles of an entry, and of the entries of the dynamic constants among its arguments."""
        if number in met:
            return []
        met.add(number)
        found = []
        for index in entries[number]:
            if self.text[self.pool[index]] == 15:
                found.append(self.handle(index))
            elif self.text[self.pool[index]] == 17:
                found += self.handles(entries, self.pair(index)[0], met)
        return found


class Files:
    """The class files of some folders, each read once, when it is wanted."""

    def __init__(self, folders):
        self.folders, self.kept = folders, {}

    def get(self, name):
        """The file of a class; None where there is none."""
        if name not in self.kept:
            paths = (os.path.join(folder, name + ".class") for folder in self.folders)
            path = next((path for path in paths if os.path.isfile(path)), None)
            self.kept[name] = None
            if path is not None:
                with open(path, "rb") as file:
                    self.kept[name] = ClassFile(file.read())
        return self.kept[name]


class Reachable:
    """The methods that are reachable and the classes that are made; each receiver counts unless `is_restricted`."""

    def __init__(self, report, files, roots, is_restricted):
        self.report, self.files, self.is_restricted = report, files, is_restricted
        self.methods, self.made, self.initialized, self.waiting = {}, {}, set(), []
        self.watching, self.chosen = collections.defaultdict(list), {}
        self.further = collections.defaultdict(dict)
        self.start(roots)
        while self.waiting:
            self.follow(self.waiting.pop())

    def start(self, roots):
        """What is reachable without a row: the roots, and what the JVM does by itself."""
        for of, rest in JVM_CALLS_ON_OBJECTS:
            self.open_looked_up(of, rest)
        for name in JVM_MAKES + JVM_THROWS:
            if name in self.report.parents:
                self.make(name)
        for name in JVM_THROWS:
            for method in self.report.named(f"{name}.<init>"):
                self.add(method)
        for method in roots:
            self.add(method)
            if not self.report.flags[method] & ACC_STATIC:
                self.start_on_objects(*method.partition(".")[::2])

    def start_on_objects(self, of, rest):
        """A root is called on objects of its class and below it."""
        if not self.report.class_flags[of] & ACC_ABSTRACT:
            self.make(of)
        if not rest.startswith("<init>("):
            self.open_looked_up(of, rest)

    def add(self, method):
        """The method is reachable."""
        if method not in self.methods:
            self.methods[method] = None
            self.waiting.append(method)

    def make(self, name):
        """The class is made."""
        if name not in self.made:
            self.made[name] = None
            for above in self.report.above(name):
                for choice in self.watching[above]:
                    self.choose(choice, choice.picks(name, self.report.above(name)))

    def initialize(self, name):
        """The class is initialized, and so is what is above it."""
        for above in self.report.above(name):
            if above not in self.initialized:
                self.initialized.add(above)
                if f"{above}.<clinit>()V" in self.report.flags:
                    self.add(f"{above}.<clinit>()V")

    def open(self, choice, is_restricted):
        """A call with this choice is reachable."""
        if choice in self.chosen:
            return
        self.chosen[choice] = {}
        if not is_restricted:
            self.choose(choice, choice.methods.values())
            return
        self.choose(choice, [method for name, method in choice.methods.items() if name not in self.report.parents])
        self.watching[choice.of].append(choice)
        self.watching[UNKNOWN].append(choice)
        for name in self.made:
            self.choose(choice, choice.picks(name, self.report.above(name)))

    def choose(self, choice, methods):
        """The choice runs these methods."""
        for method in methods:
            self.chosen[choice][method] = None
            self.add(method)

    def follow(self, method):
        """All that a reachable method calls, makes and initializes."""
        name, body = class_of(method), self.report.bodies.get(method)
        file = self.files.get(name) if name in self.report.parents else None
        self.initialize(name)
        for field_class in file.field_classes if file else ():
            self.initialize(field_class)
        if body is None:
            return
        for callee in body.callees:
            self.add(callee)
        for choice in body.choices:
            self.open(choice, self.is_restricted)
        for made in body.makes:
            self.make(made)
        for of, rest in body.marked:
            self.further[method][self.open_looked_up(of, rest)] = None
        for handle in body.refused:
            self.follow_handle(method, *handle)
        for bootstrap in body.bootstraps if file else ():
            for handle in file.bootstraps[bootstrap]:
                self.follow_handle(method, *handle)

    def open_looked_up(self, of, rest):
        """The choice of what runs on made objects, by the look-up; it is reachable."""
        choice = self.report.look_up(of, rest)
        self.open(choice, is_restricted=True)
        return choice

    def follow_handle(self, method, kind, of, rest):
        """What the method may run by this method handle."""
        self.initialize(of)
        if kind < REF_INVOKE_VIRTUAL:
            return
        places = [of] if kind == REF_NEW_INVOKE_SPECIAL else self.report.above(of)
        found = [f"{name}.{rest}" for name in places if name in self.report.declaring.get(rest, {})]
        for callee in found if of in self.report.parents else [f"{of}.{rest}"]:
            self.further[method][callee] = None
            self.add(callee)
        if kind == REF_NEW_INVOKE_SPECIAL:
            self.make(of)
        elif kind != REF_INVOKE_STATIC:
            self.further[method][self.open_looked_up(of, rest)] = None

    def callees(self, method):
        """All that a reachable method calls, each once."""
        found = dict(self.report.bodies[method].callees) if method in self.report.bodies else {}
        for choice in self.report.bodies[method].choices if method in self.report.bodies else ():
            found.update(self.chosen[choice])
        for end in self.further.get(method, ()):
            found.update(self.chosen[end] if isinstance(end, Choice) else {end: None})
        return found

    def edges(self):
        return [(method, callee) for method in self.methods for callee in self.callees(method)]

    def count_reported(self):
        return sum(method in self.report.flags for method in self.methods)


def tell_counts(report, reachable, other, edges):
    """What is reachable, what would be if each receiver counted, and what isn't there."""
    tell(f"{len(report.flags)} methods of {len(report.parents)} classes are reported")
    tell(f"{reachable.count_reported()} of them are reachable, by {len(edges)} edges; {len(reachable.made)} classes are made")
    tell(f"{other.count_reported()} of them would be, by {len(other.edges())} edges, if each receiver counted, made or not")
    tell(f"{len(reachable.methods) - reachable.count_reported()} methods of classes that aren't reported are reachable")
    missing = collections.Counter()
    for method in reachable.methods:
        if method in report.bodies:
            missing.update(report.bodies[method].missing)
    for what, count in missing.items():
        tell(f"{count} reachable {what}")
    tell(f"{report.left_out} files that are left out")
    followed = "are followed by the method handles that their files name" if reachable.files.folders else "aren't followed"
    tell(f"what invokedynamics make and run: they {followed}")
    tell("never there: what runs by reflection, native code and other method handles")


def print_reachable(words, rows):
    """The graph of what is reachable from the roots, or its methods. The status to end with."""
    report, files, roots = Report(rows), Files(words.files), {}
    for word in words.roots:
        found = report.roots(word)
        if not found:
            tell(f"callgraph.py: no method that is reported is {word}")
            return 2
        roots.update(dict.fromkeys(found))
    reachable = Reachable(report, files, roots, is_restricted=True)
    other = Reachable(report, files, roots, is_restricted=False)
    edges = reachable.edges()
    if words.methods:
        print(*sorted(reachable.methods), sep="\n")
    else:
        print_graph(edges, reachable.methods)
    tell_counts(report, reachable, other, edges)
    return 0


def main():
    read = argparse.ArgumentParser(usage="examples/callgraph.py [--from ROOT].. [--files FOLDER].. [--methods] < REPORT, or --help")
    read.print_help = lambda file=None: print(__doc__.strip(), file=file)
    read.add_argument("--from", dest="roots", action="append", default=[])
    read.add_argument("--files", action="append", default=[])
    read.add_argument("--methods", action="store_true")
    words = read.parse_args()
    if (words.files or words.methods) and not words.roots:
        read.error("--files and --methods are for --from")
    rows = map(json.loads, sys.stdin)
    if words.roots:
        return print_reachable(words, rows)
    print_whole(rows)
    return 0


if __name__ == "__main__":
    sys.exit(main())
