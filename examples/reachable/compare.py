#!/usr/bin/env python3
"""Compares the methods that a JVM entered with a graph of what is reachable.

    examples/reachable/compare.py REPORT GRAPH ENTRIES [ROOTS]

REPORT is what `linkd report --json --classes --all-receivers` wrote, GRAPH what examples/callgraph.py made of it by --from, and ENTRIES
what the agent beside this file wrote. A method that was entered has to be in the graph. Where the method above it on the stack has an
invocation of its name and type, the pair has to be an edge of the graph. These entries are aside, and are counted by reason:

    the class that was entered is in no file: classes of lambdas, accessors for reflection
    a native method stands above it: native code calls it, as by reflection
    a class that is in no file stands above it: the objects of lambdas, method handles, accessors
    a method handle calls it: the method above has no such invocation, but one of MethodHandle or VarHandle
    a call site calls it: the method above has an invokedynamic, and the method is of a class of java/lang/invoke that ends in $Holder

These have to be in the graph, too, and are counted by reason, since no invocation calls them:

    nothing stands above it: the JVM calls it, first of a thread
    the JVM calls it within an instruction: the method above has no such invocation, as where a loader is asked for a class
    it is `<clinit>`

Methods that are aside and not in the graph are written into ROOTS, one a line: the graph from them, too, has to have all that isn't aside.
With ROOTS nothing that is missing counts. Else it ends with status 0 only where nothing is missing.
"""

import collections
import json
import sys

OUTSIDE = "of a class that no file has"
FIRST = "called by the JVM, first of a thread"
NATIVE = "called by native code"
HIDDEN = "called by a class that no file has"
HANDLE = "called by a method handle"
CALL_SITE = "called by an invokedynamic's call site"
INSIDE = "called by the JVM within an instruction"
INITIALIZED = "initialized"

# With these reasons a method may lack in the graph.
ASIDE = (NATIVE, HIDDEN, HANDLE, CALL_SITE)


def read_report(path):
    """The reported methods, and what each invokes: names with types, and the reasons HANDLE and CALL_SITE where it has such invocations."""
    declared, invoked = set(), collections.defaultdict(set)
    with open(path, encoding="utf-8") as file:
        for row in map(json.loads, file):
            if "declares" in row:
                declared.update(f"{row['class']}.{method['name']}{method['type']}" for method in row["declares"])
            elif "pc" in row:
                called = invoked[f"{row['class']}.{row['method']}{row['methodType']}"]
                called.add(CALL_SITE if row["kind"] == "invokedynamic" else row["name"] + row["type"])
                if row.get("refused") == "NotLinkable.PolymorphicSignature":
                    called.add(HANDLE)
    return declared, invoked


def read_graph(path):
    """The methods and the edges of a graph."""
    with open(path, encoding="utf-8") as file:
        lines = [tuple(line.rstrip("\n").split(" -> ")) for line in file]
    return {method for line in lines for method in line}, {line for line in lines if len(line) == 2}


def read_entries(path):
    """Of each entry the class and the name with the type of the method, what stood above it, and that method."""
    with open(path, encoding="utf-8") as file:
        for line in file:
            words = line.rstrip("\n").split("\t")
            if len(words) != 7:
                raise SystemExit(f"{path}: not whole: {line!r}")
            yield words[0], words[1] + words[2], words[3], words[4] + "." + words[5] + words[6]


def reason(declared, invoked, entry):
    """Why a method was entered other than by an invocation; None where an invocation of its name and type stands above it."""
    of, rest, kind, above = entry
    if f"{of}.{rest}" not in declared:
        return OUTSIDE
    if kind != "java":
        return {"none": FIRST, "native": NATIVE}[kind]
    if above not in declared:
        return HIDDEN
    if rest == "<clinit>()V":
        return INITIALIZED
    if rest in invoked[above]:
        return None
    if CALL_SITE in invoked[above] and of.startswith("java/lang/invoke/") and of.endswith("$Holder"):
        return CALL_SITE
    return HANDLE if HANDLE in invoked[above] else INSIDE


def sort_out(report, entries):
    """The methods that were entered by reason, and the pairs that have to be edges."""
    declared, invoked = read_report(report)
    found, pairs = collections.defaultdict(set), set()
    for entry in read_entries(entries):
        why, method = reason(declared, invoked, entry), f"{entry[0]}.{entry[1]}"
        found[why].add(method)
        if why is None:
            pairs.add((entry[3], method))
    return found, pairs


def main(report, graph, entries, roots=None):
    methods, edges = read_graph(graph)
    found, pairs = sort_out(report, entries)
    outside = found.pop(OUTSIDE, set())
    known = set().union(*found.values())
    wanted = set().union(*(entered for why, entered in found.items() if why not in ASIDE))
    print(f"{len(known)} methods were entered, and {len(outside)} {OUTSIDE}; {len(known & methods)} of them are reachable")
    for why, entered in sorted(found.items(), key=lambda item: item[0] or ""):
        print(f"  {why or 'called by an invocation'}: {len(entered)}, {len(entered - methods)} of them aren't reachable")
    missing, pairs_missing = sorted(wanted - methods), sorted(pairs - edges)
    print(f"{len(wanted)} have to be reachable, and {len(missing)} aren't; {len(pairs)} pairs have to be edges, and {len(pairs_missing)} aren't")
    if roots is not None:
        with open(roots, "w", encoding="utf-8") as file:
            file.writelines(f"{method}\n" for method in sorted(known - wanted - methods))
        return 0
    for method in missing:
        print(f"entered, and not reachable: {method}", file=sys.stderr)
    for pair in pairs_missing:
        print(f"called, and no edge: {' -> '.join(pair)}", file=sys.stderr)
    return 1 if missing or pairs_missing or not pairs else 0


if __name__ == "__main__":
    if len(sys.argv) not in (4, 5):
        raise SystemExit(__doc__.strip())
    sys.exit(main(*sys.argv[1:]))
