#!/usr/bin/env python3
"""Compares the links that a host has with those that a report tells, invocation by invocation, and how many come to what.

    bench/whole_rows.py SCANNED PLACES LINKS REPORT

SCANNED is what `linkd scan` answers of the host's classes, the line of each number; PLACES has the host's places, and LINKS what whole.c
wrote of them, line by line; REPORT is what `linkd report --json` tells of the same classes. Classes are compared by their names, and rows of
a table by those of the receivers, since the report's numbers are others. The method that the host names by a number has the name and the
type of the invocation. It ends with status 0 only where no invocation and no total differs, and prints the first ten that do.
"""
import collections
import json
import sys

# By the numbers of linkd.h.
RUN = 0
THROWABLES = (None, "NoSuchMethodError", "IllegalAccessError", "IncompatibleClassChangeError", "AbstractMethodError", "NullPointerException")
REFUSED = (None, "NotLinkable.ArrayReceiver", "NotLinkable.PolymorphicSignature")
WANTS = (None, "named", "callerHost", "methodHost")
UNBOUND = 4
KINDS = ("invokedynamic", "invokeinterface", "invokespecial", "invokestatic", "invokevirtual")
TOLD = ("link", "unlinked", "wants", "refused")
SHOWN = 10


class Host:
    """The names of the classes and the names and types of their methods, by number; and the line of each place."""

    def __init__(self, scanned, places, links):
        self.names, self.methods, self.numbers, self.lines = [], [], {}, {}
        with open(scanned) as file:
            for line in file:
                shown = json.loads(line)
                self.add(shown["class"], [sys.intern(method["name"] + method["type"]) for method in shown["methods"]])
        with open(places) as each_place, open(links) as each_link:
            for place, link in zip(each_place, each_link, strict=True):
                self.lines[tuple(map(int, place.split()))] = sys.intern(link)

    def add(self, name, methods):
        """Adds the class of the next number."""
        for at, method in enumerate(methods):
            self.numbers[name, method] = len(self.names), at
        self.names.append(name)
        self.methods.append(methods)

    def place(self, row):
        """The place of a report's row, or None where the host has no such method."""
        method = self.numbers.get((row["class"], row["method"] + row["methodType"]))
        return method and (*method, row["pc"])

    def outcome(self, row, called):
        """What a row comes to, which runs a method that is called so or throws."""
        _, kind, number, value = row
        if kind != RUN:
            return {"throws": THROWABLES[value]}
        if self.methods[number][value : value + 1] != [called]:
            return {"run": f"method {value} of {self.names[number]}"}
        return {"run": self.names[number]}

    def link(self, kind, rows, called):
        """The link, as a report tells it, but for the order of a table."""
        if kind == "mega":
            return {"mega": True}
        if kind == "fault":
            return {"fault": THROWABLES[rows[0][3]]}
        if kind == "plain":
            return {"plain": self.outcome(rows[0], called)["run"]}
        if kind == "direct":
            return {"direct": self.outcome(rows[0], called)}
        return {"kind": kind, "table": by_name([self.names[row[0]], self.outcome(row, called)] for row in rows)}

    def told(self, line, called):
        """What the line of a place says of an invocation of this name and type, as a report tells it."""
        kind, *words = line.split()
        numbers = [int(word) for word in words]
        if kind == "refused":
            return {"refused": REFUSED[numbers[0]]}
        if kind == "none":
            return {"unlinked": "Unbound"} if numbers[0] == UNBOUND else {"unlinked": "NotReady", "wants": WANTS[numbers[0]]}
        return {"link": self.link(kind, [numbers[at : at + 4] for at in range(0, len(numbers), 4)], called)}


def by_name(rows):
    return sorted(rows, key=lambda row: row[0])


def told(row):
    """What a report's row says, but for the order of a table."""
    found = {key: row[key] for key in TOLD if key in row}
    if "table" in found.get("link", {}):
        found["link"]["table"] = by_name(found["link"]["table"])
    return found


def shape(found):
    """What the totals count the invocation as."""
    if "refused" in found:
        return "notLinkable"
    if "unlinked" in found:
        return "waits" if "wants" in found else "unbound"
    link = found["link"]
    if "table" in link:
        return "table" if link["table"] else "noReceivers"
    if "mega" in link:
        return "mega"
    return "throws" if "fault" in link or "throws" in link.get("direct", {}) else "direct"


def compare(host, report):
    """The host's totals, the report's, and what differs."""
    sums, totals, wrong = {kind: collections.Counter() for kind in KINDS}, {}, []
    for line in report:
        row = json.loads(line)
        if "totals" in row:
            totals = row["totals"]
        elif "file" not in row:
            own = host.lines.pop(host.place(row), None)
            found = host.told(own, row["name"] + row["type"]) if own else {}
            if found != told(row):
                wrong.append(f"{line.strip()}: the host has {found or 'no such place'}")
            if found:
                sums[row["kind"]][shape(found)] += 1
    wrong += [f"the report has no {place}" for place in host.lines]
    return {kind: dict(counts) for kind, counts in sums.items()}, totals, wrong


def main(words):
    if len(words) != 4:
        sys.exit(__doc__)
    host = Host(*words[:3])
    with open(words[3]) as report:
        sums, totals, wrong = compare(host, report)
    for kind, counts in sums.items():
        print(kind, *(f"{name} {count}" for name, count in sorted(counts.items())), sep=", ")
    if sums != totals:
        wrong.append(f"the report's totals: {totals}")
    print(*wrong[:SHOWN], sep="\n", end="\n" if wrong else "")
    count = sum(sum(counts.values()) for counts in sums.values())
    print(f"{count} invocations, {len(wrong)} things differ" if wrong else f"{count} invocations, each as in the report")
    return 1 if wrong or count == 0 else 0


if __name__ == "__main__":
    sys.exit(main(sys.argv[1:]))
