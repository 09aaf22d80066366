#!/usr/bin/env python3
"""Draws events, renews a plain model of a core in their midst, carries the later events over, and compares both models after each.

    bench/beside.py [--seeds N] [--first N] [--events N]

The old core is the model of drawn_world.py, and the fresh one is another, made by the events of specs/Renewal. After each event that the old
one accepts and that names nothing that is gone, the fresh one has to accept it under the new numbers; its world is the old one as the flags of
specs/Moved move it, its numbers are those that the flags tell, and of each site that isn't gone the link from scratch, the installed link and
calls are the old ones under new numbers. Status 1 says where that isn't so.
"""
import argparse
import sys
from collections import Counter

from drawn import Draws
from drawn_world import Refused, World, parts_of

CALL_SITE_EVENTS = {"callsite", "target", "bind"}


def moved(flags, k):
    """The new number, if it stays: flags tell what stays of the first numbers, and all later ones stay."""
    if k < len(flags):
        return sum(flags[:k]) if flags[k] else None
    return sum(flags) + k - len(flags)


def kept(flags, xs):
    return [x for k, x in enumerate(xs) if k >= len(flags) or flags[k]]


def names_of(target):
    for part, _ in parts_of(target):
        if "guard" in part:
            yield "switch", part["guard"]
        elif "invoker" in part:
            yield "callsite", part["invoker"]
        else:
            yield "class", part["method"][0]


def flags_of(w, released_sites, released_points):
    loaders = [k not in w.retired for k in range(len(w.records))]
    classes = [w.present(k) is not None for k in range(len(w.classes))]
    sites = [not w.is_in_retired(s) for s in range(len(w.places))]
    calls = [w.has_call_site(c) and c not in released_sites for c in range(len(w.call_sites))]
    for s, c in w.bindings.items():
        if sites[s] and w.has_call_site(c):
            calls[c] = True
    for c in reversed(range(len(calls))):
        if calls[c]:
            for kind, d in names_of(w.call_sites[c]["target"]):
                if kind == "callsite":
                    calls[d] = True
    points = [w.has_switch(p) and p not in released_points for p in range(len(w.switches))]
    for c, one in enumerate(w.call_sites):
        if calls[c]:
            for kind, p in names_of(one["target"]):
                if kind == "switch":
                    points[p] = True
    return {"loader": loaders, "class": classes, "site": sites, "callsite": calls, "switch": points}


def target_by(number, target):
    """The target under new numbers, or none where a part is gone."""
    if "guard" in target:
        p, one, two = number("switch", target["guard"]), target_by(number, target["target"]), target_by(number, target["fallback"])
        return None if p is None or one is None or two is None else {"guard": p, "target": one, "fallback": two}
    if "invoker" in target:
        c = number("callsite", target["invoker"])
        return None if c is None else {"invoker": c}
    c = number("class", target["method"][0])
    return None if c is None else {"method": [c, target["method"][1]]}


def staying(number, kind, numbers):
    """The new numbers of those that aren't gone."""
    return [new for new in (number(kind, old) for old in numbers) if new is not None]


def call_site_by(number, one):
    """The call site under new numbers, or none where it is released."""
    return one and {**one, "target": target_by(lambda kind, k: number(kind, k) or 0, one["target"])}


def event_by(number, e):
    """The event under new numbers, or none where it names what is gone."""
    do = e["do"]
    if do in ("loader", "switch"):
        return e
    if do == "define" or do == "retire":
        l = number("loader", e["loader"])
        return None if l is None else {**e, "loader": l}
    if do == "delegate":
        l, t = number("loader", e["loader"]), number("loader", e["to"])
        return None if l is None or t is None else {**e, "loader": l, "to": t}
    if do == "request":
        c = number("class", e["class"])
        return None if c is None else {**e, "class": c}
    if do == "callsite":
        t = target_by(number, e["target"])
        return None if t is None else {**e, "target": t}
    if do == "target":
        c, t = number("callsite", e["callsite"]), target_by(number, e["target"])
        return None if c is None or t is None else {**e, "callsite": c, "target": t}
    if do == "invalidate":
        return {**e, "switches": staying(number, "switch", e["switches"])}
    if do == "release":
        return {**e, "callsites": staying(number, "callsite", e["callsites"]), "switches": staying(number, "switch", e["switches"])}
    assert do == "bind", do
    s, c = number("site", e["site"]), number("callsite", e["callsite"])
    return None if s is None or c is None else {**e, "site": s, "callsite": c}


def shown(w, flags):
    """The world under the flags; without any as it is."""
    number = lambda kind, k: moved(flags.get(kind, []), k)
    of = lambda kind, xs: kept(flags.get(kind, []), xs)
    return {
        "records": [[(name, number("class", one.number) or 0) for name, one in records.items()] for records in of("loader", w.records)],
        "rows": [(number("loader", one.loader) or 0, one.name, one.flags, one.superclass and (number("class", one.superclass.number) or 0),
                  tuple(number("class", each.number) or 0 for each in one.interfaces)) for one in of("class", w.classes)],
        "retired": sorted(m for m in (number("loader", l) for l in w.retired) if m is not None),
        "places": [(number("class", one.number) or 0, method, pc) for one, method, pc in of("site", w.places)],
        "bindings": sorted((number("site", s), number("callsite", c)) for s, c in w.bindings.items()
                           if number("site", s) is not None and number("callsite", c) is not None),
        "callsites": [call_site_by(number, one) for one in of("callsite", w.call_sites)],
        "switches": of("switch", w.switches),
    }


def outcome_by(number, one):
    return {"run": [number("class", one["run"][0]), one["run"][1]]} if "run" in one else one


def link_by(number, link):
    if link is None or "fault" in link or "mega" in link:
        return link
    if "plain" in link:
        return {"plain": [number("class", link["plain"][0]), link["plain"][1]]}
    if "direct" in link:
        return {"direct": outcome_by(number, link["direct"])}
    return {"kind": link["kind"], "table": [[number("class", c), outcome_by(number, one)] for c, one in link["table"]]}


def must(holds, *what):
    if not holds:
        print("differs:", *what, file=sys.stderr)
        sys.exit(1)


def renewal(w, log, flags):
    """The events of specs/Renewal."""
    number = lambda kind, k: moved(flags[kind], k)
    for stays in flags["loader"][1:]:
        if stays:
            yield {"do": "loader"}
    for e in log:
        if e["do"] == "define" and number("loader", e["loader"]) is not None:
            yield {**e, "loader": number("loader", e["loader"])}
        if e["do"] == "delegate" and number("loader", e["loader"]) is not None:
            found = w.records[e["loader"]].get(e["name"])
            if found is not None and number("loader", found.loader) is not None:
                yield {**e, "loader": number("loader", e["loader"]), "to": number("loader", found.loader)}
    for stays in flags["switch"]:
        if stays:
            yield {"do": "switch"}
    points = [number("switch", p) for p, valid in enumerate(w.switches) if not valid and number("switch", p) is not None]
    if points:
        yield {"do": "invalidate", "switches": points}
    for c, one in enumerate(w.call_sites):
        if flags["callsite"][c]:
            yield {"do": "callsite", **call_site_by(number, one)}
    for one, method, pc in w.places:
        if number("class", one.number) is not None:
            yield {"do": "request", "class": number("class", one.number), "method": method, "pc": pc}
    for s, c in w.bindings.items():
        if number("site", s) is not None and number("callsite", c) is not None:
            yield {"do": "bind", "site": number("site", s), "callsite": number("callsite", c)}


def lost(w):
    """How many sites are bound to a released call site."""
    return sum(not w.has_call_site(c) for c in w.bindings.values())


def apply(world, e):
    return getattr(world, e["do"])(**{key: value for key, value in e.items() if key != "do"})


def run(seed, events, counts):
    w = World()
    draws = Draws(seed, w, set())
    log, r, flags, numbers, begun = [], None, None, None, 300 + seed % 7 * 100
    made_kinds = ("loader", "class", "site", "callsite", "switch")
    for step, line in enumerate(draws.lines(events)):
        if step == begun:
            few = lambda count: {k for k in range(count) if draws.is_one_in(3)}
            flags = flags_of(w, few(len(w.call_sites)), few(len(w.switches)))
            r = World()
            for e in renewal(w, log, flags):
                try:
                    apply(r, e)
                except Refused as why:
                    must(False, seed, step, "renewal refuses", e, why.args)
            numbers = {kind: [moved(flags[kind], k) for k in range(len(flags[kind]))] for kind in made_kinds}
            must(shown(w, flags) == shown(r, {}), seed, step, "the world of the renewal")
            r.links = {moved(flags["site"], s): link_by(lambda kind, k: moved(flags[kind], k), link)
                       for s, link in w.links.items() if moved(flags["site"], s) is not None}
            counts["gone"] += sum(stays.count(False) for stays in flags.values())
        if isinstance(line, str):
            continue
        if r is not None and w.switches and draws.is_one_in(16):
            # Any point, those among them that are gone in the fresh core.
            line = {"do": "invalidate", "switches": [draws.below(len(w.switches))]}
        elif w.call_sites and draws.is_one_in(12):
            line = draws.release()
        number = None if r is None else lambda kind, k: numbers[kind][k] if k < len(numbers[kind]) else None
        if line["do"] in ("call", "links", "prepare"):
            w.answer(line)
            continue
        if line["do"] == "install":
            before = set(w.links)
            made = w.answer(line)
            if r is not None and "refused" not in made and "error" not in made:
                rows = [(number("site", s), r.link(number("site", s)), s) for s, _ in w.batches[line["prepared"]]]
                for t, link, s in rows:
                    must(link == link_by(number, w.links[s]), seed, step, "a carried install", s)
                    r.links[t] = link
                counts["installs"] += 1
        else:
            there = None if r is None else event_by(number, line)
            if line["do"] == "invalidate" and there is not None and len(there["switches"]) < len(line["switches"]):
                counts["invalidations of what is gone"] += 1
            was_lost = lost(w)
            try:
                if r is not None and there is None and line["do"] in CALL_SITE_EVENTS:
                    counts["names what is gone"] += 1
                    continue
                made = apply(w, line)
            except Refused:
                continue
            w.settle()
            counts["sites whose call site went"] += lost(w) - was_lost
            log.append(line)
            if r is None:
                continue
            must(there is not None, seed, step, "gone", line)
            try:
                fresh = apply(r, there)
            except Refused as why:
                must(False, seed, step, "refused", line, there, why.args)
            r.settle()
            counts[line["do"]] += 1
            for kind in made_kinds:
                if kind in made and made[kind] == len(numbers[kind]):
                    numbers[kind].append(fresh[kind])
        if r is not None:
            must(shown(w, flags) == shown(r, {}), seed, step, "the world after", line)
            sizes = {"loader": w.records, "class": w.classes, "site": w.places, "callsite": w.call_sites, "switch": w.switches}
            must(all(numbers[kind] == [moved(flags[kind], k) for k in range(len(xs))] for kind, xs in sizes.items()), seed, step, "numbers", line)
            number = lambda kind, k: numbers[kind][k]
            must(r.links == {number("site", s): link_by(number, link) for s, link in w.links.items()}, seed, step, "installed links", line)
            if step % 10 == 0:
                for s in range(len(w.places)):
                    if not w.is_gone(s):
                        must(r.link(number("site", s)) == link_by(number, w.link(s)), seed, step, "a link from scratch", s)
                        counts["links"] += 1
                        for c in [None] + [one.number for one in w.classes[-4:] if w.is_concrete(one)]:
                            try:
                                was = w.call(s, c)
                            except Refused as why:
                                was = why.args[0]
                            try:
                                now = r.call(number("site", s), None if c is None else number("class", c))
                            except Refused as why:
                                now = why.args[0]
                            must(now == outcome_by(number, was), seed, step, "a call", s, c, was, now)
                            counts["calls"] += 1


def main():
    words = argparse.ArgumentParser()
    words.add_argument("--seeds", type=int, default=20)
    words.add_argument("--first", type=int, default=1)
    words.add_argument("--events", type=int, default=2000)
    said = words.parse_args()
    counts = Counter()
    for seed in range(said.first, said.first + said.seeds):
        run(seed, said.events, counts)
    print(f"{said.seeds} runs of {said.events} lines:", ", ".join(f"{count} {what}" for what, count in sorted(counts.items())))


if __name__ == "__main__":
    main()
