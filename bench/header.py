#!/usr/bin/env python3
"""Holds include/linkd.h to the sources of the library: the gate runs it, in seconds.

    bench/header.py

It compiles the header as C99, C11, C++98, C++11 and C++17, each warning an error. Each function that the header declares is an export of
crates/linkd_c with the same parameters, and each export is declared. Each `repr(C)` struct of crates/jl_host is laid out there as it is
here, and each enum has 4 bytes. It prints what differs, and ends with status 0 if nothing does. It needs cc and c++.
"""
import pathlib
import re
import subprocess
import sys
import tempfile

TOP = pathlib.Path(__file__).resolve().parent.parent
HEADER = (TOP / "include/linkd.h").read_text()
# The structs of Rust that the header has, by their names there.
STRUCTS = {
    "Told": "linkd_told", "CallAnswer": "linkd_call_answer", "ResolutionShown": "linkd_resolution", "Row": "linkd_row",
    "LinkShown": "linkd_link", "LinkRow": "linkd_link_row", "TargetPart": "linkd_target_part", "Invocation": "linkd_invocation",
    "Counts": "linkd_count",
}
HANDLES = {"Linkd": "linkd", "LinkdSeat": "linkd_seat", "LinkdMemo": "linkd_memo", "LinkdView": "linkd_view", "LinkdRenewal": "linkd_renewal"}
NUMBERS = {"u8": "uint8_t", "u16": "uint16_t", "u32": "uint32_t", "u64": "uint64_t", "usize": "size_t"}
# What a function of the header may return in the place of a uint32_t.
STATUSES = ("linkd_status", "uint32_t")
STRICT = ["-pedantic", "-Wall", "-Wextra", "-Werror", "-fsyntax-only"]
LANGUAGES = [["cc", "-std=c99"], ["cc", "-std=c11"], ["c++", "-std=c++98", "-Wno-long-long"], ["c++", "-std=c++11"], ["c++", "-std=c++17"]]


# ---- functions


def type_in_c(kind):
    """The types in C of a parameter or a result of an export, in order; an allocator is none."""
    if kind == "Global":
        return []
    if slice_of := re.fullmatch(r"&(mut )?\[(\w+)\]", kind):
        item = STRUCTS.get(slice_of[2]) or NUMBERS[slice_of[2]]
        return [f"{'' if slice_of[1] else 'const '}{item} *", "size_t"]
    if lent := re.fullmatch(r"&mut (\w+)", kind):
        return [f"{STRUCTS.get(lent[1]) or NUMBERS[lent[1]]} *"]
    if handle := re.fullmatch(r"\*mut (\w+)", kind):
        return [f"{HANDLES[handle[1]]} *"]
    return [NUMBERS[kind]]


def exports():
    """The exports of the library, by their names: what each returns, and its parameters, as in C."""
    found = {}
    for file in (TOP / "crates/linkd_c/src").glob("*.rt"):
        for name, given, result in re.findall(r'pub (?:unsafe )?extern "C" fn (\w+)\(([^)]*)\)(?: -> (\w+))?', file.read_text()):
            kinds = re.findall(r"\w+: ([^,]+?)(?:,|\s*$)", given)
            found[name] = (NUMBERS[result] if result else "void", [it for kind in kinds for it in type_in_c(kind)])
    return found


def declared():
    """The functions that the header declares and doesn't define, in the same form."""
    plain = re.sub(r"/\*.*?\*/|^#.*?$", "", HEADER, flags=re.S | re.M)
    found = {}
    for result, name, given in re.findall(r"^(\w+) (linkd_\w+)\(([^)]*)\);", plain, re.M):
        words = [re.sub(r"\s+", " ", it).strip() for it in given.split(",")]
        kinds = [] if words == ["void"] else [re.sub(r"\w+$", "", it).strip() for it in words]
        found[name] = ("uint32_t" if result in STATUSES else result, kinds)
    return found


def different_functions():
    here, there = declared(), exports()
    wrong = [f"{name} is declared, and no export" for name in sorted(here.keys() - there.keys())]
    wrong += [f"{name} is an export, and not declared" for name in sorted(there.keys() - here.keys())]
    return wrong + [f"{name}: declared {here[name]}, exported {there[name]}" for name in sorted(here.keys() & there.keys()) if here[name] != there[name]]


# ---- layouts


def structs():
    """The fields of each `repr(C)` struct of jl_host, with their types."""
    found = {}
    for file in (TOP / "crates/jl_host/src").glob("**/*.rt"):
        for name, body in re.findall(r"#\[repr\(C\)\]\n(?:#\[[^\n]*\]\n)*pub struct (\w+) \{\n(.*?)\n\}", file.read_text(), re.S):
            found[name] = re.findall(r"pub (\w+): ([^\n]+),", body)
    return found


def size_of(kind, found):
    if several := re.fullmatch(r"\[(\w+); MOST_ROWS\]", kind):
        return 8 * size_of(several[1], found)
    if kind in found:
        return sum(size_of(of, found) for _, of in found[kind])
    return {"u32": 4}[kind]


def layouts():
    """Assertions of C11 that hold each struct to its sizes and places, which are those of fields of 4 bytes each."""
    found = structs()
    lines = ['#include "linkd.h"', "#include <assert.h>"]
    lines += [f"static_assert(sizeof({name}) == 4, \"{name}\");" for name in re.findall(r"^\} (linkd_\w+);", enums(), re.M)]
    for name, fields in found.items():
        c, at = STRUCTS[name], 0
        for field, kind in fields:
            size = size_of(kind, found)
            lines.append(f"static_assert(offsetof({c}, {field}) == {at}, \"{c}.{field}\");")
            lines.append(f"static_assert(sizeof((({c} *)0)->{field}) == {size}, \"{c}.{field}\");")
            at += size
        lines.append(f"static_assert(sizeof({c}) == {at}, \"{c}\");")
    return "\n".join(lines) + "\n", [f"no struct {name} of jl_host" for name in STRUCTS if name not in found] + [
        f"no struct of the header is said for {name} of jl_host" for name in found if name not in STRUCTS
    ]


def enums():
    """The enums of the header alone."""
    return "\n".join(re.findall(r"typedef enum \w+ \{.*?^\} \w+;", HEADER, re.S | re.M))


def refused(room):
    """What compilers say of the header and of the layouts."""
    text, wrong = layouts()
    for ending in "c", "cpp":
        (room / f"header.{ending}").write_text('#include "linkd.h"\n')
        (room / f"layout.{ending}").write_text(text)
    for language in LANGUAGES:
        ending = "cpp" if language[0] == "c++" else "c"
        older = language[1] in ("-std=c99", "-std=c++98")
        files = [room / f"header.{ending}"] + ([] if older else [room / f"layout.{ending}"])
        ran = subprocess.run([*language, *STRICT, f"-I{TOP}/include", *files], capture_output=True, text=True)
        wrong += [f"{' '.join(language)}: {ran.stderr}"] if ran.returncode else []
    return wrong


def main():
    with tempfile.TemporaryDirectory() as room:
        wrong = different_functions() + refused(pathlib.Path(room))
    print("\n".join(wrong) if wrong else f"{len(declared())} functions and {len(STRUCTS)} structs of the header are those of the library")
    return 1 if wrong else 0


if __name__ == "__main__":
    sys.exit(main())
