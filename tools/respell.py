#!/usr/bin/env python3
"""Respells the names of definitions and lemmas that carry dashes.

Words (functions, fields, lemmas, local names) become snake case, facts (names that begin with a capital) camel case.
Names are taken from the declarations in crates/*/specs and in the lemma files crates/*/proofs/*.antt; names that the
check makes for goals and steps (proofs of functions) and names of the kit's library are left. Run once, at the top.
"""
import glob
import re
import sys

NAME = r"[A-Za-zΣ][A-Za-z0-9_'<]*(?:-[A-Za-z0-9_'<]+)+"
EDGE = r"[A-Za-z0-9_'<Σ≤≡∷-]"
DECLARED = re.compile(
    r"(?m)^[ \t]*(?:(?:abbrev|unfoldable|pub|record|data|let|in)[ \t]+)*(" + NAME + r")[ \t]*(?=[:({\n])")
USED = re.compile(r"use\s+([A-Za-z0-9_.]+)\.\{([^}]*)\}", re.S)
# A lemma on a fact of the library keeps the fact's name, a dash and what it says.
KEPT = {"All-weaker", "IsPermutation-trans"}
# Names that would fall together with a variant, a function or a lemma.
OTHERWISE = {
    "In-time": "IsInTime",
    "Too-long": "IsTooLong",
    "case-J-stands": "case_j_stands_lem",
    "cases-stand": "cases_stand_lem",
    "fields-are-parts": "fields_are_parts_lem",
    "line-length": "line_length_lem",
    "lives-are-guaranteed": "lives_are_guaranteed_lem",
    "read-arrival": "read_arrival_lem",
    "read-arrivals": "read_arrivals_lem",
    "read-row": "read_row_lem",
    "read-rows": "read_rows_lem",
    "refusals-are-deserved": "refusals_are_deserved_lem",
    "schedules-exist": "schedules_exist_lem",
}


def files(pattern):
    return sorted(glob.glob(pattern, recursive=True))


def respelled(name):
    if name in OTHERWISE:
        return OTHERWISE[name]
    parts = name.split("-")
    if name[0] == "Σ":
        return "_".join(parts)
    if name[0].isupper():
        return "".join(part[0].upper() + part[1:] for part in parts)
    return "_".join(part.lower() for part in parts)


def main():
    declared, library, own = set(), set(), set()
    crates = {path.split("/")[1] for path in files("crates/*/src/*.rt")}
    sources = files("crates/*/specs/**/*.antt") + files("crates/*/proofs/*.antt")
    every = files("crates/*/specs/**/*.antt") + files("crates/*/proofs/**/*.antt") + files("crates/*/src/**/*.rt")
    for path in sources:
        declared |= set(DECLARED.findall(open(path).read()))
        declared |= set(re.findall(r"\bas (" + NAME + ")", open(path).read()))
    for path in every:
        for place, names in USED.findall(open(path).read()):
            parts = place.split(".")
            ours = parts[0] == "Rattle" and len(parts) > 1 and parts[1] in crates
            (own if ours else library).update(re.findall(NAME, names))
    names = {name for name in declared if name not in library and name not in KEPT}
    table = {name: respelled(name) for name in names}
    text = "\n".join(open(path).read() for path in every)
    words = set(re.findall(r"[A-Za-zΣ][A-Za-z0-9_'<]*", text))
    for name, new in sorted(table.items()):
        if new in words or list(table.values()).count(new) > 1:
            print(f"falls together: {name} -> {new}")
    for name in sorted(declared & library):
        print(f"of the library: {name}")
    for name in sorted(own - names - KEPT):
        print(f"not respelled: {name}")
    if sys.argv[1:] == ["--list"]:
        for name, new in sorted(table.items()):
            print(name, new)
        return
    pattern = re.compile(f"(?<!{EDGE})(" + NAME + f")(?!{EDGE})")

    def turned(match):
        name = match.group(1)
        # After a dot it is the step of a call, which has the function's name.
        if name in OTHERWISE and match.string[match.start() - 1] == ".":
            return name
        return table.get(name, name)

    for path in every:
        old = open(path).read()
        new = pattern.sub(turned, old)
        if new != old:
            open(path, "w").write(new)


main()
