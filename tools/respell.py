#!/usr/bin/env python3
"""Brings this repository's own names to the spelling of the library: words in snake case, a dash between two names only.

usage: python3 tools/respell.py [FOLDER]      the top of the repository, as the port's scripts left it; files are rewritten in place

A name is respelled where it is declared in a shared file (specs/ or proofs/ of a crate, not the folder of one function's proof): `firstLength` to
`first_length`; `slot-unused` to `slot_unused`, since `unused` is a word and no name; `nexts-length` stays, since `nexts` and `length` are both names. Names of
functions, types and fields of src/ have their spelling already. Two names that would fall together in a file are told, and nothing is written.
"""

import glob
import os
import re
import sys

TOKEN = re.compile(r"[A-Za-z_\u0370-\u03ff][\w'\u2080-\u209c\u2090\u2192\u2260\u2261\u2115-]*")
HEAD = re.compile(r"\s*((?:(?:unfoldable|abbrev|pub|record|data)\s+)*)([^\s(){}:]+(?:\s+[^\s(){}:]+)*)\s+:\s")
HUMP = re.compile(r"(?<=[a-z0-9])[A-Z]+")
STRING = re.compile(r'"(?:[^"\\\n]|\\.)*"')
# lemmas that would get the name of what they are about; of a word without a hump or a dash, by the files that know it
LEMMAS = {"bit-and": "bit_and_lem", "bit-or": "bit_or_lem", "input-step": "input_step_lem", "row-then": "row_then_lem", "read-for": "read_for_lem", "mask-in": "mask_in_lem", "row-after": "row_after_lem", "feed-values": "feed_values_lem", "replace-values": "replace_values_lem", "place-in": "place_in_lem"}
LEMMAS_IN = {
    ("matching/specs/Laws/Parts.antt", "both_go"): "both_go_lem",
    ("blocks/specs/Laws/Starting.antt", "both_go"): "both_go_lem",
    ("blocks/specs/Laws/Parts.antt", "part_step"): "part_step_lem",
    ("blocks/specs/Laws/Blocks.antt", "part_step"): "part_step_lem",
    ("answers/specs/Laws/Said.antt", "first_two"): "first_two_lem",
    ("bitmap_maps/specs/Laws/Laying.antt", "with_byte"): "with_byte_lem",
    ("tagset/specs/Laws/Exact.antt", "no_bytes"): "no_bytes_lem",
    ("tagset/proofs/Joined.antt", "no_bytes"): "no_bytes_lem",
    ("history/specs/Demand2.antt", "found_in"): "found_in_lem",
}


def shared(top):
    """The files whose names are shared: specs/ at any depth, and the lemma files right in proofs/."""
    return sorted(glob.glob(f"{top}/crates/*/specs/**/*.antt", recursive=True) + glob.glob(f"{top}/crates/*/proofs/*.antt"))


def of_functions(top):
    return sorted(set(glob.glob(f"{top}/crates/*/proofs/**/*.antt", recursive=True)) - set(glob.glob(f"{top}/crates/*/proofs/*.antt")))


def declared(path):
    """Each name that a file declares, with whether its line says that it is a definition."""
    with open(path, encoding="utf-8") as f:
        for line in f:
            m = HEAD.match(line.split("--")[0])
            if m:
                for name in m.group(2).split():
                    yield name, bool(re.search(r"unfoldable|abbrev|record|data", m.group(1)))


def snake(name):
    def small(m):
        return "_" + m.group(0).lower()

    return name if not name[:1].islower() else "-".join(HUMP.sub(small, part) if part[:1].islower() else part for part in name.split("-"))


def words_of_library(paths):
    """What the files import from the library and what has no dash: its names, as far as they are used here."""
    found = set()
    for p in paths:
        with open(p, encoding="utf-8") as f:
            for m in re.finditer(r"use (?:Rattle\.std|mathlib|lib|native|Prim|borrow)\.[^{]*\{([^}]*)\}", f.read()):
                found |= {n.strip() for n in m.group(1).split(",")}
    return {n for n in found if n and "-" not in n and "\u25cc" not in n}


def table(top):
    """Old name to new, for every name that changes."""
    files = shared(top)
    names, definitions = set(), set()
    for p in files:
        laws = "/Laws/" in p or "/proofs/" in p
        for name, is_definition in declared(p):
            names.add(name)
            if is_definition or not laws:
                definitions.add(snake(name))
    known = {d for d in definitions if "-" not in d} | words_of_library(files)
    turned = {}
    for name in names:
        if name in LEMMAS:
            turned[name] = LEMMAS[name]
            continue
        if not re.match(r"[A-Za-z]", name):
            continue
        parts = snake(name).split("-")
        new = parts[0]
        for before, part in zip(parts, parts[1:]):
            new += ("-" if before in known and part in known else "_") + part
        if new != name:
            turned[name] = new
    return turned


def turn(text, turned, leave=()):
    def one(m):
        t = m.group(0)
        if t in leave:
            return t
        if t in turned:
            return turned[t]
        return snake(t) if HUMP.search(t) and t[:1].islower() else t

    return TOKEN.sub(one, text)


def turn_rust(text, turned):
    """A file of src/: its clauses and its comments name definitions; its strings stay."""
    out, last = [], 0
    for m in STRING.finditer(text):
        out += [turn(text[last : m.start()], turned), m.group(0)]
        last = m.end()
    return "".join(out) + turn(text[last:], turned)


def fallen(path, before, turned, leave, functions):
    """The names of a file that fall together; a definition may have the name of a function of src/."""
    seen = {}
    for t in set(TOKEN.findall(before)) - functions:
        new = turn(t, turned, leave)
        if seen.setdefault(new, t) != t:
            yield f"{path}: {seen[new]} and {t} would both be {new}"


def main(argv):
    top = argv[0] if argv else "."
    turned = table(top)
    writes, bad = [], []
    own = set(shared(top))
    functions = set()
    for p in glob.glob(f"{top}/crates/*/src/**/*.rt", recursive=True):
        with open(p, encoding="utf-8") as f:
            functions |= set(re.findall(r"\bfn (\w+)", f.read()))
    for p in sorted(own) + of_functions(top) + sorted(glob.glob(f"{top}/crates/*/src/**/*.rt", recursive=True)):
        with open(p, encoding="utf-8") as f:
            before = f.read()
        leave = set() if p in own or p.endswith(".rt") else {n for n, _ in declared(p)}
        here = {**turned, **{n: new for (q, n), new in LEMMAS_IN.items() if p.endswith("crates/" + q)}}
        after = turn_rust(before, here) if p.endswith(".rt") else turn(before, here, leave)
        bad += fallen(p, before, here, leave, set() if p in own else functions)
        if after != before:
            writes.append((p, after))
    if bad:
        print("\n".join(bad))
        print(f"respell: {len(bad)} names would fall together; nothing was written")
        return 1
    for p, after in writes:
        with open(p, "w", encoding="utf-8") as f:
            f.write(after)
    print(f"respell: {len(turned)} names, {len(writes)} files")
    return 0


if __name__ == "__main__":
    raise SystemExit(main(sys.argv[1:]))
