#!/usr/bin/env python3
"""Brings the repository's own definitions, lemmas, fields and variables in .antt files, and where clauses cite them, to snake case.

usage: respell_names.py [--check]     at the top of the repository

Names of types, modules and constructors keep their spelling, and so does what a file imports from a library of the kit.
--check writes nothing and prints the names that would fall together.
"""
import collections
import glob
import os
import re
import sys

TOKEN = re.compile(r"[^\s(){}\[\],;.«»\"]+")
KIND = re.compile(r"^[a-z][^\s]*$")
DECLARED = re.compile(r"^\s*(?:(?:abbrev|unfoldable|pub|abbrev pub|unfoldable pub)\s+)*((?:[^\s(){}\[\],;.«»\"]+\s+)+?):(?:\s|$)")
BINDERS = re.compile(r"[({]((?:[^\s(){}\[\],;.«»\":]+\s+)+):\s|λ\s+((?:[^\s(){}\[\],;.«»\":]+\s+)*[^\s(){}\[\],;.«»\":]+)\.\s|let\s+([^\s(){}\[\],;.«»\":=]+)\s*[:=]|let\s+\(([^()=]*)\)\s*[:=]")


def snake(name):
    if "-" not in name and re.search(r"[a-z]", name[:1]):
        # two capitals in a row, as of markHD and notASender
        name = re.sub(r"([A-Z])([A-Z][a-z])", lambda m: m[1] + "_" + m[2].lower(), name)
        name = re.sub(r"([a-z])([A-Z]{2,})", lambda m: m[1] + "_" + m[2].lower(), name)
    name = re.sub(r"([a-z0-9₀-₉])([A-Z])", lambda m: m[1] + "_" + m[2].lower(), name)
    return name.replace("-", "_")


def wanted(name):
    return bool(KIND.match(name)) and snake(name) != name and name not in ("-",)


def strip_comments(text):
    return re.sub(r"--.*", "", text)


# lemmas in snake case already, whose function gets that name
LEMMAS = ("fits_in", "head_bytes", "held_after")


def parameters(alls, new_name):
    """Prints each parameter that would hide a definition in a clause of its function."""
    for p in sorted(glob.glob("crates/*/src/**/*.rt", recursive=True)):
        text = open(p).read()
        for m in re.finditer(r"(?s)fn (\w+)(?:<[^>]*>)?\((.*?)\)([^{]*?\n\s+(?:requires|ensures).*?)\n\s*\{\n", text):
            names = set(re.findall(r"(\w+):", m[2]))
            for t in TOKEN.findall(m[3]):
                if t in alls and new_name[t] in names:
                    print("hidden by a parameter:", t, "in", m[1], "of", p)


def main():
    check = "--check" in sys.argv
    own = set(os.listdir("crates"))
    files = sorted(p for p in glob.glob("crates/**/*.antt", recursive=True) if "/out/" not in p)
    declared, library = collections.defaultdict(set), {}
    for p in files + sorted(glob.glob("crates/*/src/**/*.rt", recursive=True)):
        text = open(p).read()
        names = set()
        for m in re.finditer(r"use ([^\s{]+?)\.\{([^}]*)\}", text):
            parts = m[1].split(".")
            ours = parts[0] == "Rattle" and len(parts) > 1 and parts[1] in own
            if not ours:
                for n in m[2].split(","):
                    names.update(n.split())
        library[p] = names
        if p.endswith(".rt"):
            continue
        body = strip_comments(text)
        for line in body.split("\n"):
            m = DECLARED.match(line)
            if m and not line.strip().startswith("use "):
                if re.search(r":\s*tie\.", line):
                    continue
                for n in m[1].split():
                    if wanted(n):
                        declared[n].add(p)
            if re.search(r":\s*tie\.", line):
                continue
            for m in BINDERS.finditer(line):
                for n in re.split(r"[\s,]+", " ".join(g for g in m.groups() if g)):
                    if wanted(n):
                        declared[n].add(p)
    alls = set(declared)
    everything = collections.defaultdict(set)
    for p in files:
        for t in TOKEN.findall(strip_comments(open(p).read())):
            everything[t].add(p)
    for n in sorted(alls):
        s = snake(n)
        other = [o for o in (s,) if o in everything and everything[o] & everything[n]]
        if other:
            print("falls together:", n, "and", s, "in", sorted(everything[s] & everything[n])[:3])
    by = collections.defaultdict(set)
    for n in alls:
        by[snake(n)].add(n)
    for s, ns in sorted(by.items()):
        if len(ns) > 1:
            print("one spelling for:", ns)
    print(len(alls), "names")
    # a lemma that would have its function's name
    taken = {s for s, ns in by.items() if len(ns) > 1}
    new_name = {}
    for n in alls:
        s = snake(n)
        clash = s in taken or any(everything[s] & everything[n] for _ in (0,) if s in everything)
        new_name[n] = s + "_lem" if "-" in n and clash else s
    for n in LEMMAS:
        new_name[n] = n + "_lem"
    parameters(alls, new_name)
    if check:
        return
    for p in files + sorted(glob.glob("crates/*/src/**/*.rt", recursive=True)) + sorted(glob.glob("crates/*/must-fail/*.edit")):
        text = open(p).read()
        lib = library.get(p, set())

        def turn(m):
            t = m[0]
            if t in lib or t not in new_name:
                return t
            before = text[max(0, m.start() - 4) : m.start()]
            if before.endswith("tie."):
                return t
            if p.endswith(".rt") and "-" in t:
                line = text[text.rfind("\n", 0, m.start()) + 1 : m.start()]
                if not re.match(r"\s*(ghost use|requires|ensures|//|\()", line):
                    return t
            return new_name[t]

        new = TOKEN.sub(turn, text)
        if new != text:
            open(p, "w").write(new)


if __name__ == "__main__":
    main()
