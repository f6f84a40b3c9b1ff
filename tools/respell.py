#!/usr/bin/env python3
"""Brings this repository's own names in contracts, specs and proofs to today's spelling.

usage: tools/respell.py [--look]      at the top of the repository, once, after /opt/rattle/port/port.py

Definitions, parameters and record fields are in snake case: `streamLength` becomes `stream_length`. So are lemmas, whose
words were joined by dashes: `came-valid` becomes `came_valid`. A dash stays where it joins the names of two functions,
as in `length-drop`, in names that the library or the prover gives, and in lists of answers (proofs/F), whose names are
the prover's. Types, modules, functions of src/, exported names, strings, inputs and outputs keep their names.

--look writes nothing: it prints each new name, and each file in which two names fall together.
"""
import glob
import re
import sys

OWN = [p.split("/")[1] for p in sorted(glob.glob("crates/*/src"))]
WORD = re.compile(r"(?<![\w'-])[A-Za-z](?:[\w']|-(?=[\w']))*")
CAMEL = re.compile(r"[a-z][a-z0-9_]*[A-Z]")
DEFINED = re.compile(r"^\s*(?:(?:abbrev|unfoldable|pub|private|record|data)\s+)*([a-z][\w'-]*)(?:\s+[\w']+)*\s*:(?!:)", re.M)
FUNCTION = re.compile(r"^(?:abbrev|unfoldable) (?:pub )?([a-z][\w']*) : .*→", re.M)
# Functions of std that stand on both sides of a dash in names of lemmas.
WORDS = {"length", "drop", "take", "append", "set", "sets", "map", "cons", "get_or", "mul", "add", "sub", "mod", "xor"}


def read(p):
    with open(p, encoding="utf-8") as f:
        return f.read()


def snake(n):
    n = re.sub(r"([a-z0-9])([A-Z])", r"\1_\2", n)
    return re.sub(r"([A-Z])([A-Z][a-z])", r"\1_\2", n).lower()


def files():
    kinds = ("crates/*/specs/**/*.antt", "crates/*/proofs/**/*.antt", "crates/*/src/**/*.rt", "crates/*/must-fail/*.edit")
    return [p for k in kinds for p in sorted(glob.glob(k, recursive=True))]


def library_names(texts):
    """Names that files import from outside this repository."""
    found = set()
    for t in texts.values():
        for m in re.finditer(r"use ([^\s.{]+)\.([^\s{]*)\.?\{([^}]*)\}", t):
            if m.group(1) != "Rattle" or m.group(2).split(".")[0] not in OWN:
                found |= {n.strip() for n in m.group(3).split(",")}
    return found


def is_answer_file(p):
    return p.endswith(("/Proof.antt", "/Answers.antt", "/Invariants.antt"))


def new_names():
    texts = {p: read(p) for p in files()}
    given = library_names(texts)
    plain = set()
    spec = set()
    dashed = set()
    camel = set()
    for p, t in texts.items():
        if not p.endswith(".antt"):
            continue
        camel |= {w for w in WORD.findall(t) if CAMEL.match(w) and "-" not in w}
        for n in DEFINED.findall(t):
            if "-" not in n:
                plain.add(snake(n))
            elif not is_answer_file(p):
                dashed.add(n)
        if "/specs/" in p:
            spec |= {snake(n) for n in FUNCTION.findall(t)}
    functions = spec | WORDS
    new = {n: snake(n) for n in camel - given}
    for n in dashed - given:
        parts = n.split("-")
        keep = all(snake(x) in functions for x in parts)
        to = "-".join(snake(x) for x in parts) if keep else "_".join(snake(x) for x in parts)
        if to != n:
            new[n] = to
    for n in list(new):
        if "-" in n and new[n] in plain:
            new[n] += "_lem"
    return texts, new


def turned(p, t, new):
    """The text with the new names. In prose a dashed name is turned only in an index or between backticks."""

    def name(m):
        return new.get(m.group(0), m.group(0))

    def plain_name(m):
        return m.group(0) if "-" in m.group(0) else name(m)

    def ticked(m):
        return WORD.sub(name, m.group(0))

    if p.endswith(".md"):
        return re.sub(r"`[^`\n]*`", ticked, t)
    mark = "//" if p.endswith(".rt") else "--"
    lines = []
    for line in t.split("\n"):
        at = line.find(mark)
        if p.endswith(".edit") or at < 0 or line.startswith(mark + "   "):
            lines.append(WORD.sub(name, line))
        else:
            prose = re.sub(r"`[^`]*`", ticked, line[at:])
            lines.append(WORD.sub(name, line[:at]) + WORD.sub(plain_name, prose))
    return "\n".join(lines)


def fallen(texts, new):
    """Files in which a new name is already the name of something else, or two names become one."""
    for p, t in texts.items():
        there = set(WORD.findall(re.sub(r"(?m)(--|//).*$", "", t)))
        back = {}
        for w in sorted(there):
            back.setdefault(new.get(w, w), []).append(w)
        for to, ws in sorted(back.items()):
            if len(ws) > 1:
                yield p, to, ws


def main():
    texts, new = new_names()
    if "--look" in sys.argv:
        for n in sorted(new):
            print(n, new[n])
        for p, to, ws in fallen(texts, new):
            print("together:", p, to, ws)
        return
    pages = ["README.md"] + sorted(glob.glob("docs/*.md"))
    for p, t in list(texts.items()) + [(p, read(p)) for p in pages]:
        u = turned(p, t, new)
        if u != t:
            with open(p, "w", encoding="utf-8") as f:
                f.write(u)
    print(f"{len(new)} names respelt")


main()
