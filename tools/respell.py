#!/usr/bin/env python3
"""Respells this repository's own antt names: definitions, lemmas, fields of records and cases of relations in snake case.

usage: python3 tools/respell.py [--list]      at the top of the repository, right after port.py, once

A definition in camel case (`kindNumber`) becomes `kind_number`, a dash between words (`same-level`) an underscore. The names of goals
(`returns-in-Some : goal.returns-in-Some`), names of types and modules, names of the source and texts in quotes stay. A dash stays
behind `length`, where it joins two names. Names that would fall together with another are in OTHERS.
"""
import os
import re
import sys

# names that the rule would make equal to another name in scope
OTHERS = {
    "bit-and": "bit-bit_and",
    "bit-or": "bit-bit_or",
    "inOrder": "in_order",
    "in_order": "in_order_lem",
    "resultCount": "result_count",
    "result_count": "result_count_lem",
    "arg-count": "arg_count_lem",
    "first-word": "first_word_lem",
    "after-word": "after_word_lem",
    "last-eight": "last_eight_lem",
    "other-cells": "other_cells_lem",
    "other-marks": "other_marks_lem",
    "queue-at": "queue_at_lem",
}

WORD = re.compile(r"[A-Za-z_À-ʯΑ-ωℕ₀-₉0-9'′?·-]+")
DEF = re.compile(r"^( *)((?:(?:abbrev|unfoldable|pub)\s+)*)([A-Za-z_][\w'-]*)\s*:\s(.*)$", re.M)


def files(kinds):
    for folder, dirs, names in os.walk("crates"):
        dirs[:] = sorted(d for d in dirs if d != "out")
        for name in sorted(names):
            if name.endswith(kinds):
                yield os.path.join(folder, name)


def snake(name):
    name = re.sub(r"(?<=[a-z0-9])([A-Z])", lambda m: "_" + m[1].lower(), name)
    if name.startswith("length-"):
        return "length-" + name[7:].replace("-", "_")
    if name.startswith("get_d-"):
        return "get_or-" + name[6:].replace("-", "_")
    return name.replace("-", "_")


def wanted(name):
    return name[0].islower() and (re.search(r"[a-z0-9][A-Z]", name) or "-" in name)


def table():
    found = {}
    for path in files((".antt",)):
        text = open(path, encoding="utf-8").read()
        for m in DEF.finditer(text):
            name, kind = m[3], m[4]
            if not (wanted(name) or name in OTHERS) or re.match(r"goal\.", kind) or re.match(r"\s*goal\.", kind):
                continue
            if name.startswith(("loop-", "returns-", "invariant-", "decreases-", "bounds-", "overflow", "invariant_of-")):
                continue
            new = OTHERS.get(name, snake(name))
            if new != name:
                found[name] = new
    return found


def strings(text):
    """Where texts in double quotes stand."""
    return [(m.start(), m.end()) for m in re.finditer(r'"(?:[^"\\\n]|\\.)*"', text)]


def turn(text, names):
    out, last = [], 0
    quoted = strings(text)
    at = 0
    for m in WORD.finditer(text):
        while at < len(quoted) and quoted[at][1] <= m.start():
            at += 1
        if at < len(quoted) and quoted[at][0] <= m.start() < quoted[at][1]:
            continue
        word = m[0]
        if word not in names:
            continue
        # a part of a goal's record, as `c.read-stop.result`: only names in camel case are fields of this repository's records
        before = text[m.start() - 1] if m.start() else ""
        if before == "." and "-" in word:
            path = re.search(r"([\w'-]+)\.$", text[: m.start()])
            if not path or not path[1][:1].isupper():
                continue
        out += [text[last : m.start()], names[word]]
        last = m.end()
    return "".join(out) + text[last:]


def main():
    names = table()
    if "--list" in sys.argv:
        for a, b in sorted(names.items()):
            print(a, b)
        return
    n = 0
    for path in files((".antt", ".rt")):
        text = open(path, encoding="utf-8").read()
        new = turn(text, names)
        if new != text:
            open(path, "w", encoding="utf-8").write(new)
            n += 1
    print(f"{len(names)} names, {n} files")


main()
