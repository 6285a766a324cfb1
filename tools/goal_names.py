#!/usr/bin/env python3
"""Turns the names of goals and of their values in a crate's proof files to those that the checker makes today.

usage: goal_names.py CRATE NAMES     in the repository; NAMES is the names.json of `rt check --generated FOLDER --old-names` in the crate
A name is turned where today's list has just one that differs from it in hyphens, underscores and case alone.
"""
import json
import os
import re
import sys

crate, listed = sys.argv[1:3]
TOKEN = re.compile(r"(?<![\w'◌-])[^\W\d][\w']*(?:-[\w']+)*(?:--[\w'-]+)?(?![\w'◌-])")


def strings(x):
    if isinstance(x, str):
        yield x
    elif isinstance(x, list):
        for y in x:
            yield from strings(y)
    elif isinstance(x, dict):
        for k, y in x.items():
            yield k
            yield from strings(y)


def flat(name):
    return re.sub("-+", "-", name.lower().replace("_", "-"))


names = json.load(open(listed))
for key, entry in names.items():
    path = re.match(r"Rattle-\w+-proofs\.(.*)\.Lts$", key)
    if not path:
        continue
    folder = os.path.join("crates", crate, "proofs", *path.group(1).split("."))
    if not os.path.isdir(folder):
        continue
    have = set(strings(entry))
    by_flat = {}
    for n in have:
        by_flat.setdefault(flat(n), set()).add(n)
    for file in sorted(os.listdir(folder)):
        if not file.endswith(".antt"):
            continue
        p = os.path.join(folder, file)
        text = open(p, encoding="utf-8").read()
        taken = set()
        for m in re.finditer(r"^use ([^\s{;]+?)\.?\{([^}]*)\}", text, re.M):
            if not re.search(r"\.(Goals|Given)$", m.group(1)):
                taken |= {n.strip() for n in m.group(2).split(",")}

        def put(m):
            n = m.group(0)
            if n in have or n in taken or not ("-" in n or "_" in n):
                return n
            found = {x for x in by_flat.get(flat(n), ()) if x[0].islower() == n[0].islower()}
            return found.pop() if len(found) == 1 else n

        lines = [l if l.startswith("use ") and not re.search(r"\.(Goals|Given)\b", l) else TOKEN.sub(put, l) for l in text.split("\n")]
        new = "\n".join(lines)
        if new != text:
            open(p, "w", encoding="utf-8").write(new)
            print(p)
