#!/usr/bin/env python3
"""Brings the repository's own definitions and lemmas to today's spelling: words in snake case, types and modules in camel case.

Run once, at the top, right after port.py. Names that the library or the checker makes keep their hyphens: it renames only what our own
specs/ and proofs/ declare or bind, there and in the clauses, proof files, edits and pages that use them.
"""
import os
import re
import sys

WORD = r"[^\W\d][\w']*(?:-[\w']+)+"
# a name with a hyphen, not part of an operator or of a longer name
TOKEN = re.compile(r"(?<![\w'◌-])" + WORD + r"(?![\w'◌-])")


def crates():
    for line in open("crates.txt"):
        if ":" in line and not line.startswith("#"):
            yield line.split(":")[0].split()[0]


def files(*ends):
    for top in crates():
        for folder, dirs, names in os.walk(os.path.join("crates", top)):
            dirs[:] = sorted(d for d in dirs if d != "out")
            for name in sorted(names):
                if name.endswith(ends):
                    yield os.path.join(folder, name)


def is_ours(path):
    """specs/X.antt or proofs/X.antt: our definitions and lemmas, and no proof of a function."""
    parts = path.split("/")
    return path.endswith(".antt") and len(parts) == 4 and parts[2] in ("specs", "proofs")


# names that would fall together with a name of the library in the same file
OTHERWISE = {"bit-or": "bit_of_or", "bit-and": "bit_of_and"}


def turned(name):
    if name in OTHERWISE:
        return OTHERWISE[name]
    if name[0].isupper():
        return "".join(p[0].upper() + p[1:] for p in name.split("-"))
    return name.replace("-", "_")


def code_parts(line, mark):
    """The line as (code, comment)."""
    i = line.find(mark)
    while i >= 0 and line[:i].count('"') % 2 == 1:
        i = line.find(mark, i + 1)
    return (line, "") if i < 0 else (line[:i], line[i:])


def imports_of_others(text, ours):
    """The names that a file takes from modules that are not ours."""
    found = set()
    for m in re.finditer(r"^(?:ghost )?use ([^\s{;]+?)\.?\{([^}]*)\}", text, re.M):
        path = re.match(r"Rattle\.(\w+)", m.group(1))
        made = re.search(r"\.(Goals|Given)\b", m.group(1))
        if made or not (path and path.group(1) in ours):
            for n in m.group(2).split(","):
                found.add(n.strip().split(" as ")[-1].strip())
    return found


def main():
    ours = set(crates())
    texts = {p: open(p, encoding="utf-8").read() for p in files(".antt", ".rt", ".edit")}
    others = set()
    for p, t in texts.items():
        others |= imports_of_others(t, ours)
    names = set()
    for p, t in texts.items():
        if is_ours(p):
            for line in t.split("\n"):
                for m in TOKEN.finditer(code_parts(line, "--")[0]):
                    names.add(m.group(0))
        elif p.endswith(".antt"):
            # helpers beside the answers of a function's proof: declared here, and no goal of it
            for m in re.finditer(r"^ *(?:pub |abbrev )*(" + WORD + r") :(?! goal\.)", t, re.M):
                names.add(m.group(1))
    clash = {n for n in names if n in others}
    for n in sorted(clash):
        print("kept, the library has it:", n)
    names -= clash
    new = {n: turned(n) for n in names}
    seen = {}
    for n, to in sorted(new.items()):
        if to in seen:
            print("fall together:", n, "and", seen[to])
        seen[to] = n
    word = re.compile(r"(?<![\w'◌-])[^\W\d][\w']*(?![\w'◌-])")
    for p, t in texts.items():
        have = {m.group(0) for m in word.finditer("\n".join(code_parts(l, "--" if p.endswith(".antt") else "//")[0] for l in t.split("\n")))}
        for m in TOKEN.finditer(t):
            if m.group(0) in new and new[m.group(0)] in have:
                print("look:", p, m.group(0), "beside", new[m.group(0)])

    def put(text):
        return TOKEN.sub(lambda m: new.get(m.group(0), m.group(0)), text)

    def put_capital(text):
        return TOKEN.sub(lambda m: new.get(m.group(0), m.group(0)) if m.group(0)[0].isupper() else m.group(0), text)

    for p, t in texts.items():
        mark = "--" if p.endswith(".antt") else "//"
        lines = []
        for line in t.split("\n"):
            code, comment = code_parts(line, mark)
            if p.endswith(".antt"):
                code = put(code)
            else:
                parts = re.split(r'("(?:[^"\\]|\\.)*")', code)
                code = "".join(x if x.startswith('"') else put(x) for x in parts)
            lines.append(code + re.sub(r"`[^`]*`", lambda m: put(m.group(0)), put_capital(comment)))
        t2 = "\n".join(lines)
        if t2 != t:
            open(p, "w", encoding="utf-8").write(t2)
    for p in ["README.md"] + ["docs/" + f for f in sorted(os.listdir("docs")) if f.endswith(".md")]:
        t = open(p, encoding="utf-8").read()
        t2 = re.sub(r"`[^`\n]*`", lambda m: put(m.group(0)), t)
        if t2 != t:
            open(p, "w", encoding="utf-8").write(t2)
    print(len(new), "names")


sys.exit(main())
