#!/usr/bin/env python3
"""Lists the places of src/ where an older form may stand, by point, and counts them.

usage: places.py [COUNTS]      at the top of a tree; with the word `counts` only the totals
Points 1 to 7 are read off the code by the patterns below; point 8 counts answers and lemma files of proofs/. What is listed
is what is to be looked at: docs/DESIGN-PASS.md says what became of them.
"""
import collections
import glob
import os
import re
import sys

PATTERNS = [
    (1, "enum", r"^\s*(pub(\(crate\))? )?enum \w+"),
    (1, "flag in a struct", r"^\s+(pub(\(crate\))? )?\w+: bool,$"),
    (1, "number for a refusal or a kind", r"\bnumber\w*\(.*-> u\d+|\bnumber: u32|^\s+pub (axis|tag): u8,$"),
    (1, "number that says nothing", r"fn \w+\(\) -> u8$"),
    (3, "index loop", r"\bfor _?\w+ in \d+u?\d*\.\.|\bwhile |\bloop \{"),
    (4, "number or place of a fault", r"fn (number|place)\(self"),
    (4, "conversion or test by hand", r"fn (of|converted|descends|fits|is_same|is_finish|is_right|all_right|digit|none)\b"),
    (4, "printing by hand", r"extend_from_slice"),
    (4, "range of bytes by hand", r">= b'.' && \w+ <= b'.'"),
    (6, "array", r"^\s+(pub(\(crate\))? )?\w+: \[.*; .*\],$|= \[0u8; \w+\];"),
    (6, "computed index", r"\* \w+( as usize)? \+ |/ PER_STATE|% PER_STATE"),
    (6, "buffer and length", r"buf: &mut \[u8\]|mut buf = "),
    (6, "index for a node", r"^\s+parent: u8,$"),
    (7, "switch", r"[(,] ?\w+: bool[,)]|^\s+\w+: bool,$"),
]


def functions(text):
    """Name, parameters, clauses and body of each function with a body, and its line."""
    for m in re.finditer(r"\bfn (\w+)(?:<[^({]*>)?\(", text):
        depth, i = 1, m.end()
        while depth and i < len(text):
            depth += {"(": 1, ")": -1}.get(text[i], 0)
            i += 1
        params = text[m.end():i - 1]
        body = re.search(r"\n\s*\{(?: *\n|\})|;\n| \{(?:\n|\})", text[i:])
        if not body or body.group().startswith(";"):
            continue
        start = i + body.end()
        head = text[i:i + body.start()]
        depth, j = 1, start
        if body.group().endswith("}"):
            j = start + 1
        else:
            while depth and j < len(text):
                depth += {"{": 1, "}": -1}.get(text[j], 0)
                j += 1
        yield m.group(1), params, head, text[start:max(start, j - 1)], text.count("\n", 0, m.start()) + 1


def sources():
    for path in sorted(glob.glob("crates/*/src/**/*.rt", recursive=True)):
        with open(path, encoding="utf-8") as f:
            yield path, f.read()


def shape(body):
    """A body with each name and number turned to the same sign, so that what differs in a constant alone is the same."""
    body = re.sub(r"//.*", "", body)
    body = re.sub(r"b?'(\\.|[^'\\])'|b?\"[^\"]*\"|\b\d[\d_]*\w*\b", "1", body)
    words = re.findall(r"\w+|[^\s\w]", body)
    keep = {"if", "else", "for", "in", "while", "loop", "match", "return", "let", "mut", "Ok", "Err", "Some", "None", "as"}
    return " ".join(w if w in keep or not re.match(r"\w", w) else "x" for w in words)


def main():
    found = collections.defaultdict(list)
    twins, callers, clauses, groups = (collections.defaultdict(list) for _ in range(4))
    contract = {}
    for path, text in sources():
        inside = False
        for n, line in enumerate(text.split("\n"), 1):
            if re.match(r"^(pub )?(pub\(crate\) )?(struct|enum|trait)\b", line):
                inside = True
            if line.startswith("}"):
                inside = False
            if line.lstrip().startswith("//"):
                continue
            for point, kind, pattern in PATTERNS:
                if point == 7 and inside or kind == "flag in a struct" and not inside or kind == "array" and "fn " in line:
                    continue
                if re.search(pattern, line):
                    found[point, kind].append(f"{path}:{n}: {line.strip()}")
        for name, params, head, body, line in functions(text):
            place = f"{path}:{line}: {name}"
            words = shape(body).split()
            if len(words) >= 12 and "tests" not in path:
                twins[" ".join(words)].append(place)
            call = re.fullmatch(r"\s*(?:Self::|self\.|\w+::)?(\w+)\([\w\s,&.]*\)\s*", body)
            said = " ".join(re.sub(r"\b(self|result)\b", "x", c) for c in re.findall(r"ensures (?:\w+ )?\{(.*)\}", head))
            contract[os.path.dirname(path), name] = said
            if call and said:
                callers[place].append((os.path.dirname(path), call.group(1), said))
            for clause in re.findall(r"(?:requires|ensures) (?:\w+ )?\{ (.*) \}", head):
                for part in clause.split(" × "):
                    part = part.strip("() ")
                    if len(part) > 24:
                        clauses[part].append(place)
            names = tuple(re.sub(r"^mut ", "", p.split(":")[0].strip()) for p in re.split(r",(?![^<\[(]*[>\])])", params) if ":" in p)
            for size in (3, 4):
                for k in range(len(names) - size + 1):
                    groups[names[k:k + size]].append(place)
    for places in twins.values():
        if len(places) > 1:
            found[2, "same shape"].append(" | ".join(places))
    for place, calls in callers.items():
        for folder, callee, said in calls:
            if contract.get((folder, callee)) and len(said) > 20 and callee != place.split(": ")[1]:
                if sorted(contract[folder, callee].split()) == sorted(said.split()):
                    found[2, "call that repeats a contract"].append(f"{place} -> {callee}")
    for part, places in clauses.items():
        if len(set(places)) >= 3:
            found[5, "clause in three or more functions"].append(f"{len(set(places))} times: {part}")
    for names, places in groups.items():
        if len(set(places)) >= 3:
            found[5, "parameters that travel together"].append(f"{len(set(places))} times: {', '.join(names)}")
    for folder in sorted(glob.glob("crates/*/proofs")):
        answers = sum(len(re.findall(r"^pub \S+ : goal\.", open(p, encoding="utf-8").read(), re.M)) for p in glob.glob(folder + "/**/*.antt", recursive=True))
        lemmas = len([p for p in glob.glob(folder + "/*.antt") if not p.endswith("Lib.antt")])
        lines = sum(open(p, encoding="utf-8").read().count("\n") for p in glob.glob(folder + "/**/*.antt", recursive=True))
        if lines > 1:
            found[8, "proofs"].append(f"{folder.split('/')[1]}: {answers} answers, {lemmas} lemma files, {lines} lines")
    only = sys.argv[1:] == ["counts"]
    for (point, kind), places in sorted(found.items()):
        print(f"{point} {kind}: {len(places)}")
        if not only:
            for p in places:
                print(f"    {p}")


main()
