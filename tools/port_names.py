#!/usr/bin/env python3
"""Respells the repository's own definitions and lemmas as today's Rattle spells names: words in snake case, types and facts in camel case.

usage: python3 tools/port_names.py [--dry]      at the top of the repository, once, right after the kit's port.py

A name of an .antt file that begins with a small letter and holds a dash or a capital is put in snake case, wherever it is used; so are
names of record fields, of modules brought in by `as`, and of `let`s. Names of src/ (functions, types, their fields), exported C names,
strings, inputs and outputs are not touched, nor what a Proof.antt declares. Names that would fall together with another of the same file are printed, and
OTHERWISE below says what they are called.
"""

import collections
import os
import re
import sys

# What a name is called where its snake case is taken already; a name of src/ keeps its own, and so does a theorem of Determined.antt.
OTHERWISE = {
    "entryCount": "entry_count_of",
    "firstIndex": "first_index_of",
    "keyValue": "key_value_of",
    "itemRows": "item_rows_of",
    # lemmas on a definition that now has their name
    "place_after": "place_after_lem",
    "ready_by": "ready_by_lem",
    "next_row": "next_row_lem",
    "table-of": "table_of_lem",
}

TOKEN = re.compile(r"[^\s(){}\[\];,.:`\"]+")
END = r"(?![^\s(){}\[\];,.:`\"])"
START = r"(?<![^\s(){}\[\];,:`\"])"
DECL = re.compile(r"^\s*(?:(?:abbrev|unfoldable|pub) )*((?:[^\s:(){}=]+ )*[^\s:(){}=]+) :(?: |$)")
HEAD = re.compile(r"^\s*(?:pub )?(data|record) (\S+)")
USE = re.compile(r"^\s*(?:ghost )?use ([^\s{;]+?)(?:\.\{(.*)\})?(?: as ([^\s;]+))?;?\s*$")
LET = re.compile(r"\blet ([^\s:(){}=]+) [:=]")
KEEP = {"pub", "abbrev", "unfoldable", "let", "open", "use", "module", "where", "λ"}


def odd(name):
    return name in OTHERWISE or name[0].isalpha() and (name[0].islower() or not name[0].isascii()) and ("-" in name or re.search("[a-z0-9][A-Z]", name))


def snake(name):
    if name in OTHERWISE:
        return OTHERWISE[name]
    name = re.sub(r"([a-z0-9])([A-Z])", lambda m: m.group(1) + "_" + m.group(2).lower(), name)
    return re.sub(r"(?<=\w)-(?=\w)", "_", name)


def files():
    for folder, dirs, names in os.walk("crates"):
        dirs[:] = sorted(d for d in dirs if d != "out")
        for name in sorted(names):
            if name.endswith((".antt", ".rt")):
                yield os.path.join(folder, name)


def own_module(path, crates):
    parts = path.split(".")
    if parts[0] == "Rattle" and len(parts) > 1 and parts[1] in crates:
        return ".declared." not in path and not path.endswith((".Goals", ".Given", ".Tie", ".Statement"))
    return False


def main():
    crates = set(os.listdir("crates"))
    text = {p: open(p, encoding="utf-8").read() for p in files()}
    declared, fields, foreign = collections.defaultdict(set), set(), collections.defaultdict(set)
    for p, t in text.items():
        if not p.endswith(".antt"):
            continue
        inside = None
        proof = p.endswith("/Proof.antt")
        for line in t.split("\n"):
            if line.strip().startswith("--"):
                continue
            indent = len(line) - len(line.lstrip())
            if line.strip() and inside is not None and indent <= inside:
                inside = None
            m = USE.match(line)
            if m:
                if m.group(2) and not own_module(m.group(1), crates):
                    foreign[p] |= {n.strip().split(" as ")[-1] for n in m.group(2).split(",")}
                if m.group(3) and not proof:
                    declared[m.group(3)].add(p)
                continue
            m = HEAD.match(line)
            if m:
                inside = indent
                continue
            m = DECL.match(line)
            if m:
                for name in m.group(1).split():
                    if name not in KEEP:
                        if inside is not None:
                            fields.add(name)
                        elif not proof:
                            declared[name].add(p)
            if not proof:
                for name in LET.findall(line):
                    declared[name].add(p)
    names = {n: snake(n) for n in set(declared) | fields if odd(n) and snake(n) != n}
    taken = {new for n, new in names.items() if "-" not in n}
    for n in names:
        if "-" in n and names[n] in taken:
            names[n] += "_lem"
    dry = "--dry" in sys.argv
    clashes = 0
    for p, t in text.items():
        have = {m.group(0) for m in TOKEN.finditer(t)}
        seen = collections.defaultdict(set)
        for n in have:
            if n in names and n not in foreign[p]:
                seen[names[n]].add(n)
            elif n not in names:
                seen[n].add(n)
        for new, olds in seen.items():
            if p.endswith(("/Determined.antt", "/Proof.antt")):
                continue
            if len(olds) > 1 and p.endswith(".antt") or len([o for o in olds if o in names]) > 1:
                print(f"clash: {p}: {sorted(olds)}")
                clashes += 1
    if dry:
        print(f"{len(names)} names, {clashes} clashes")
        return
    for p, t in text.items():
        out = []
        clause = False
        for line in t.split("\n"):
            comment = line.strip().startswith("--") or line.strip().startswith("//")
            rt = p.endswith(".rt")
            if rt and re.match(r"^\s*(ghost use|requires|ensures|ghost )", line):
                clause = True

            def put(m):
                n = m.group(0)
                if n not in names or n in foreign[p] or n in OTHERWISE and "-" not in n and n == n.lower() and p.endswith(("/Determined.antt", ".rt")):
                    return n
                before = line[m.start() - 1] if m.start() else " "
                if before == "." and n not in fields and not re.search(r"(?:^|[^\w'.-])[\w-]+\.$", line[: m.start()]):
                    return n
                if before == "." and n not in fields:
                    alias = re.search(r"([\w'-]+)\.$", line[: m.start()]).group(1)
                    if alias not in aliases:
                        return n
                if comment and "-" in n and before != "`" and p not in declared[n]:
                    return n
                if rt and "-" in n and not clause:
                    return n
                if p.endswith("/Determined.antt"):
                    return names[n].removesuffix("_lem")
                return names[n]

            aliases = {m.group(3) for m in map(USE.match, t.split("\n")) if m and m.group(3) and own_module(m.group(1), crates)}
            out.append(TOKEN.sub(put, line))
            if rt and clause and (line.rstrip().endswith((";", "}")) and not line.strip().startswith("ghost use") or line.strip().startswith("ghost use") and line.rstrip().endswith(";")):
                clause = False
        new = "\n".join(out)
        if new != t:
            open(p, "w", encoding="utf-8").write(new)
    print(f"{len(names)} names, {clashes} clashes")


main()
