#!/usr/bin/env python3
"""Respells the repository's own ghost names as today's Rattle spells them: definitions, lemmas, fields and variables in
snake case, a prime as an apostrophe. Types, modules, constructors and what Rattle itself names keep their spelling.

usage: tools/respell.py          at the top of the repository, once, right after /opt/rattle/port/port.py
"""

import os
import re
import sys

TOKEN = re.compile(r"[^\s(){}\[\]:;,.\"`λ∀→←∷×≡⊎⟨⟩⌜⌝|]+")
IMPORT = re.compile(r"^\s*(?:pub\s+|ghost\s+)*use\s+([^\s{;]+?)(?:\.\{([^}]*)\})?(?:\s+as\s+\S+)?;?\s*$")
ALIAS = re.compile(r"^\s*(?:pub\s+)?use\s+Rattle\.\w+\.(?:specs|proofs)\.[A-Z][\w.]*\s+as\s+(\S+)$")
GOAL = re.compile(r"^\s*(?:pub\s+)?(\S+)\s*:\s*tie\.Need-")
FIELD = re.compile(r"^\s+pub\s+(\S+)\s*:\s")
CRATES = sorted(os.listdir("crates"))
# Names that would fall together with another: a lemma that would have a definition's name ends in _lem.
APART = {
    "any_below": "any_below_lem",
    "same_place": "same_place_lem",
    "spot_no": "spot_no_lem",
    "bit-and": "bit_and_lem",
    "bit-or": "bit_or_lem",
    "bit-xor": "bit_xor_lem",
    "share-of": "share_of_lem",
    "side-in": "side_in_lem",
    "set-up-refused": "set_up_is_refused",
    "setUp-refused": "set_up_refused",
}
# Modules that Rattle makes.
GENERATED = ("declared", "Statement", "Tie", "Goals", "Given")


def files(*endings):
    for folder, dirs, names in os.walk("crates"):
        dirs[:] = sorted(d for d in dirs if d != "out")
        for name in sorted(names):
            if name.endswith(endings):
                yield os.path.join(folder, name)


def read(path):
    with open(path, encoding="utf-8") as f:
        return f.read()


def own_module(path):
    parts = path.split(".")
    return parts[0] == "Rattle" and len(parts) > 1 and parts[1] in CRATES and not any(p in GENERATED for p in parts)


def library_names():
    """Names that a file brings in from a library, or from what Rattle makes of the source."""
    found = set()
    for path in files(".antt", ".rt"):
        for line in read(path).split("\n"):
            m = IMPORT.match(line)
            if m and m.group(2) and not own_module(m.group(1)):
                for entry in m.group(2).split(","):
                    found.update(entry.strip().split(" as "))
    return {n.strip() for n in found}


def snake(name):
    pieces = name.replace("′", "'").split("-")
    kept = []
    for piece in pieces:
        if re.match(r"[a-zℤ]", piece):
            piece = re.sub(r"(?<=[a-z0-9])(?=[A-Z])", "_", piece)
            piece = re.sub(r"_[A-Z](?![A-Z])", lambda m: m.group(0).lower(), piece)
            piece = re.sub(r"[A-Z]", lambda m: m.group(0).lower(), piece)
        kept.append(piece)
    out = kept[0]
    for piece in kept[1:]:
        joined = "-" if re.match(r"[A-Z]", out.split("_")[0].split("-")[0]) and out == kept[0] or not re.match(r"[a-z0-9]", piece) else "_"
        out += joined + piece
    return out


def wants(name):
    if not re.match(r"[a-zℤ]", name):
        return "′" in name
    return bool(re.search(r"[a-z0-9][A-Z]", name)) or "-" in name or "′" in name


def bodies(path):
    for line in read(path).split("\n"):
        at = line.find("--") if path.endswith(".antt") else -1
        yield line if at < 0 else line[:at]


def mapping():
    library = library_names()
    fields, names, goals = set(), set(), set()
    for path in files(".antt"):
        for line in bodies(path):
            m = GOAL.match(line)
            if m:
                goals.add(m.group(1))
                continue
            m = FIELD.match(line)
            if m:
                fields.add(m.group(1))
            for t in TOKEN.finditer(line):
                if not (t.start() and line[t.start() - 1] == "."):
                    names.add(t.group(0))
    old = {n for n in names | fields if wants(n)} - library
    table = {n: snake(n) for n in old}
    by = {}
    for name, new in table.items():
        by.setdefault(new, []).append(name)
    for new, olds in by.items():
        if len(olds) > 1:
            for name in olds:
                if "-" in name:
                    table[name] = new + "_lem"
    table.update(APART)
    return table, fields, goals, library, names


def turn_page(path, table):
    """Names in a page stand between backquotes."""
    text = read(path)
    new = re.sub(r"`[^`\n]+`", lambda m: TOKEN.sub(lambda t: table.get(t.group(0), t.group(0)), m.group(0)), text)
    if new != text:
        with open(path, "w", encoding="utf-8") as f:
            f.write(new)


def main():
    table, fields, goals, library, names = mapping()
    if "--list" in sys.argv:
        by = {}
        for a, b in table.items():
            by.setdefault(b, []).append(a)
        for b, olds in sorted(by.items()):
            if len(olds) > 1 or b in names or b in library:
                print("together:", olds, "->", b, "library" if b in library else "own" if b in names else "")
        print(len(table))
        return
    for folder in (".", "docs"):
        for name in sorted(os.listdir(folder)):
            if name.endswith(".md"):
                turn_page(os.path.join(folder, name), table)
    for path in files(".antt", ".rt"):
        text = read(path)
        aliases = {m.group(1) for m in map(ALIAS.match, text.split("\n")) if m}
        local = set()
        if path.endswith("Proof.antt"):
            local = {m.group(1) for m in map(GOAL.match, text.split("\n")) if m}
        out = []
        for line in text.split("\n"):
            m = IMPORT.match(line)
            if m and not own_module(m.group(1)):
                out.append(line)
                continue

            def turned(t):
                n = t.group(0)
                after_dot = t.start() and line[t.start() - 1] == "."
                head = re.search(r"[^\s(){}.]+$", line[: t.start() - 1]) if after_dot else None
                if n not in table or n in local or after_dot and n not in fields and not (head and head.group(0) in aliases):
                    return n
                if path.endswith(".rt") and "-" in n:
                    return n
                return table[n]

            if m:
                at = line.find("{")
                out.append(line if at < 0 else line[:at] + TOKEN.sub(lambda t: table.get(t.group(0), t.group(0)), line[at:]))
            else:
                out.append(TOKEN.sub(turned, line))
        new = "\n".join(out)
        if new != text:
            with open(path, "w", encoding="utf-8") as f:
                f.write(new)


main()
