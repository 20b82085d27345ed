#!/usr/bin/env python3
"""Spells this repository's own names in antt as today's Rattle does: definitions, fields, lemmas and variables in snake case.

usage: respell.py [--check]        at the top of the repository, once, right after the kit's port.py

It turns camel case everywhere in .antt and .rt files, in must-fail edits and in the pages' code spans. A dash in a name that a file of definitions
or of lemmas declares stays only where it joins two names, as in 'length-drop'; a plain word hangs on by an underscore. In a function's Proof.antt
a name with dashes turns only where the file imports it. Names of types, of functions of the source and those that Rattle makes keep their spelling.
--check writes nothing and lists the table, and where two names fall together.
"""
import os
import re
import sys

WORD = re.compile(r"[^\s(){}.;,@\"«»`⌜⌝\[\]|]+")
CAMEL = re.compile(r"(?<![A-Za-z0-9])[a-z][a-z0-9]*(?:[A-Z][a-z0-9]*)+")
NAMES = r"[^\s(){}.;,@\"«»:=]+(?: [^\s(){}.;,@\"«»:=]+)*?"
DECLARED = re.compile(r"(?m)^ *((?:(?:pub|abbrev|unfoldable|pattern) )*)(" + NAMES + r")(?: \{[^{}\n]*\})*(?: \([^()\n]*\))* : ")
USES = re.compile(r"(?m)^use ([^\s{]+)\.\{([^}]*)\}")
CRATES = set(os.listdir("crates"))
# Beside the definitions of this repository, the names that a dash may join in a lemma's name.
JOINED = set("length take drop map append get get_or set add sub mul div mod rem le lt eq ne zero suc cons nil iff min max cond ltb leb eqb".split())
# Names that already were in snake case and would hide a definition in their file.
SPECIAL = {
    "crates/tables/proofs/WriteAgain.antt": {"row_words": "row_words_lem"},
    "crates/theory/proofs/BusyWindow.antt": {"own_turn": "at_own_turn"},
}


def snake(word):
    return CAMEL.sub(lambda m: re.sub(r"(?<=[a-z0-9?])[A-Z]", lambda c: "_" + c[0].lower(), m[0]).lower(), word)


def files(ends, root="crates"):
    for folder, dirs, names in os.walk(root):
        dirs[:] = sorted(d for d in dirs if d not in ("out", "target", ".git"))
        for n in sorted(names):
            if n.endswith(ends):
                yield os.path.join(folder, n)


def read(path):
    with open(path, encoding="utf-8") as f:
        return f.read()


def code(text):
    return re.sub(r"(?m)(?:^|(?<=\s))--[^\n]*", "", text)


def declared(text, top=False):
    for m in DECLARED.finditer(code(text)):
        if top and m[0][0] == " ":
            continue
        if m[2].split(" ")[0] not in ("module", "use", "let", "where", "in", "rw", "λ"):
            yield from m[2].split(" ")


def tables():
    """Rows for camel case, and rows for the dashes."""
    camel, definitions, dashed, plain = {}, set(JOINED), set(), set()
    for path in files((".antt",)):
        text = read(path)
        for word in WORD.findall(code(text)):
            if CAMEL.search(word):
                camel[word] = snake(word)
        if "/specs/" in path:
            definitions |= {snake(w) for w in declared(text, True)}
        plain |= {w for w in declared(text) if "-" not in w}
        if not path.endswith("/Proof.antt"):
            dashed |= {w for w in declared(text) if "-" in w.strip("-")}
    dash = {}
    for word in dashed:
        parts = snake(word).split("-")
        new = parts[0]
        for a, b in zip(parts, parts[1:]):
            new += ("-" if a in definitions and b in definitions else "_") + b
        # A lemma that would have its definition's name ends in _lem.
        dash[word] = new + "_lem" if new in plain or new in camel.values() else new
    return camel, dash


def turn(text, rows):
    return WORD.sub(lambda m: rows.get(m[0], m[0]), text)


def imported(text, own):
    """The names that a file imports from this repository's crates, or from the libraries."""
    found = set()
    for m in USES.finditer(text):
        steps = m[1].split(".")
        if (steps[0] == "Rattle" and steps[1] in CRATES) == own:
            found |= {w.strip().split(" ")[0] for w in m[2].split(",")}
    return found


def rows_for(path, text, camel, dash):
    if path.endswith(".rt"):
        return camel
    foreign = imported(text, False)
    if path.endswith("/Proof.antt"):
        mine = imported(text, True)
        return {w: n for w, n in camel.items() if w not in foreign} | {w: n for w, n in dash.items() if w in mine}
    return {w: n for w, n in (camel | dash).items() if w not in foreign} | SPECIAL.get(path, {})


def main():
    check = "--check" in sys.argv
    camel, dash = tables()
    bad = 0
    for path in files((".antt", ".rt")):
        text = read(path)
        rows = rows_for(path, text, camel, dash)
        words = set(WORD.findall(code(text) if path.endswith(".antt") else re.sub(r"//[^\n]*", "", text)))
        if check:
            for old in sorted(words):
                new = rows.get(old, old)
                if new != old and new in words:
                    print(f"together: {path}: {old} and {new}")
                    bad += 1
            seen = {}
            for old in sorted(words):
                new = rows.get(old, old)
                if new != old and new in seen and seen[new] != old:
                    print(f"together: {path}: {old} and {seen[new]} as {new}")
                seen.setdefault(new, old)
        else:
            new = turn(text, rows)
            if new != text:
                with open(path, "w", encoding="utf-8") as f:
                    f.write(new)
    if check:
        print(len(camel), len(dash), bad, "fall together")
        for r in sorted(dash):
            if dash[r] != r:
                print(r, dash[r])
        return
    both = camel | dash
    for path in files((".edit",)):
        text = read(path)
        new = "\n".join(turn(line, both if ".antt" in text.split("\n")[1] + line else camel) if line.startswith(("old:", "new:")) else turn(line, camel) for line in text.split("\n"))
        if new != text:
            with open(path, "w", encoding="utf-8") as f:
                f.write(new)


main()
