#!/usr/bin/env python3
"""Spells this repository's own definitions and lemmas as today's Rattle does. Run once, after its port.py, at the top of the checkout.

A definition, a field and a label are in snake case. A dash in a lemma's name stays where it joins the names of two definitions, as in
`length-counts_at`, and becomes a `_` before a plain word. Names that would fall together keep their dash, or have a name of their own in OWN.
Functions of src/, exported names, strings, inputs and outputs are not touched: they were in snake case. The pages' names in backticks follow.
"""
import collections
import os
import re
import subprocess
import sys

# names that would fall together with a definition's: the label of a statement says what the call does
OWN = {
    "slot-call": "slot_calls",
    "limits-call": "limits_calls",
    "image-call": "image_calls",
    "raise-call": "raise_calls",
    "close-call": "close_calls",
    "lookup-call": "lookup_calls",
    "increment-call": "increment_calls",
    "check-call": "check_calls",
    "busy-call": "busy_calls",
}
# what port.py let fall together, or garbled: by file
HERE = {
    "crates/model/specs/Sound.antt": {"field_own": "own_at"},
    "crates/model/proofs/SoundWalls.antt": {"zero_test": "zero-test"},
    "crates/model/proofs/Steps.antt": {"no_room": "no-room"},
    "crates/growth/proofs/Bytes.antt": {"rows_in": "rows-in"},
    "crates/steps/proofs/Writing.antt": {"full_at": "full-at"},
    "crates/found/proofs/Here.antt": {"own_at": "own-at"},
    "crates/fulls/proofs/Gains.antt": {"at_least": "at-least"},
}
TOKEN = re.compile(r"(?<![\w'·-])[A-Za-z_][\w'₀-₉]*(?:-[\w'₀-₉]+)*(?![\w'-])")
DECLARED = re.compile(r"^\s*(?:(?:abbrev|unfoldable|pub|record|data|ruleset)\s+)*([^\s:(){}]+)\s*(?:\([^)]*\)\s*|\{[^}]*\}\s*)*:(?!.*\btie\.)")
COMMENT = re.compile(r"--.*|//.*")


def text(path):
    with open(path, encoding="utf-8") as f:
        return f.read()


def below(folder, endings):
    for at, folders, files in os.walk(folder):
        folders[:] = sorted(d for d in folders if d not in ("out", ".git"))
        for f in sorted(files):
            if f.endswith(endings):
                yield os.path.join(at, f)


def declared(paths):
    return {m.group(1) for p in paths for line in text(p).split("\n") for m in [DECLARED.match(line)] if m}


def snake(name):
    return re.sub(r"(?<=[a-z0-9])([A-Z])", lambda m: "_" + m.group(1).lower(), name)


def without_comments(t):
    return COMMENT.sub("", t)


def write(path, t):
    if t != text(path):
        with open(path, "w", encoding="utf-8") as f:
            f.write(t)


def main():
    kit = os.path.dirname(subprocess.run(["rt", "doc"], capture_output=True, text=True, check=True).stdout.split()[0])
    library = declared(p for p in below(kit, (".antt",)) if not p.startswith(os.path.join(kit, "port")))
    sources = list(below("crates", (".antt", ".rt")))
    lemmas = [p for p in sources if p.endswith(".antt") and "/proofs/" in p and p.split("/proofs/")[1].count("/") == 0]
    specs = [p for p in sources if p.endswith(".antt") and "/specs/" in p]
    for p, words in HERE.items():
        write(p, TOKEN.sub(lambda m: words.get(m.group(0), m.group(0)), text(p)))
    used = {p: {m.group(0) for m in TOKEN.finditer(without_comments(text(p)))} for p in sources}
    known = {snake(n) for n in declared(specs) if "-" not in n}
    for p in sources:
        for names in re.findall(r"^(?:ghost )?use Rattle\.std[\w.]*\.\{([^}]*)\}", text(p), re.M):
            known |= {n.strip() for n in names.split(",")}
    fields = declared(specs)

    new = {}
    for name in set().union(*used.values()):
        if name in library or not re.match(r"[a-z]", name):
            continue
        if name in OWN:
            new[name] = OWN[name]
        elif "-" not in name:
            if re.search(r"[a-z0-9][A-Z]", name):
                new[name] = snake(name)
        elif re.search(r"getD", name) or name in fields or name in declared(lemmas):
            parts = [snake(part.replace("getD", "get_or")) for part in name.split("-")]
            joined = parts[0]
            for left, right in zip(parts, parts[1:]):
                dash = name not in fields and (left in known or left[0].isupper()) and (right in known or right[0].isupper())
                joined += ("-" if dash else "_") + right
            new[name] = joined
        elif re.search(r"[a-z0-9][A-Z]", name) and name in declared(p for p in sources if p.endswith(".antt")):
            new[name] = snake(name)

    # names that would fall together in a file keep their dash
    again = True
    while again:
        again = False
        for p, names in used.items():
            met = collections.defaultdict(set)
            for n in names:
                met[new.get(n, n)].add(n)
            for to, olds in met.items():
                if len(olds) < 2:
                    continue
                for n in olds:
                    kept = snake(n.replace("getD", "get_or"))
                    if "-" in n and new.get(n, n) != kept:
                        new[n] = kept
                        again = True
                        print(f"kept: {n} as {kept}: {p} has {sorted(olds)}")
    for p, names in used.items():
        met = collections.defaultdict(set)
        for n in names:
            met[new.get(n, n)].add(n)
        for to, olds in met.items():
            if len(olds) > 1:
                print(f"look: {p}: {sorted(olds)} are all {to}")
    new = {a: b for a, b in new.items() if a != b}

    def turned(t, dashes):
        return TOKEN.sub(lambda m: new.get(m.group(0), m.group(0)) if dashes or "-" not in m.group(0) else m.group(0), t)

    def line_by_line(t, mark):
        out = []
        for line in t.split("\n"):
            at = re.search(mark, line)
            cut = at.start() if at else len(line)
            out.append(turned(line[:cut], True) + turned(line[cut:], False))
        return "\n".join(out)

    for p in sources:
        write(p, line_by_line(text(p), r"--" if p.endswith(".antt") else r"//"))
    for p in below("crates", (".edit",)):
        write(p, turned(text(p), True))
    for p in list(below("docs", (".md",))) + ["README.md"]:
        if os.path.basename(p) != "PORT.md":
            write(p, re.sub(r"`[^`\n]*`", lambda m: turned(m.group(0), True), text(p)))
    print(f"{len(new)} names respelled")
    if "--list" in sys.argv:
        for a, b in sorted(new.items()):
            print(f"{a} {b}")


main()
