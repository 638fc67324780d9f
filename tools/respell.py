#!/usr/bin/env python3
"""Brings the definitions and lemmas of the crates to today's spelling, after port.py; run once, at the top.

  words        snake case: mostSamples -> most_samples, with the names that stand in clauses and edits
  constructors and lemmas
               a dash joins two names of definitions (samples-pack stays), a plain word is added with '_'
               (pack-clean -> pack_clean); a lemma whose name would fall together with a definition's gets '_lem'
  namespaces   no middle dot in a name: Form·knows -> form_knows
  pages        the same names where README.md and docs/ have them between backticks

Functions of src/ keep their names, and so does what Rattle names: whatever stands after a dot.
`--list` prints the renamings and changes nothing.
"""
import glob
import re
import sys

# Lemmas whose names would fall together with a definition's, or with one another's.
LEMMAS = {
    "first_cell": "first_cell_lem",
    "from_low": "from_low_lem",
    "held_in": "held_in_lem",
    "header_of": "header_of_lem",
    "tail_of": "tail_of_lem",
    "arms_at": "arms_here",
}
# Names of std that lemmas join by a dash.
STD = set("length take drop set append map get_or replicate min max sum not cond mod div pow add mul sub".split())
# What port.py makes of names that the pages have too.
PORTED = {"getD": "get_or", "getElem?": "get_elem?", "linesOf": "lines_of", "numberOf": "number_of"}

CAMEL = re.compile(r"[a-z][a-z0-9]*(?:[A-Z][a-z0-9]*)+")
IDENT = r"[^\W\d][\w'?]*(?:-[\w'?*]+)*"
BEFORE, AFTER = r"(?<![\w'.\-·?«])", r"(?![\w'\-·?])"


def snake(name):
    name = re.sub(r"getD", "get_or", name)
    return re.sub(r"([a-z0-9])([A-Z])", lambda m: m.group(1) + "_" + m.group(2), name).lower()


def files(*patterns):
    return sorted(f for p in patterns for f in glob.glob(p, recursive=True))


def declared(text):
    """The names that a file of definitions or lemmas declares, with constructors, fields and local ones."""
    for line in text.split("\n"):
        if line.lstrip().startswith("--"):
            continue
        m = re.match(r"\s*(?:(?:pub|abbrev|unfoldable)\s+)*(" + IDENT + r")(?:\s+\{[^}]*\})?\s+:\s", line)
        if m:
            yield m.group(1)


def main():
    listed = "--list" in sys.argv
    specs = files("crates/*/specs/**/*.antt")
    proofs = files("crates/*/proofs/**/*.antt")
    lemmas = files("crates/*/proofs/*.antt")
    sources = files("crates/*/src/**/*.rt")
    edits = files("crates/*/must-fail/*.edit")
    pages = files("README.md", "docs/*.md", "docs/changes/*.md")
    texts = {f: open(f).read() for f in specs + proofs + sources + edits + pages}

    definitions = {n for f in specs for n in declared(texts[f])}
    known = {snake(n) for n in definitions} | STD
    idents = {m for f in specs + proofs for m in re.findall(IDENT, texts[f])}

    names = dict(LEMMAS)
    for name in sorted(idents):
        if CAMEL.fullmatch(name):
            names[name] = snake(name)
    taken = set(idents) | set(names.values())
    for f in specs + lemmas:
        for name in declared(texts[f]):
            if "-" not in name or name in names:
                continue
            parts = [p if re.match(r"[A-Z]", p) else snake(p) for p in name.split("-")]
            joins = f not in specs and len(parts) == 2 and all(p in known for p in parts)
            new = ("-" if joins else "_").join(parts)
            if new == name:
                continue
            if new in taken:
                new += "_lem"
            if new in taken:
                print("stays, since both names are taken:", name)
                continue
            names[name] = new
            taken.add(new)

    if listed:
        for name in names:
            print(name, "->", names[name])
        return

    def turned(text):
        def one(m):
            word = m.group(0)
            if word in names:
                return names[word]
            if "-" in word:
                return "-".join(snake(p) if CAMEL.fullmatch(p) or p == "getD" else p for p in word.split("-"))
            return word
        return re.sub(BEFORE + IDENT + AFTER, one, text)

    def fields(text):
        # a field or a member of ours after a dot or a dash is a word too, where it is in camel case
        return re.sub(r"(?<=\.)" + CAMEL.pattern + AFTER, lambda m: snake(m.group(0)), text)

    def dots(text):
        return re.sub(r"\b([A-Z]\w*)·(\w+)", lambda m: m.group(1).lower() + "_" + m.group(2), text)

    for f in specs + proofs:
        out = []
        for line in texts[f].split("\n"):
            out.append(dots(fields(turned(line))))
        write(f, "\n".join(out), texts[f])
    for f in sources:
        out = []
        ghost = False
        for line in texts[f].split("\n"):
            # comments name definitions; code does not, and keeps its own names
            ghost = ghost or re.match(r"\s*(ghost use|requires|ensures)\b", line) is not None
            if ghost or line.lstrip().startswith("//"):
                line = dots(fields(re.sub(CAMEL.pattern, lambda m: names.get(m.group(0), m.group(0)), line)))
            if ghost and re.search(r"[};]\s*$", line):
                ghost = False
            out.append(line)
        write(f, "\n".join(out), texts[f])
    for f in edits:
        write(f, dots(fields(turned(texts[f]))), texts[f])
    every = {**PORTED, **names}
    for f in pages:
        def page(m):
            return re.sub(BEFORE + IDENT + AFTER, lambda w: every.get(w.group(0), w.group(0)), m.group(0).replace("′", "'"))
        write(f, re.sub(r"`[^`\n]+`", page, texts[f]), texts[f])


def write(path, new, old):
    if new != old:
        open(path, "w").write(new)


main()
