#!/usr/bin/env python3
"""Brings the names of this repository's own definitions and lemmas to today's spelling; run once, after port.py, at the top of the repository.

usage: python3 tools/respell.py [--table]      --table: prints the old and the new name of each, and writes nothing

A word is in snake case, a fact (what is valued in a Type) in upper camel case, and a dash joins two names only: between words of which one is no name
an underscore stands. A name is one that a definition of the repository has (not a lemma), or a function, a type, a constant or a field of its Rattle source.
Names of src/ stay, and so do strings, what a library of the kit has, and what a proof under proofs/FUNCTION/ names for itself.
Two names that would fall together both stay as they are, and are printed. Edits (must-fail/) and pages (in backticks) get the new names too.
"""

import os
import re
import sys

ROOT = os.getcwd()
DELIM = re.compile(r"""([\s(){}.,;"`\[\]])""")
HEAD = re.compile(r"^(\s*)((?:(?:pub|abbrev|unfoldable|data|record)\s+)*)([^\s(){}:,.;\"`]+)\s*(?=[:({ ])(.*)$")
# names that would fall together with another definition, a function of src/ or a binder, and facts that a capital alone would not name
CHOSEN = {
    "centred": "IsCentred",
    "centredₗ": "IsCentredₗ",
    "nTuple": "IsNTuple",
    "nTupleₗ": "IsNTupleₗ",
    "atRoot": "ReportedAtRoot",
    "zeroCam": "zero_cam_lem",
    "zeroA": "zero_a_lem",
    "aZero": "a_zero_lem",
    "aEdges": "a_edges_lem",
    "camEdges": "cam_edges_lem",
    "edgesOf": "edges_of_forest",
    "namedLines": "lines_of_named",
    "ofMap": "map_outcome",
    "aFront": "a_front",
    "byColumn": "by_column",
    "childCodes": "child_codes",
    "inEdition": "in_edition",
    "lettersOf": "letters_of",
    "getD-carried": "get_or-carried",
    "getD-map-in": "get_or-map_in",
}
# a ghost field, which is named as a field of Rust is
FIELDS = {"applies"}
CLAUSE = re.compile(r"\s*(ghost|pub ghost|requires|ensures|also_)")


def files(ends, under="crates"):
    for folder, dirs, names in os.walk(os.path.join(ROOT, under)):
        dirs[:] = sorted(d for d in dirs if d not in ("out", "target", ".git"))
        for n in sorted(names):
            if n.endswith(ends):
                yield os.path.join(folder, n)


def read(p):
    with open(p, encoding="utf-8") as f:
        return f.read()


def of_a_function(p):
    """Whether p stands in the folder of one function's proof."""
    rel = os.path.relpath(p, os.path.join(ROOT, "crates")).split(os.sep)
    return len(rel) > 3 and rel[1] == "proofs"


def statements(t):
    """Each name that the text defines: (name, words before it, the rest of its signature)."""
    lines = t.split("\n")
    for i, l in enumerate(lines):
        if l.lstrip().startswith("--"):
            continue
        m = re.match(r"^(\s*)((?:(?:pub|abbrev|unfoldable|mutual)\s+)*)(data|record)\s+(?:pub\s+)?([^\s(){}:,.;]+)", l)
        if m:
            yield m.group(4), m.group(2) + m.group(3), "Type 0"
            continue
        m = re.match(r"^(\s*)((?:(?:pub|abbrev|unfoldable)\s+)*)([^\s(){}:,.;\"=|]+(?:,\s[^\s(){}:,.;\"=|]+)*)\s:(?:\s+(.*))?$", l)
        if m:
            sig, j = m.group(4) or "", i + 1
            while j < len(lines) and re.match(r"^\s{%d,}\S" % (len(m.group(1)) + 1), lines[j]):
                sig += " " + lines[j].strip()
                j += 1
            for n in m.group(3).split(", "):
                yield n, m.group(2), sig.strip()


def snake(n):
    n = re.sub(r"([a-z0-9])([A-Z])", lambda m: m.group(1) + "_" + m.group(2).lower(), n)
    return n


def table():
    own, words, imported, tokens = {}, set(), set(), set()
    for p in files(".antt"):
        t = read(p)
        for m in re.finditer(r"^\s*(?:pub )?use\s+([^\s{;]+?)(?:\.\{([^}]*)\})?(?:\s+as\s+\S+)?$", t, re.M):
            if m.group(2) and not (m.group(1).startswith("Rattle.") and os.path.isdir(os.path.join(ROOT, "crates", m.group(1).split(".")[1]))):
                imported.update(x.split(" as ")[0].strip() for x in m.group(2).split(","))
        code = "\n".join(l for l in t.split("\n") if not l.lstrip().startswith("--"))
        tokens.update(DELIM.split(code))
        if of_a_function(p):
            continue
        for n, before, sig in statements(t):
            own.setdefault(n, []).append((before, sig))
            if "abbrev" in before or "unfoldable" in before or "data" in before or "record" in before:
                words.add(n)
    rust = set()
    for p in files(".rt"):
        t = read(p)
        code = "\n".join(l for l in t.split("\n") if not l.lstrip().startswith("//"))
        rust.update(re.findall(r"[A-Za-z_][A-Za-z0-9_]*", code))
        for m in re.finditer(r"\b(?:fn|struct|enum|const)\s+([A-Za-z_][A-Za-z0-9_]*)", code):
            words.add(m.group(1))
    names = {w for w in words} | {snake(w) for w in words}
    new = {}
    for n, said in own.items():
        if n in imported or n in FIELDS or "◌" in n or not re.match(r"^[A-Za-z]", n):
            continue
        to = n
        fact = all(re.search(r"Type [01]$", sig) for _, sig in said)
        if n in CHOSEN:
            to = CHOSEN[n]
        elif fact and n[0].islower():
            to = n[0].upper() + n[1:]
        elif n[0].islower():
            parts = n.split("-")
            whole = []
            for q in parts:
                r = snake(q)
                # a dash stays where both sides are names
                if whole and not (whole[-1] in names and r in names):
                    whole[-1] += "_" + r
                else:
                    whole.append(r)
            to = "-".join(whole)
        if to != n:
            new[n] = to
    back = {}
    for n, to in new.items():
        back.setdefault(to, []).append(n)
    stays = []
    for to, olds in back.items():
        if any(n in CHOSEN for n in olds):
            stays += [(n, to) for n in olds if n not in CHOSEN]
        elif len(olds) > 1 or to in own or to in tokens or to in imported or to in rust and to not in words:
            for n in olds:
                stays.append((n, to))
    for n, _ in stays:
        del new[n]
    return new, stays


def turn_code(code, new):
    out = []
    for w in DELIM.split(code):
        out.append(new.get(w, w))
    return "".join(out)


def ticks(text, new):
    return re.sub(r"`([^`\n]*)`", lambda m: "`" + turn_code(m.group(1), new) + "`", text)


def ticks_of(l, new):
    """A line of Rattle code with a comment: the comment gets the new names in backticks."""
    at = re.search(r"(^|\s)//(\s|$)", l)
    return l[: at.start()] + ticks(l[at.start() :], new) if at else l


def turn_line(l, new, comment):
    """Code gets the new names, a comment in backticks alone, a string none."""
    at = re.search(r"(^|\s)" + re.escape(comment) + r"(\s|$)", l)
    code, said = (l[: at.start()], l[at.start() :]) if at else (l, "")
    parts = re.split(r'("(?:[^"\\]|\\.)*")', code)
    return "".join(q if q.startswith('"') else turn_code(q, new) for q in parts) + ticks(said, new)


def turn(p, new):
    t = read(p)
    if p.endswith(".antt"):
        u = "\n".join(turn_line(l, new, "--") for l in t.split("\n"))
    elif p.endswith(".rt"):
        # src/ keeps its names: only clauses, ghost items and comments are turned
        lines, clause = [], False
        for l in t.split("\n"):
            # a clause may go over several lines, up to its closing brace
            clause = clause or bool(CLAUSE.match(l))
            lines.append(turn_line(l, new, "//") if clause else ticks_of(l, new))
            clause = clause and not re.search(r"[};]\s*$", l)
        u = "\n".join(lines)
    elif p.endswith(".edit"):
        lines, proof = [], False
        for l in t.split("\n"):
            if l.startswith("file:"):
                proof = l.endswith(".antt")
            text = re.match(r"(?:old|new):\s*", l)
            if not text:
                lines.append(ticks(l, new))
            elif proof or CLAUSE.match(l[text.end() :]):
                lines.append(turn_line(l, new, "--"))
            else:
                lines.append(l)
        u = "\n".join(lines)
    else:
        u = ticks(t, new)
    if u != t:
        with open(p, "w", encoding="utf-8") as f:
            f.write(u)
    return u != t


def main():
    new, stays = table()
    if "--table" in sys.argv:
        for n, to in sorted(new.items()):
            print(n, to)
        return
    changed = 0
    for p in list(files((".antt", ".rt", ".edit"))) + [os.path.join(ROOT, "docs", d) for d in sorted(os.listdir(os.path.join(ROOT, "docs"))) if d.endswith(".md")] + [os.path.join(ROOT, d) for d in ("README.md", "CONTRIBUTING.md")]:
        changed += turn(p, new)
    for n, to in sorted(stays):
        print("stays:", n, "(would be", to + ")")
    print(len(new), "names,", changed, "files")


if __name__ == "__main__":
    main()
