#!/usr/bin/env python3
"""Brings this repository's own definitions and lemmas to snake case: `closedSetsIn-listed` becomes `closed_sets_in_listed`.

usage: tools/respell.py [--list]      at the top, once, right after /opt/rattle/port/port.py

Own names are those that a file of specs/ or proofs/ declares, and the fields of its records. Names that Rattle makes (goals,
invariants, measures, steps), names of src/ and of the library, strings and exported names keep their spelling. A name that
begins with a type keeps its capital and its dash. In comments and pages only names between backquotes are turned.
--list prints the names and their new spelling, and writes nothing.
"""
import os
import re
import sys

MADE = re.compile(r"(tie|goal|given)\.|statement")
TOKEN = r"(?<![\w'′\-◌])%s(?![\w'′\-◌])"


# Where two names would fall together: the definition keeps the plain words, and a lemma gets `_lem`.
CHOSEN = {
    "freeCount": "free_count_of",
    "gridKeys": "grid_keys_of",
    "all-finite": "all_finite",
    "free-count": "free_count",
    "free-list": "free_list",
    "grid-keys": "grid_keys",
    "listed-ends": "listed_ends",
    "shear-x": "shear_x",
}
# Local names that would hide a definition of the new spelling.
LOCAL = {
    "crates/findings/proofs/Demand.antt": {"fold_at": "fold_here"},
    "crates/detect/proofs/Answering.antt": {"counts_of": "counted"},
    "crates/read_findings/proofs/Reading.antt": {"row_from": "row_from_lem"},
    "crates/read_findings/proofs/finding_at/Proof.antt": {"row_from": "row_from_lem"},
    "crates/segments/proofs/Core.antt": {"in_order": "ordered_as"},
}


def antt_files():
    for folder, dirs, files in os.walk("crates"):
        dirs[:] = sorted(d for d in dirs if d != "out")
        for f in sorted(files):
            if f.endswith(".antt"):
                yield os.path.join(folder, f)


def read(path):
    with open(path, encoding="utf-8") as f:
        return f.read()


def new_name(old):
    """The name in snake case; one that begins with a type keeps its first part and the dash."""
    head, dash, rest = old.partition("-")
    snake = lambda t: re.sub(r"(?<=[a-z0-9])([A-Z])", lambda m: "_" + m[1].lower(), t).replace("-", "_")
    if head[:1].isupper():
        return head + dash + snake(rest)
    return snake(old)


def declared(path, text):
    """The names that a file declares: definitions, lemmas, records, constructors and fields."""
    made = "/proofs/" in path and path.count("/") > 3
    for m in re.finditer(r"(?m)^( *)((?:abbrev|unfoldable|private|pub) )*([^\s:({,;\"]+)((?: [^\s:({,;\"=]+)*) :(?= |$)(.*)", text):
        indent, names, kind = m[1], [m[3]] + m[4].split(), m[5].strip()
        if names[0] in ("record", "data", "let", "λ", "--", "use", "elim", "in") or len(indent) % 2:
            continue
        if made and not indent and (MADE.match(kind) or MADE.search(kind) and "{M : Type 1}" in kind):
            continue
        yield from names


def made_in(text):
    """The names of a function's goals, invariants and measures that a file answers: Rattle made these."""
    return {m[1] for m in re.finditer(r"(?m)^(?:abbrev )?(?:pub )?([^\s:({]+) :.*?(?:tie|goal|given)\.[\w-]+", text)}


def library_names(text):
    """The names that a file takes from the library: they keep their spelling there."""
    own = "|".join(sorted(os.listdir("crates")))
    found = set()
    for m in re.finditer(r"use (?!Rattle\.(?:%s)\.)[\w.'-]+\.\{([^}]*)\}" % own, text):
        found |= {n.strip() for n in m[1].split(",")}
    return found


def own_names():
    found = {name for path in antt_files() for name in declared(path, read(path))}
    own = {n: new_name(n) for n in found if re.fullmatch(r"[A-Za-z][\w'-]*", n) and new_name(n) != n}
    taken = {new for old, new in own.items() if "-" not in old}
    for old, new in own.items():
        if "-" in old and "-" not in new and (new in taken or new in found):
            own[old] = new + "_lem"
    return own | {old: new for old, new in CHOSEN.items() if old in own}


def turner(names):
    if not names:
        return lambda t: t
    one = re.compile(TOKEN % ("(" + "|".join(sorted(map(re.escape, names), key=len, reverse=True)) + ")"))
    return lambda t: one.sub(lambda m: names[m[1]], t)


def ghost_parts(text):
    """The spans of a .rt file that are ghost: `ghost use` lines and the braces of clauses and ghost members."""
    for m in re.finditer(r"ghost use [^;]*;", text):
        yield m.span()
    for m in re.finditer(r"\b(?:requires|ensures|ghost)\*? ?(?:\w+:?)? ?\{", text):
        deep, k = 0, m.end() - 1
        while k < len(text):
            deep += (text[k] == "{") - (text[k] == "}")
            if not deep:
                break
            k += 1
        yield m.end(), k


def in_quotes(text, turn):
    return re.sub(r"`[^`\n]*`", lambda m: turn(m[0]), text)


def main():
    names = own_names()
    if sys.argv[1:] == ["--list"]:
        for n in sorted(names):
            print(n, names[n])
        return
    turn = turner(names)
    camel = turner({n: names[n] for n in names if "-" not in n})
    changed = 0

    def write(path, old, new):
        nonlocal changed
        if old != new:
            changed += 1
            with open(path, "w", encoding="utf-8") as f:
                f.write(new)

    for path, local in LOCAL.items():
        old = read(path)
        write(path, old, turner(local)(old))
    for path in antt_files():
        old = read(path)
        kept = library_names(old) | (made_in(old) if path.count("/") > 3 else set())
        turn_here = turner({n: names[n] for n in names if n not in kept}) if kept & names.keys() else turn
        lines = []
        for line in old.split("\n"):
            code, mark, note = line.partition("--") if line.lstrip().startswith("--") else (line, "", "")
            lines.append(turn_here(code) + mark + in_quotes(note, turn))
        write(path, old, "\n".join(lines))
    for folder, dirs, files in os.walk("crates"):
        dirs[:] = sorted(d for d in dirs if d != "out")
        for f in sorted(files):
            path = os.path.join(folder, f)
            if f.endswith(".rt"):
                old = read(path)
                parts, at = [], 0
                for a, b in sorted(ghost_parts(old)):
                    if a < at:
                        continue
                    parts += [old[at:a], turn(old[a:b])]
                    at = b
                new = "".join(parts + [old[at:]])
                new = re.sub(r"(?m)//.*$", lambda m: in_quotes(m[0], turn), new)
                write(path, old, new)
            elif f.endswith(".edit"):
                old = read(path)
                inside = turn if re.search(r"(?m)^file: .*\.antt$", old) else camel
                write(path, old, "\n".join(inside(l) if re.match(r"(old|new): ", l) else in_quotes(l, turn) for l in old.split("\n")))
    for path in ["README.md", "NOTICE"] + sorted("docs/" + f for f in os.listdir("docs") if f.endswith(".md")):
        old = read(path)
        write(path, old, in_quotes(old, turn))
    print(f"respell: {len(names)} names, {changed} files")


main()
