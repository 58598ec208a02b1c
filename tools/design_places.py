#!/usr/bin/env python3
"""Counts the places in src/ that docs/DESIGN-PASS.md speaks of, point by point.

usage: tools/design_places.py [FOLDER] [--list]

FOLDER is a checkout (default: this one). With --list each place is printed. It goes by text: what it finds is a place to look at,
not always one to change, and point 8 is counted in proofs/.
"""
import collections, pathlib, re, sys

listing = "--list" in sys.argv
given = [a for a in sys.argv[1:] if not a.startswith("--")]
top = pathlib.Path(given[0] if given else pathlib.Path(__file__).resolve().parent.parent)
sources = {f.relative_to(top): f.read_text() for f in sorted(top.glob("crates/*/src/**/*.rt"))}


def lines(pattern):
    """Lines of code (not comments, not ghost lines) in which the pattern stands."""
    found = []
    for name, text in sources.items():
        for n, line in enumerate(text.split("\n"), 1):
            code = line.split("//")[0]
            if not code.strip().startswith("ghost") and re.search(pattern, code):
                found.append(f"{name}:{n}: {line.strip()}")
    return found


def functions():
    """Each function: file, name, parameters as 'name: type'."""
    for name, text in sources.items():
        for m in re.finditer(r"\bfn (\w+)(?:<[^>]*>)?\(([^{;]*?)\)(?: -> [^\n{]+)?\n", text):
            parameters = [re.sub(r"\s+", " ", p).strip() for p in re.split(r",(?![^\[]*\])", m.group(2))]
            parameters = [re.sub(r"'\w+ ", "", re.sub(r"^mut ", "", p)) for p in parameters if ":" in p]
            yield name, m.group(1), parameters


def travelling(least):
    """Runs of two or more parameters, each with its type, that stand together in `least` functions or more; only the longest of each."""
    runs = collections.defaultdict(set)
    for name, function, parameters in functions():
        for i in range(len(parameters)):
            for j in range(i + 2, len(parameters) + 1):
                runs[tuple(parameters[i:j])].add(f"{name}::{function}")
    kept = [(r, f) for r, f in runs.items() if len(f) >= least and all("[" in p or "struct" in p for p in r)]
    inside = lambda r, s: any(s[k:k + len(r)] == r for k in range(len(s) - len(r) + 1))
    longest = [(r, f) for r, f in kept if not any(r != s and len(g) == len(f) and inside(r, s) for s, g in kept)]
    return [f"{len(f)} functions: {', '.join(r)}" for r, f in sorted(longest, key=lambda x: -len(x[1]))]


def twins():
    """Functions whose body, with names, numbers and types of one letter, is that of another (of four lines or more)."""
    shapes = collections.defaultdict(list)
    for name, text in sources.items():
        for m in re.finditer(r"\bfn (\w+)[^{;]*?\n(?:    requires[^\n]*\n|    ensures[^\n]*\n|        [^\n]*\n)*\{\n(.*?)\n\}\n", text, re.S):
            body = re.sub(r"\s+", " ", m.group(2))
            if body.count(";") >= 3:
                shapes[re.sub(r"\b\w+\b", "w", body)].append(f"{name}::{m.group(1)}")
    return [" = ".join(v) for v in shapes.values() if len(v) > 1]


def proofs(pattern):
    found = []
    for f in sorted(top.glob("crates/*/proofs/**/*.antt")):
        for n, line in enumerate(f.read_text().split("\n"), 1):
            if re.search(pattern, line):
                found.append(f"{f.relative_to(top)}:{n}")
    return found


points = [
    ("1a enums", lines(r"\benum \w+")),
    ("1b results that are a number for what was missed", lines(r"fn \w*(missed|question|validate)\w*\(") + lines(r"pub number: u32")),
    ("1c kinds, directions and marks as numbers", lines(r"(== ?|=> ?|, )(1[6-9])\b|directions?\[[^\]]*\] ?[!=]= ?0|\bkind: u32|\bdirection: u32|\bmark: u32")),
    ("2 functions with one shape of body", twins()),
    ("3a loops by `while`", lines(r"\bwhile ")),
    ("3b loops by `loop`", lines(r"\bloop \{")),
    ("3c counters stepped by hand", lines(r"^\s*\w+ [+-]= \d+;")),
    ("4a widening by `as u64`, `as i64`, `as f64`", lines(r" as (u64|i64|f64)\b")),
    ("4b least and greatest by hand", lines(r"if \w+ <=? \w+ \{ \w+ \} else \{ \w+ \}")),
    ("4c `impl` of equality, order, copying, printing", lines(r"impl.* (PartialEq|Eq|PartialOrd|Ord|Clone|Copy|Display|Debug|From|TryFrom)\b.* for")),
    ("5 lists that travel together in three functions or more", travelling(3)),
    ("6a arrays of lent lists", lines(r"&mut \[&mut \[")),
    ("6b a number of list entries as a parameter beside it", lines(r"\b(count|tables|n): usize,")),
    ("7 bools that say which step to run", lines(r"\b(rows|columns|horizontal|vertical|direction|first): bool\b")),
    ("8a proofs that walk back by `.before.before`", proofs(r"\.before\.before")),
    ("8b proofs that cite Rattle's own names", proofs(r"shared_slice_known-|slice_known-\d")),
    ("8c answers that a `for` needs no more (measures, steps, lengths)", proofs(r"^pub (loop-\w+-smaller|overflow_add-\w+|shape_of-\w+) :")),
]
for title, found in points:
    print(f"{len(found):5}  {title}")
    if listing:
        for place in found:
            print("         ", place)
