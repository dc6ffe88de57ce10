#!/usr/bin/env python3
"""Counts in src/ the places that docs/DESIGN-PASS.md speaks of: design-counts.py [-v] [FOLDER]

A line for each count; -v lists the places. FOLDER is the top of a checkout, here by default. Comments are left out, and so are tests."""
import re
import sys
from collections import defaultdict
from pathlib import Path

SHOWN = "-v" in sys.argv[1:]
folders = [a for a in sys.argv[1:] if a != "-v"]
if len(folders) > 1:
    sys.exit("usage: design-counts.py [-v] [FOLDER]")
TOP = Path(folders[0] if folders else ".")
if not (TOP / "crates").is_dir():
    sys.exit(f"design-counts.py: {TOP}/crates: no such folder")

SOURCES = {}
for path in sorted(TOP.glob("crates/*/src/**/*.rt")):
    lines = [line.split("//")[0].rstrip() for line in path.read_text().splitlines()]
    cut = next((i for i, line in enumerate(lines) if line.startswith("#[cfg(test)]")), len(lines))
    SOURCES[path.relative_to(TOP / "crates")] = lines[:cut]


def told(label, places):
    print(f"{len(places):5}  {label}")
    if SHOWN:
        for place in places:
            print(f"         {place}")


def lines_like(pattern):
    found = re.compile(pattern)
    return [f"{path}:{i + 1}: {line.strip()}" for path, lines in SOURCES.items() for i, line in enumerate(lines) if found.search(line)]


def functions():
    """(path, line, name, signature, body) of each function"""
    for path, lines in SOURCES.items():
        i = 0
        while i < len(lines):
            head = re.match(r'( *)(?:pub )?(?:extern "C" )?fn ([a-z_0-9]+)', lines[i])
            if not head:
                i += 1
                continue
            indent, name, start = head.group(1), head.group(2), i
            while i < len(lines) and lines[i] not in (indent + "{", indent + "}") and not lines[i].endswith(" {"):
                i += 1
            opened = i
            while i < len(lines) and lines[i] != indent + "}":
                i += 1
            yield path, start + 1, name, "\n".join(lines[start:opened]), "\n".join(lines[opened:i + 1])


FUNCTIONS = list(functions())
WORDS = {"if", "else", "let", "mut", "while", "for", "in", "return", "match", "true", "false", "as", "self"}


def shape(body):
    """a body with every name, number and type left out, so that bodies which differ in these alone are the same"""
    body = re.sub(r"\b[A-Za-z_][A-Za-z_0-9]*\b", lambda w: w.group(0) if w.group(0) in WORDS else "x", body)
    body = re.sub(r"\bx(::x)+", "x", body)
    body = re.sub(r"\b[0-9][0-9_xa-f]*(u8|u32|u64|usize)?\b", "0", body)
    body = re.sub(r"x( [+*-] (0|x))+|x \+ 0", "x", body)
    return re.sub(r"\s+", " ", body)


def twins():
    """functions of one shape, of at least three statements or with a loop"""
    groups = defaultdict(list)
    for path, line, name, _, body in FUNCTIONS:
        if body.count(";") >= 3 or "while " in body or "for " in body:
            groups[shape(body)].append(f"{path}:{line} {name}")
    return [", ".join(group) for group in groups.values() if len(group) > 1]


def with_parameters(*patterns):
    return [f"{path}:{line} {name}" for path, line, name, head, _ in FUNCTIONS if all(re.search(p, head.split("requires")[0].split("ensures")[0]) for p in patterns)]


def clauses():
    """each fact that stands in the requires of three functions or more"""
    facts = defaultdict(list)
    for path, line, name, head, _ in FUNCTIONS:
        for clause in re.findall(r"requires [a-z_0-9]* ?\{(.*)\}", head):
            for fact in re.split(r" × ", clause):
                facts[fact.strip().strip("()").replace(".old", ".now")].append(f"{path}:{line} {name}")
    return [f"{fact}: {len(set(at))}" for fact, at in sorted(facts.items(), key=lambda f: -len(set(f[1]))) if len(set(at)) >= 3]


print("1  own enums, flags and number codes")
told("own enums", lines_like(r"^(pub )?enum "))
told("own structs", lines_like(r"^(pub )?struct "))
told("constants of one byte", lines_like(r"^(pub )?const [A-Z_0-9]+: u8 "))
told("answers that are a number or a place, and `none` as one of them", lines_like(r"return (k|r|0);|^    (k|r|0)$|refusal: 0"))
print("2  twins")
told("groups of functions of one shape", twins())
told("names that stand for more than one struct", [n for n in (lambda names: sorted({x for x in names if names.count(x) > 1}))([re.sub(r".*struct ([A-Za-z]+).*", r"\1", s) for s in lines_like(r"^(pub )?struct ")])])
print("3  loops")
told("`while` and `loop`", lines_like(r"^ *(while|loop)\b"))
told("indices counted by hand", lines_like(r"^ *[a-z]+ (\+= 1|= [a-z]+ \+ 1);"))
told("`for`", lines_like(r"^ *for "))
told("chains", lines_like(r"\.(all|any|find|position|zip|map|filter|fold|chunks_exact|chunks_exact_mut|iter)\("))
print("4  written by hand")
told("bytes of numbers", lines_like(r"/ 256|256 \*|% 256|65536|16777216"))
told("casts", lines_like(r"\bas (u8|u32|u64|usize)\b"))
told("digits", lines_like(r"/ 10\b|% 10\b|/ 16\b|% 16\b|48 \+|87 \+"))
print("5  parameters that travel together, and facts said again")
told("tables with their counts (`lay`)", with_parameters(r"\blay: "))
told("tables with their first port or first channel", with_parameters(r"first_(port|channel): "))
told("numbers and bytes", with_parameters(r"\bnumbers: ", r"\bbytes: "))
told("numbers alone", [x for x in with_parameters(r"\bnumbers: ") if x not in with_parameters(r"\bbytes: ")])
told("a letter and its size", with_parameters(r"\bletter: ", r"\bsize: "))
told("an event and its fields", with_parameters(r"\bevent: ", r"\bf: "))
told("a place and the bytes written from there on", with_parameters(r"\bat: usize", r"\bout: "))
told("tables and a record's number", with_parameters(r"\bt: ", r"\br: usize"))
told("facts in the `requires` of three functions or more", clauses())
print("6  buffers and parallel arrays")
told("arrays in a struct", lines_like(r"^ +(pub )?[a-z_]+: \[(u8|u32); "))
print("7  switches")
told("`match`", lines_like(r"\bmatch "))
told("closures", lines_like(r"[(=,] ?(move )?\|[^|]+\| "))
print("8  proofs")
for name in ("Answers.antt", "Invariants.antt"):
    files = sorted(TOP.glob(f"crates/*/proofs/**/{name}"))
    told(f"{name}, {sum(len(f.read_text().splitlines()) for f in files)} lines", [str(f.relative_to(TOP)) for f in files])
