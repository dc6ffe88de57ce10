#!/usr/bin/env python3
"""Brings the repository's own definitions and lemmas to the spelling of today's Rattle: words in snake case.

    tools/respell.py [FOLDER]

Run once, right after port.py, at the top of the repository or on the folder given. In crates/ each camel-case part of a name of the proof
language becomes snake case (`portInRange` is `port_in_range`); types, constants and the names of the source keep theirs, for those have
no capital inside a word that begins small. The dashes in names of constants of 01 become `_` (`no-error` is `no_error`), since a dash
joins the names in a lemma. Two lemmas would fall together with a definition, and get `_lem` first. One file of specs/ has a name that
Rattle now takes for itself, and is renamed. Edits of must-fail/ that stand in specs/ are spelled likewise, so their text is found again.
"""
import pathlib
import re
import subprocess
import sys

ROOT = pathlib.Path(sys.argv[1] if len(sys.argv) > 1 else ".").resolve()

# constants of document 01, joined by dashes as 01 writes them
CONSTANTS = """no-error no-action not-available invalid-param invalid-config invalid-mode create-sampling-port write-sampling-message
read-sampling-message get-sampling-port-id get-sampling-port-status create-queuing-port send-queuing-message receive-queuing-message
get-queuing-port-id get-queuing-port-status clear-queuing-port set-partition-mode""".split()

# lemmas whose names a definition takes, by the folder in which they are named
TAKEN = {"crates/model/proofs": {"end_fits": "end_fits_lem"}, "crates/host/proofs": {"at_load": "at_load_lem"}}

# specs.contracts is a module that Rattle makes
MODULES = {("host", "Contracts"): "Exports"}

NAME = re.compile(r"(?<![A-Za-z0-9_'\-])[A-Za-z_][A-Za-z0-9_'\-]*")


def snake(part):
    if not re.match("[a-z]", part) or re.match("x[0-9A-F]+$", part):
        return part
    return re.sub(r"(?<=[a-z0-9])[A-Z]", lambda capital: "_" + capital.group(0).lower(), part)


def respelled(name):
    constant = next((c for c in CONSTANTS if name == c), None)
    if constant:
        return constant.replace("-", "_")
    return "-".join(snake(part) for part in name.split("-"))


def words(text):
    return NAME.sub(lambda match: respelled(match.group(0)), text)


def ghost_only(text):
    """A source file: its ghost lines and clauses, and the names in backticks of its comments. Code has no camel-case names of its own."""
    return "\n".join(line if '"' in line else words(line) for line in text.split("\n"))


def taken(path, text):
    for folder, names in TAKEN.items():
        if str(path.relative_to(ROOT)).startswith(folder):
            for old, new in names.items():
                text = re.sub(rf"(?<![A-Za-z0-9_'\-]){old}(?![A-Za-z0-9_'\-])", new, text)
    return text


def moved(text):
    for (crate, old), new in MODULES.items():
        text = text.replace(f"Rattle.{crate}.specs.{old}.", f"Rattle.{crate}.specs.{new}.")
    return text


def edit(text):
    """An edit: the file's path stays, and what stands there is spelled as the file is."""
    return "\n".join(line if line.startswith("file:") else words(line) for line in text.split("\n"))


def main():
    for path in sorted((ROOT / "crates").rglob("*")):
        if "out" in path.relative_to(ROOT).parts or not path.is_file():
            continue
        turn = {".antt": lambda t: words(taken(path, t)), ".rt": ghost_only, ".edit": edit}.get(path.suffix)
        if turn:
            old = path.read_text()
            new = moved(turn(old))
            if new != old:
                path.write_text(new)
    for (crate, old), new in MODULES.items():
        specs = ROOT / "crates" / crate / "specs"
        (specs / f"{old}.antt").rename(specs / f"{new}.antt")
        lib = specs / "Lib.antt"
        lib.write_text(re.sub(rf"\bmod {old}\b", f"mod {new}", lib.read_text()))
        for path in (ROOT / "crates" / crate / "must-fail").glob("*.edit"):
            path.write_text(path.read_text().replace(f"specs/{old}.antt", f"specs/{new}.antt"))


main()
