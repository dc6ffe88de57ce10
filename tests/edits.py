"""The must-fail edits, what `rt ci` says of each, and the rows of docs/EDITS.md that follow from both.

`rt ci` has a line for each edit, also for one that an earlier run tried: how it ended, and the first thing that the check said against it.
tests/list-edits writes the page from these lines, and tests/check-edits compares the page with them.
"""
import pathlib
import re

ROOT = pathlib.Path(__file__).resolve().parent.parent
LOG = ROOT / "target" / "log" / "rt-ci"
PAGE = ROOT / "docs" / "EDITS.md"
COLUMNS = ("Edit", "What stands there", "What it becomes", "First refused at")
HEAD = """# Edits that the check must refuse

Each edit makes the code or a definition wrong in one place and keeps its shape; the gate tries every one of them. The last column is the
declaration at which the check first refuses it, as `rt ci` says: a law, a theorem, or an answer in a function's `Answers.antt`, which bears
the name of its goal (`returns..`: what the function ensures; others are named after the call or the test they belong to). Where it is a
function, the goal that is no longer proved stands behind it. `tests/list-edits` writes this page from what a run said, and
`tests/check-edits` fails where the page says something else than the gate's own run, or an edit only made the text of a proof unfit.
"""

# what the first words say where the edit has made the text of a proof unfit for the code, and no fact is seen to fail
UNFIT = {
    r"that can be named from here": "a name that is no longer there",
    r"^`[^`]+` is not in scope": "an unknown name",
    r"\bno occurrence of\b": "a rewrite that found nothing",
    r"\bno part of the goal\b": "a rewrite that found nothing",
    r"^`[^`]+` was not admitted|\bthat depends? on `": "an error of another place alone",
}
REFUSED = "refused, as it must be"
LIMIT = "(only by a limit of the prover"
SAID = re.compile(r"(note: )?(?:\./)?((?:src|specs|proofs)/\S+?)\.(antt|rt):(\d+):\d+: (?:error: |note: )?(?:`([^`]+)`: ?)?(.*)")


def lines_of(names):
    """What was said of each edit, by crate and edit, in the logs given or in that of the gate: later ones before earlier ones."""
    logs = [pathlib.Path(name) for name in names] or [LOG]
    said = {}
    for log in logs:
        text = log.read_text(errors="replace") if log.is_file() else ""
        for crate, edit, words in re.findall(r"^rt: must-fail (\w+)/(\S+)\.edit: (.*)$", text, re.M):
            said[crate, edit] = words
    return said


def edits():
    """Each crate that has edits, with their files, in the order of crates.txt."""
    crates = re.findall(r"^(\w+)[^:#\n]*:", (ROOT / "crates.txt").read_text(), re.M)
    found = ((crate, sorted((ROOT / "crates" / crate / "must-fail").glob("*.edit"))) for crate in crates)
    return [(crate, files) for crate, files in found if files]


def against(words):
    """What the check first said against the edit; nothing where it was not refused, or only for a name that the edit took away."""
    found = re.match(rf"{REFUSED}(?: \((?!only because a proof file)[^:]*(?:: [^:]*)?\))?: (.*)", words)
    return found and found[1]


def declaration_at(crate, file, ending, line):
    """The function, or the declaration at the left edge, in which a line stands."""
    text = (ROOT / "crates" / crate / f"{file}.{ending}").read_text().split("\n")
    at = int(line)
    # a function is reported where its attributes begin
    while ending == "rt" and at < len(text) and text[at - 1].lstrip().startswith("#["):
        at += 1
    text = text[:at]
    head = r"\s*(?:pub(?:\(crate\))? )?(?:extern \"C\" )?fn (\w+)" if ending == "rt" else r"(?:(?:pub|abbrev|unfoldable) )*(?:record |data )?([^\s(){}:]+) .*:"
    return next((found[1] for found in (re.match(head, it) for it in reversed(text)) if found), None)


def refused_at(crate, words):
    """The declaration of the first error, its file and nothing, or the function in which a goal is not proved, its file and the goal;
    nothing where no place is named."""
    found = SAID.match(against(words) or "")
    if not found:
        return None
    note, file, ending, line, declaration, message = found.groups()
    if declaration and not note:
        return declaration, file, ""
    name = declaration_at(crate, file, ending, line)
    goal = re.search(r"\(`([^`]+)`\)", message)
    return name and (name, file, f": {goal[1]}" if goal else "")


def unfit(words):
    """Why what was said shows nothing of the edit; '' where it shows a fact that fails."""
    if not words.startswith(REFUSED):
        return words[:200]
    if not against(words):
        return "a proof names what the edit took away, or nothing is said against it"
    found = SAID.match(against(words))
    if not found:
        return ""
    note, _, ending, _, declaration, message = found.groups()
    reasons = [why for sign, why in UNFIT.items() if re.search(sign, message)]
    if ending == "antt" and not declaration and not note:
        reasons.append("a text that cannot be read")
    return f"{reasons[0]}: {message}" if reasons else ""


def short(text):
    text = text.strip().replace("|", "\\|")
    return "`" + (text if len(text) <= 70 else text[:67] + "...") + "`"


def row(crate, edit, words):
    """The row of an edit: its first replacement, and the place of its refusal; nothing where no place is named."""
    place = refused_at(crate, words)
    if not place:
        return None
    text = edit.read_text()
    old, new = (re.search(rf"^{key}: ?(.*)$", text, re.M).group(1) for key in ("old", "new"))
    name, file, goal = place
    limit = ", by a limit of the prover" if LIMIT in words else ""
    return f"| `{edit.stem}` | {short(old)} | {short(new)} | `{name}` ({crate}/{file}){goal}{limit} |"


def section(crate, rows):
    head = "| " + " | ".join(COLUMNS) + " |\n" + "|---" * len(COLUMNS) + "|\n"
    return f"\n## {crate}\n\n{head}" + "".join(line + "\n" for line in rows)
