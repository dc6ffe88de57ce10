#!/usr/bin/env python3
"""Has every file of crates/ take `if◌then◌else◌` from the Prelude, where the model declared one of its own.

    tools/use_prelude_if.py [FOLDER]

`rt ci` refuses another word under the name of one of the library's operators. Both give the first value where the test is true and the
second where it is false. May be run again: what takes it from the Prelude already stays as it is.
"""
import pathlib
import re
import sys

ROOT = pathlib.Path(sys.argv[1] if len(sys.argv) > 1 else ".").resolve()
IF = "if◌then◌else◌"
OWN = f"""infix 4 {IF}
abbrev pub {IF} : {{A : Type 0}} → Bool → A → A → A
{IF} true a b = a
{IF} false a b = b

"""


def without(match):
    """A `use` line of the model's words without this one; nothing where it was the only one."""
    names = [name.strip() for name in match[2].split(",") if name.strip() and name.strip() != IF]
    return f"{match[1]}{{{', '.join(names)}}}{match[3]}" if names else ""


def turned(path, text):
    declares = OWN in text
    text = text.replace(OWN, "")
    line = r"^((?:pub )?(?:ghost )?use Rattle\.model\.specs\.Words\.)\{([^}]*\bif◌then◌else◌[^}]*)\}(;?\n)"
    takes = declares or re.search(line, text, re.M)
    text = re.sub(line, without, text, flags=re.M)
    if not takes or re.search(r"^(?:ghost )?use \S+\.\{[^}]*if◌then◌else◌", text, re.M):
        return text
    ghost, end = ("ghost ", ";") if path.suffix == ".rt" else ("", "")
    prelude = r"^((?:ghost )?use Rattle\.std\.specs\.Prelude\.\{)"
    if re.search(prelude, text, re.M):
        return re.sub(prelude, rf"\g<1>{IF}, ", text, count=1, flags=re.M)
    return re.sub(r"^(?=(?:ghost )?use )", f"{ghost}use Rattle.std.specs.Prelude.{{{IF}}}{end}\n", text, count=1, flags=re.M)


for path in sorted((ROOT / "crates").rglob("*")):
    if path.suffix in (".rt", ".antt") and "out" not in path.relative_to(ROOT).parts:
        old = path.read_text()
        new = turned(path, old)
        if new != old:
            path.write_text(new)
            print(path.relative_to(ROOT))
