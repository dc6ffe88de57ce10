"""Reads statements of .antt files: what a theorem binds, its premises and its conclusion, and the equations that a conclusion says.

Names, brackets, arrows, products, equations and records of equations are read. What is written otherwise is not guessed at: it gives no
equation, and a conclusion that gives no equation covers nothing.
"""
import re


def declarations(text):
    """What stands at the left edge of a file, each with the indented lines below it, and without comments."""
    text = re.sub(r"\{-.*?-\}|(?<!\S)--[^\n]*", "", text, flags=re.S)
    return re.findall(r"^\S.*(?:\n(?:[ \t].*)?)*", text, re.M)


def words(text):
    """The words of a statement; what stands in brackets is a list of its own."""
    open_lists = [[]]
    for word in re.findall(r"[(){}]|[^\s(){}]+", text):
        if word in ("(", "{"):
            open_lists.append([])
        elif word in (")", "}"):
            inner = open_lists.pop()
            open_lists[-1].append(inner)
        else:
            open_lists[-1].append(word)
    return open_lists[0]


def written(part):
    """The words as they are written, for a message."""
    return " ".join(word if isinstance(word, str) else f"({written(word)})" for word in part)


def split(part, mark):
    """The parts between the marks."""
    parts = [[]]
    for word in part:
        if word == mark:
            parts.append([])
        else:
            parts[-1].append(word)
    return parts


def unwrapped(part):
    while len(part) == 1 and isinstance(part[0], list):
        part = part[0]
    return part


def binds(part):
    """Every word is a binder: names, a colon and their type."""
    return all(isinstance(word, list) and ":" in word for word in part)


def bindings(binder):
    """Each name of a binder with the words of its type."""
    colon = binder.index(":")
    return [(name, unwrapped(binder[colon + 1 :])) for name in binder[:colon]]


class Theorem:
    """Its name, its binders as (name, words of the type), and the words of each premise and of the conclusion."""

    def __init__(self, name, statement):
        *parts, conclusion = split(words(statement), "→")
        self.name = name
        self.binders = [bound for part in parts if binds(part) for binder in part for bound in bindings(binder)]
        self.premises = [unwrapped(part) for part in parts if not binds(part)]
        self.conclusion = conclusion

    def speaks_of(self, predicate):
        return any(premise[:1] == [predicate] for premise in self.premises + [kind for _, kind in self.binders])


def theorems(text):
    """The theorems at the left edge. One inside a section has the section's parameters as premises that its statement does not show."""
    found = (re.match(r"(?:pub )?([^\s:(){}]+)\s*:\s(.*)", block, re.S) for block in declarations(text))
    return [Theorem(*match.groups()) for match in found if match]


def records(text):
    """Of each record at the left edge: its parameters, and the words of each field's type."""
    found = {}
    for block in declarations(text):
        match = re.match(r"(?:pub )?record (\S+)\s(.*?)\swhere\n(.*)", block, re.S)
        if match:
            name, head, body = match.groups()
            parameters = [bound for binder in split(words(head), ":")[0] for bound, _ in bindings(binder)]
            fields = re.findall(r"^  (?:pub )?\S+ : (.*(?:\n {3,}.*)*)", body, re.M)
            found[name] = parameters, [words(field) for field in fields]
    return found


def equations(part, known):
    """The pairs of names that a conclusion says to be equal: by itself, in a product, or in the fields of a record that is known."""
    part = unwrapped(part)
    factors = split(part, "×")
    if len(factors) > 1:
        return set().union(*(equations(factor, known) for factor in factors))
    if not all(isinstance(word, str) for word in part):
        return set()
    if len(part) == 3 and part[1] == "≡":
        return {frozenset((part[0], part[2]))}
    parameters, fields = known.get(part[0], ((), ())) if part else ((), ())
    if len(parameters) != len(part) - 1:
        return set()
    given = dict(zip(parameters, part[1:]))
    return {frozenset(given.get(name, name) for name in pair) for field in fields for pair in equations(field, {})}


def brought_in(text, name):
    """The module from which a file has a name, by its `use` lines."""
    for module, names in re.findall(r"^(?:ghost )?use (\S+?)\.\{([^}]*)\}", text, re.M):
        if name in re.split(r"\s*,\s*", names.strip()):
            return module
    return None
