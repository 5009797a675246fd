#!/usr/bin/env python3
"""Respells the repository's own definitions and lemmas: functions, lemmas and fields in snake case, facts in camel case.

usage: python3 tools/respell.py     at the top of the repository, once, after the kit's own script has run

Names that Rattle makes, the names of src/, strings, inputs and outputs stay, and so does a name that holds an operator,
as `*ℤ-assoc`. Where two names would fall together the script says which and changes nothing.
"""

import glob
import re
import sys

# a word of antt
WORD = r"[^\s(){}\[\]:;,.]+"
# a definition, a lemma, a field or a constructor, up to the first word of its type
HEAD = re.compile(r"^ *(?:(?:abbrev|unfoldable|pub|record|data) +)*(" + WORD + r")(?: +\([^)\n]*\))* *: *(\S+)", re.M)
# a line of a source that only contracts and proofs see
GHOST = re.compile(r"^\s*(?:ghost|requires|ensures)\b")
ALIAS = re.compile(r"(" + WORD + r") as (" + WORD + r")")
# an import of names, an import under another name, and a path to what Rattle makes of a function
PATH = re.compile(r"^use .*\.\{|^use .* as |\bproofs\.\S+", re.M)


def read(path):
    with open(path, encoding="utf-8") as f:
        return f.read()


def write(path, text):
    with open(path, "w", encoding="utf-8") as f:
        f.write(text)


def respelled(name):
    name = name.replace("getD", "get_or")
    if name[0].isupper():
        return "".join(part[0].upper() + part[1:] for part in name.split("-"))
    return re.sub(r"(?<=[a-z0-9])([A-Z])", lambda m: "_" + m[1].lower(), name).replace("-", "_")


def is_older(name):
    return re.fullmatch(r"[A-Za-z][\w']*(-[\w']+)+", name) is not None


def defined(text):
    """The names that a file defines, but for the answers and invariants that the check asks for."""
    return [m[1] for m in HEAD.finditer(text) if not m[2].startswith(("goal.", "given."))]


def turn(text, names):
    return re.sub(WORD, lambda m: names.get(m[0], m[0]), text)


def turn_antt(text, names):
    return "".join(part if part.startswith('"') else turn(part, names) for part in re.split(r'("[^"\n]*")', text))


def turn_source(text, names):
    """Imports and clauses, in which an alias that says the name again goes."""
    lines = text.split("\n")
    aliases = {m[2]: respelled(m[2]) for l in lines if l.startswith("ghost use") for m in ALIAS.finditer(l)}
    for i, line in enumerate(lines):
        if GHOST.match(line):
            line = turn(line, names | aliases)
            lines[i] = ALIAS.sub(lambda m: m[1] if m[1] == m[2] else m[0], line)
    return "\n".join(lines)


def main():
    antt = [p for part in ("specs", "proofs") for p in sorted(glob.glob(f"crates/*/{part}/**/*.antt", recursive=True))]
    source = sorted(glob.glob("crates/*/src/**/*.rt", recursive=True))
    texts = {p: read(p) for p in antt + source}
    names = {n: respelled(n) for p in antt for n in defined(texts[p]) if is_older(n)}
    words = {w for p in antt for w in re.findall(WORD, PATH.sub("", texts[p]))}
    new = list(names.values())
    together = [n for n in names if names[n] in words or new.count(names[n]) > 1]
    if together:
        print("these would fall together with others: " + ", ".join(sorted(together)))
        return 1
    for p in antt:
        write(p, turn_antt(texts[p], names))
    for p in source:
        write(p, turn_source(texts[p], names))
    print(f"{len(names)} names respelled")
    return 0


if __name__ == "__main__":
    sys.exit(main())
