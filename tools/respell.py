#!/usr/bin/env python3
"""Brings the names of this repository's own definitions, lemmas, fields and ghost members to the spelling of today's Rattle.

usage: python3 tools/respell.py      at the top of the repository, once, after the kit's port.py

Words are joined by _ and types are in camel case: `soil-limits` becomes `soil_limits`, `Bears-alone` becomes `BearsAlone`. A ghost member
of a trait, which was written like `shaftCurve`, becomes `shaft_curve`. Only names that this repository declares are changed, whole and at
every place; names of functions, of goals, of variables, and texts in quotes keep their spelling. Pages get the same names, where they
stand in backquotes. It stops before it changes anything if two names would fall together.
"""

import os
import re
import sys

LETTER = r"[\w'\u2032\u2080-\u2089]"
TOKEN = re.compile(rf"[^\W\d]{LETTER}*(?:-{LETTER}+)*")
SIGNATURE = re.compile(rf"^ *(?:pub |abbrev |unfoldable |opaque )*({TOKEN.pattern}) :(?!:) *(goal\.|given\.)?", re.M)
FORM = re.compile(rf"^ *(?:pub |abbrev )*(?:record|data) ({TOKEN.pattern})", re.M)
ALIAS = re.compile(rf" as ({TOKEN.pattern})(?=[,}}])")
MEMBER = re.compile(r"^ *ghost ([a-z]+[A-Z]\w*)\b", re.M)
TEXT = re.compile(r'"(?:[^"\\]|\\.)*"')
QUOTED = re.compile(r"`[^`\n]*`")


def files(folder, endings):
    for at, dirs, names in os.walk(folder):
        dirs[:] = sorted(d for d in dirs if d not in ("out", ".git"))
        for name in sorted(names):
            if name.endswith(endings):
                yield os.path.join(at, name)


def read(path):
    with open(path, encoding="utf-8") as f:
        return f.read()


def declared():
    """Every name that a file of specs/ or proofs/ declares, or that an import gives; no goal, whose name the kit makes."""
    names = set()
    for path in files("crates", (".antt", ".rt")):
        text = read(path)
        names |= {n for line in text.split("\n") if re.match(r"(ghost )?use ", line) for n in ALIAS.findall(line)}
        if path.endswith(".rt"):
            continue
        names |= {m.group(1) for m in SIGNATURE.finditer(text) if not m.group(2)}
        names |= {m.group(1) for m in FORM.finditer(text)}
    return names


def members():
    return {m.group(1) for path in files("crates", (".rt",)) for m in MEMBER.finditer(read(path))}


def respelled(name):
    if name[0].isupper():
        return re.sub(r"-(.)", lambda m: m.group(1).upper(), name)
    return re.sub(r"_?([A-Z])", lambda m: "_" + m.group(1).lower(), name.replace("-", "_"))


# The kit makes these, in files where a function's loops and goals are answered.
MADE = re.compile(r"^(invariant|decreases|loop|returns|overflow)-")


def table():
    old = declared()
    turned = {n for n in old if "-" in n and not MADE.match(n)} | members()
    to = {n: respelled(n) for n in sorted(turned)}
    kept = old - turned
    together = sorted(n for n in to if to[n] in kept or sum(to[m] == to[n] for m in to) > 1)
    if together:
        sys.exit("respell: these would fall together with another name: " + ", ".join(together))
    return to, {to.get(n, n) for n in old}


def turn(text, to):
    return TOKEN.sub(lambda m: to.get(m.group(), m.group()), text)


def outside_texts(text, to):
    parts, at = [], 0
    for m in TEXT.finditer(text):
        parts += [turn(text[at : m.start()], to), m.group()]
        at = m.end()
    return "".join(parts + [turn(text[at:], to)])


def write(path, text, new):
    if new == text:
        return 0
    with open(path, "w", encoding="utf-8") as f:
        f.write(new)
    return 1


def main():
    to, now = table()
    changed = 0
    for path in files("crates", (".antt", ".rt")):
        text = read(path)
        changed += write(path, text, outside_texts(text, to))
    # A page also has names that the kit's script has turned already.
    def named(m):
        return to.get(m.group()) or (respelled(m.group()) if "-" in m.group() and respelled(m.group()) in now else m.group())

    for path in ["README.md", *files("docs", (".md",))]:
        text = read(path)
        changed += write(path, text, QUOTED.sub(lambda m: TOKEN.sub(named, m.group()), text))
    print(f"respell: {len(to)} names, {changed} files")


if __name__ == "__main__":
    main()
