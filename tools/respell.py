#!/usr/bin/env python3
"""Respells this repository's own antt names: snake case for definitions and lemmas, camel case for types.

usage: python3 tools/respell.py        at the top of the repository, once, after /opt/rattle/port/port.py

A name of the standard library, a goal or a step of a function's proof, and a name from src/ keep their spelling.
It prints each name that would fall together with another one, and changes nothing then.
"""
import os
import re
import sys

NAME = re.compile(r"[^\W\d_][\w'′≡≢≤<₀-₉]*(?:-[\w'′≡≢≤<₀-₉]+)+|[^\W\d_][\w']*′[\w'′]*")
IMPORT = re.compile(r"^(?:ghost )?use ([^\s{;]+)\.\{([^}]*)\}", re.M)
OWN = ("bits", "sheets", "orientations", "rows", "rehearse")
# a definition beside a function of the same name in src/
BESIDE = {"lowest-candidate": "lowest_candidate_of"}
# goals and steps, as the check names them
GOAL = re.compile(r"^(?:returns|bounds|overflow|invariant|loop|then|else|in|if|decreases|measure)-")


def new(name):
    if name in BESIDE:
        return BESIDE[name]
    name = name.replace("′", "'")
    if re.match(r"[A-Z][a-z]", name):
        return "".join(part[:1].upper() + part[1:] for part in name.split("-"))
    return name.replace("-", "_")


def files():
    for top in ("crates", "docs"):
        for folder, dirs, names in os.walk(top):
            dirs[:] = sorted(d for d in dirs if d != "out")
            for name in sorted(names):
                if name.endswith((".rt", ".antt", ".md")) and not name.startswith("PORT"):
                    yield os.path.join(folder, name)
    yield "README.md"


def own(path):
    parts = path.split(".")
    return parts[0] == "Rattle" and len(parts) > 1 and parts[1] in OWN and "Goals" not in parts and "Given" not in parts


def foreign(text):
    """The names that a file brings in from elsewhere than this repository's specs/ and proofs/."""
    found = set()
    for path, names in IMPORT.findall(text):
        if not own(path):
            for item in names.split(","):
                found.add(item.split(" as ")[0].strip())
    return found


def split(text, mark):
    """Code and comments, by turns."""
    at = 0
    for m in re.finditer(mark + r".*", text):
        yield text[at : m.start()], False
        yield m.group(), True
        at = m.end()
    yield text[at:], False


def main():
    texts = {p: open(p, encoding="utf-8").read() for p in files()}
    code = {p: t for p, t in texts.items() if not p.endswith(".md")}
    library = set().union(*(foreign(t) for t in code.values()))
    fields = set()
    for t in code.values():
        for block in re.findall(r"^pub record .*\n((?:[ \t].*\n|\n)*)", t, re.M):
            fields |= set(re.findall(r"^\s+(?:pub )?([\w-]+) :", block, re.M))
    spelled = {}

    def renamed(piece):
        def one(m):
            name = m.group()
            behind = piece[m.start() - 1 : m.start()] if m.start() else ""
            if behind == "+" or behind == "." and name not in fields or name in library or GOAL.match(name):
                return name
            spelled[name] = new(name)
            return spelled[name]

        return NAME.sub(one, piece)

    out = {}
    for p, t in code.items():
        mark = "--" if p.endswith(".antt") else "//"
        out[p] = [(piece if comment else renamed(piece), comment) for piece, comment in split(t, mark)]
    # comments and pages say the new names
    words = [(re.compile(r"(?<![\w-])" + re.escape(a) + r"(?![\w-])"), b) for a, b in spelled.items() if len(a) > 3]

    def told(text):
        for old, b in words:
            text = old.sub(b, text)
        return text

    def there(m):
        # a name that port.py has respelled in the code
        return new(m.group()) if new(m.group()) in before else m.group()

    before = set(re.findall(r"[\w'≡≢≤<-]+", "\n".join(code.values())))
    falls = sorted(a for a, b in spelled.items() if b in before and a not in ALLOWED)
    falls += sorted(a for a in spelled for c in spelled if a < c and spelled[a] == spelled[c])
    for name in falls:
        print("falls together:", name, "->", spelled[name])
    if falls:
        sys.exit(1)
    for p, pieces in out.items():
        text = "".join(told(piece) if comment else piece for piece, comment in pieces)
        if text != texts[p]:
            open(p, "w", encoding="utf-8").write(text)
    for p, t in texts.items():
        if p.endswith(".md"):
            said = re.sub(r"`[^`\n]*`", lambda m: NAME.sub(there, told(m.group())), t)
            if said != t:
                open(p, "w", encoding="utf-8").write(said)
    for name in sorted(spelled):
        print(name, "->", spelled[name])


# these two are functions of a test in another crate
ALLOWED = {"worked-orders", "clashing-pairs"}

if __name__ == "__main__":
    main()
