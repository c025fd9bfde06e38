#!/usr/bin/env python3
"""Brings the repository's own definitions and lemmas to one spelling: snake case, no dashes.

usage: python3 tools/respell.py      at the top of the repository, once, right after the port script of Rattle's kit

Every definition, lemma, field and constructor that a .antt file of crates/ declares with a capital inside a lowercase name or with a
dash gets its name in snake case, wherever it is named: specs, proofs, clauses, must-fail edits and the pages. A lemma that would fall
together with a definition gets `_lem`. What Rattle makes (answers to its goals) and what its library declares keep their names.
It prints each name that it changed.
"""

import os
import re
import sys

DECLARED = re.compile(r"^\s*(?:abbrev |unfoldable )?(?:pub )?(?:abbrev |unfoldable )?([^\s(){}:;,.=λ]+(?: [^\s(){}:;,.=λ]+)*) :(?: (.*))?$")
RULESET = re.compile(r"^(?:pub )?ruleset (\S+) =")
TOKEN = re.compile(r"[^\s(){}\[\].,;:λ→⌜⌝\"`|]+")
WORDS = {"use", "module", "record", "data", "let", "mod", "pub"}
# a lemma that the port spelled as a definition is now spelled
ASIDE = {"no_room": "no_room_lem"}


def files(*endings):
    for root, dirs, names in os.walk("crates"):
        dirs[:] = sorted(d for d in dirs if d != "out")
        for name in sorted(names):
            if name.endswith(endings):
                yield os.path.join(root, name)


def is_own(name):
    """A name in need of a new spelling: a dash, or a capital within a name that begins small."""
    return re.match(r"^[a-z]", name) and (("-" in name and not name.endswith("-")) or re.search(r"[A-Z]", name))


def snake(name):
    name = name.replace("-", "_")
    name = re.sub(r"(?<=[a-z0-9])([A-Z])", lambda m: "_" + m.group(1), name)
    return name.lower()


def declared():
    """Each name that a .antt file declares, but for the answers to goals that Rattle names."""
    found = {}
    for path in files(".antt"):
        with open(path, encoding="utf-8") as f:
            for line in f:
                m = RULESET.match(line)
                if m:
                    found.setdefault(m.group(1), set()).add(path)
                m = DECLARED.match(line)
                if not m or m.group(1).split()[0] in WORDS or (m.group(2) or "").startswith(("tie.", "goal.")):
                    continue
                for name in m.group(1).split():
                    found.setdefault(name, set()).add(path)
    return found


def library():
    """The names that files of the repository import from Rattle's own library: they are not ours to spell."""
    names = set()
    use = re.compile(r"^\s*(?:ghost )?use ([\w.·+'-]+)\.\{([^}]*)\}", re.M)
    own = tuple("Rattle." + c + "." for c in os.listdir("crates"))
    for path in files(".antt", ".rt"):
        with open(path, encoding="utf-8") as f:
            for m in use.finditer(f.read()):
                if not (m.group(1) + ".").startswith(own):
                    names.update(n.strip().split(" as ")[0] for n in m.group(2).split(","))
    return names


def new_names():
    found = declared()
    taken = library()
    changed = {n for n in found if is_own(n) and n not in taken}
    kept = {n for n in found if n not in changed and n not in ASIDE} | taken
    # definitions first, so that a lemma of the same spelling steps aside
    order = sorted(changed, key=lambda n: ("-" in n, n))
    names, used = dict(ASIDE), {n: o for o, n in ASIDE.items()}
    for name in order:
        new = snake(name)
        if new in kept or new in used:
            new += "_lem"
        while new in kept or new in used:
            sys.exit(f"respell: {name}: {new} is taken too")
        used[new] = name
        names[name] = new
    return names


def respell(text, names):
    def turned(m):
        word = m.group(0)
        before = text[max(0, m.start() - 4):m.start()]
        if before.endswith(("tie.", "oal.")):
            return word
        return names.get(word, word)

    return TOKEN.sub(turned, text)


def main():
    names = new_names()
    pages = [os.path.join(d, f) for d in ("docs", ".") for f in sorted(os.listdir(d)) if f.endswith(".md")]
    for path in list(files(".antt", ".rt", ".edit")) + pages:
        with open(path, encoding="utf-8") as f:
            text = f.read()
        if path.endswith(".md"):
            new = re.sub(r"`[^`]*`", lambda m: respell(m.group(0), names), text)
        else:
            new = respell(text, names)
        if new != text:
            with open(path, "w", encoding="utf-8") as f:
                f.write(new)
    for old in sorted(names):
        print(f"{old} -> {names[old]}")


if __name__ == "__main__":
    main()
