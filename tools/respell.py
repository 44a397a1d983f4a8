#!/usr/bin/env python3
"""Respells the definitions and lemmas of specs/ and proofs/ from lowerCamelCase to snake_case, wherever they are named.

usage: tools/respell.py            at the top, once, on what port.py made

The names are those that .antt files declare (and the aliases below), so a word of the Rust or of a string is left alone.
Where the new name is another lemma's already, that lemma first gets the ending _lem.
"""

import glob
import re
import sys

ALIASES = ["isFree", "isMutexUnlocked", "replayState", "standsAt"]
# lemmas whose names would fall together with a respelled definition (goesOn of calls, objectOf of kept)
LEMMAS = ["goes_on", "object_of"]
DECLARED = re.compile(r"^(?:(?:abbrev|unfoldable)\s+)?(?:pub\s+)?([^\s(){}:,]+)(?:\s+[^:]*)?\s*:\s")
WORD = r"[^\s(){}\[\]:,.;`'\"«»]"


def read(path):
    with open(path, encoding="utf-8") as f:
        return f.read()


def write(path, old, new):
    if new != old:
        with open(path, "w", encoding="utf-8") as f:
            f.write(new)


def snake(name):
    return re.sub(r"([a-z0-9])([A-Z])", r"\1_\2", name).lower()


def main():
    antt = sorted(glob.glob("crates/*/specs/**/*.antt", recursive=True) + glob.glob("crates/*/proofs/**/*.antt", recursive=True))
    source = sorted(glob.glob("crates/*/src/**/*.rt", recursive=True) + glob.glob("crates/*/must-fail/*.edit"))
    pages = sorted(glob.glob("*.md") + glob.glob("docs/*.md") + glob.glob("oracle/*.md") + glob.glob("bench/*.md") + glob.glob("tried/*"))
    names = set(ALIASES)
    lemmas = {}
    for path in antt:
        for line in read(path).splitlines():
            m = DECLARED.match(line.strip() if line.startswith("  pub ") else line)
            if not m:
                continue
            name = m.group(1)
            if name[0].islower() and re.search(r"[a-z][A-Z]", name):
                names.add(name)
            if name in LEMMAS:
                lemmas.setdefault(path.split("/")[1], set()).add(name)
    for path in antt:
        text = read(path)
        new = text
        for name in sorted(lemmas.get(path.split("/")[1], ())):
            new = re.sub(rf"(?<!{WORD})(?<!proofs\.){name}(?!{WORD}|\.[A-Z])", name + "_lem", new)
        write(path, text, new)
    old = re.compile(rf"(?<!{WORD})(?:{'|'.join(sorted(map(re.escape, names), key=len, reverse=True))})(?!{WORD})")
    for path in antt + source + pages:
        text = read(path)
        write(path, text, old.sub(lambda m: snake(m.group(0)), text))
    print(f"{len(names)} names respelled")


if __name__ == "__main__":
    sys.exit(main())
