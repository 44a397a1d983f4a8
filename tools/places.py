#!/usr/bin/env python3
"""Counts the places in crates/*/src that docs/DESIGN-PASS.md speaks of: a line for each point, and with --list each place.

    python3 tools/places.py [--list] [POINT ..]

A place is a line that a pattern finds, or, of point 2, a function that has the shape of another: their texts are equal once
each name, number and text in them stands for any other. The patterns find more than there is to change and may miss some;
the page says which places stay.
"""
import glob
import re
import sys
from collections import defaultdict

PATTERNS = {
    1: [
        ("a flag beside a value", r"^\s+(pub )?(ok|found|there|fits|given|set|is_some): bool,"),
        ("a number for a kind, in a type", r"(Panic\(u8\)|\b(call|act|choice|kind|place|term|way|how|shows|clause|flag)\s*: u8\b)"),
        ("a number for a kind or a refusal, as an answer", r"fn (\w*refusal\w*|call_of|\w+_call|choices_of|ending|finish|of_\w+|chosen|term|either)\(.*-> u(8|32|size)\b"),
        ("a constant for a kind", r"const (SET|BEGIN|STEP|WAKE|CLOSE|TOO_MANY_READERS|ONCE_POISONED|CLOSURE): u8"),
        ("a test of a number that is a kind", r"\b(act|choice|call|refusal|way|how|shows) (==|!=|<) [0-9A-Z]"),
        ("a number past the end for none", r"fn (operand|word_number|place_of|first_on)\(.*-> usize"),
    ],
    3: [("a loop that counts by hand", r"^\s*while ")],
    4: [
        ("a value copied, case by case", r"^\s*(\w+::\w+)( \{[^}]*\})? => \1( \{[^}]*\})?,$"),
        ("a conversion, a comparison or a printing by hand", r"fn (same|wide|counted|digit|decimal|put_word|put_number|digits|put_decimal|put_hex|hex|name|places|ending_of|chosen|either|noted)\("),
        ("a text as numbers", r"\[\d{2,3}, \d{2,3}, \d{2,3}"),
    ],
    6: [
        ("a buffer with a length beside it", r"^\s+(pub )?(count|length|used|size|len|end): usize,"),
        ("a table of flags, one for each thread", r"\[bool; THREADS\]"),
        ("a place in a lent buffer", r"out: &mut \[u8\], at: usize"),
    ],
    7: [("a switch on the number of what to do", r"let \w+ = (a\.)?(act|choice|call) (==|<) ")],
}
TOGETHER = [("words", "locked", "written", "reads", "forgotten", "threads"), ("w", "t", "number"), ("input", "output", "buf", "out")]
TITLES = {1: "own Option or Result, numbers for kinds", 2: "twins", 3: "loops by hand", 4: "copies, conversions, printing by hand",
          5: "parameters that travel together", 6: "buffers with lengths, tables of flags", 7: "switches on a number", 8: "lines of proofs beside src/"}
WORD = re.compile(r"[A-Za-z_]\w*|\d[\w]*|b?\"[^\"]*\"|b?'[^']*'|\S")
KEEP = set("fn pub let mut if else match return while for in loop break continue as true false struct enum impl self Self move".split())


def sources():
    return sorted(glob.glob("crates/*/src/**/*.rt", recursive=True))


def lines_of(path):
    return open(path, encoding="utf-8").read().split("\n")


def functions(path):
    """Each function: its first line, its name, its text without clauses and comments."""
    lines = lines_of(path)
    i = 0
    while i < len(lines):
        m = re.match(r"(\s*)(pub )?(const )?fn (\w+)", lines[i])
        if not m:
            i += 1
            continue
        j = i
        while j < len(lines) and lines[j] not in (m[1] + "}", m[1] + "{}"):
            j += 1
        body = [l for l in lines[i:j + 1] if not re.match(r"\s*(requires|ensures|//)", l)]
        yield i + 1, m[4], "\n".join(body)
        i = j + 1


def shape(text):
    """The text with each name, number and text in place of any other; how often a name comes again still tells."""
    seen, out = {}, []
    for w in WORD.findall(text):
        if re.match(r"[A-Za-z_0-9b\"']", w) and w not in KEEP:
            w = "#%d" % seen.setdefault(w, len(seen))
        out.append(w)
    return " ".join(out)


def found(point):
    if point == 2:
        groups = defaultdict(list)
        for path in sources():
            for line, name, text in functions(path):
                s = shape(text)
                if len(s.split()) >= 30:
                    groups[s].append((path, line, name))
        return [(p, l, "%s, one of %d of a shape" % (n, len(g))) for g in groups.values() if len(g) > 1 for p, l, n in g]
    if point == 5:
        out = []
        for path in sources():
            for line, name, text in functions(path):
                head = text.split("{")[0]
                names = set(re.findall(r"(\w+): ", head))
                for group in TOGETHER:
                    if len(names & set(group)) >= 3:
                        out.append((path, line, "%s takes %s" % (name, ", ".join(g for g in group if g in names))))
        return out
    if point == 8:
        crates = {p.split("/")[1] for p in sources() if any(True for _ in functions(p))}
        files = sorted(p for c in crates for p in glob.glob("crates/%s/proofs/**/*.antt" % c, recursive=True))
        return [(p, len(lines_of(p)) - 1, "lines") for p in files]
    out = []
    for path in sources():
        for k, line in enumerate(lines_of(path), 1):
            if line.lstrip().startswith("//") or line.startswith("ghost use"):
                continue
            for what, pattern in PATTERNS[point]:
                if re.search(pattern, line):
                    out.append((path, k, what + ": " + line.strip()))
                    break
    return out


def main():
    points = [int(a) for a in sys.argv[1:] if a.isdigit()] or sorted(TITLES)
    for point in points:
        places = found(point)
        if point == 8:
            print("8. %s: %d in %d files" % (TITLES[8], sum(n for _, n, _ in places), len(places)))
        else:
            print("%d. %s: %d" % (point, TITLES[point], len(places)))
        if "--list" in sys.argv:
            for path, line, what in places:
                print("   %s:%s %s" % (path, line, what))


main()
