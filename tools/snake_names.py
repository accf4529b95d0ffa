#!/usr/bin/env python3
"""Brings the repository's own definitions and lemmas to snake case, and its own types to camel case.

usage: python3 tools/snake_names.py        at the top of the repository, once, after the kit's script that turns the spelling

A name with a dash that a file of specs/ or proofs/ declares gets underscores for its dashes, or, where it begins with a
capital, camel case. The names of goals, of steps of the code and of the library keep their dashes. Strings in src/ stay.
Prints names that fall together with another of the same file.
"""

import os
import re

NAME = r"[^\s(){}\[\],;.:@`\"λ→×⌜⌝⌊⌋]+"
WORD = re.compile(NAME)
DECLARED = re.compile(r"^\s*(?:pub )?(?:abbrev |unfoldable )?(?:pub )?(?:record |data )?(" + NAME + r")(?= :(?:\s|$)| \(.*\) :| \{.*\} :)")
CASE = re.compile(r"^\s*\| (" + NAME + r") : ")
LET = re.compile(r"\blet (" + NAME + r") [:=]")
BOUND = re.compile(r"[({]((?:" + NAME + r" )*" + NAME + r") : ")
LAMBDA = re.compile(r"λ ((?:" + NAME + r" )*" + NAME + r")\.")
USE = re.compile(r"^(?:ghost )?(?:pub )?use ([^\n{]*?)\.\{([^}]*)\}", re.M)


def files():
    for folder, dirs, names in os.walk("crates"):
        dirs[:] = sorted(d for d in dirs if d not in ("out", "must-fail"))
        for n in sorted(names):
            if n.endswith((".antt", ".rt")):
                yield os.path.join(folder, n)


def dashed(word):
    return re.fullmatch(r"[^\W\d_][\w'ℕ]*(?:-[\w'ℕ]+)+", word) is not None


def turned(name):
    parts = name.split("-")
    if name[0].isupper():
        return parts[0] + "".join(p[:1].upper() + p[1:] for p in parts[1:])
    return "_".join(parts)


def declared(text):
    """The names with a dash that a file declares, but for its answers to goals."""
    found = set()
    for line in text.split("\n"):
        if line.lstrip().startswith("--"):
            continue
        m = DECLARED.match(line)
        if m and " goal." not in line:
            found.add(m.group(1))
        for pattern in (LET, CASE):
            found.update(m.group(1) for m in pattern.finditer(line))
        for pattern in (BOUND, LAMBDA):
            for m in pattern.finditer(line):
                found.update(m.group(1).split())
    return {n for n in found if dashed(n)}


def foreign(text, crates):
    """The names with a dash that a file takes from a library."""
    found = set()
    for m in USE.finditer(text):
        path = m.group(1).split(".")
        if not (path[0] == "Rattle" and len(path) > 1 and path[1] in crates):
            found.update(w.split(" as ")[-1].strip() for w in m.group(2).split(","))
    return {n for n in found if dashed(n)}


def turn(text, names, rust):
    def word(m):
        w = m.group(0)
        if w not in names:
            return w
        before = text[max(0, m.start() - 6):m.start()]
        if re.search(r"(?:^|[^\w'.\-])(?:c|w|goal)\.$", before):
            return w
        return turned(w)

    if not rust:
        return WORD.sub(word, text)
    out, at = [], 0
    for m in re.finditer(r'"(?:[^"\\]|\\.)*"', text):
        out.append((text[at:m.start()], True))
        out.append((m.group(0), False))
        at = m.end()
    out.append((text[at:], True))
    turned_text = []
    for piece, code in out:
        if code:
            turned_text.append(WORD.sub(word, piece))
        else:
            turned_text.append(piece)
    return "".join(turned_text)


def main():
    crates = set(os.listdir("crates"))
    texts = {}
    for p in files():
        with open(p, encoding="utf-8") as f:
            texts[p] = f.read()
    names = set()
    for p, t in texts.items():
        if p.endswith(".antt"):
            names |= declared(t) - foreign(t, crates)
    count = 0
    for p, t in texts.items():
        mine = names - foreign(t, crates)
        if p.endswith(".antt"):
            mine |= {n for n in declared(t) if n in names}
        new = turn(t, mine, p.endswith(".rt"))
        before = set(WORD.findall(t))
        for n in sorted(n for n in mine if n in before and turned(n) in before):
            print(f"falls together: {p}: {n} and {turned(n)}")
        if new != t:
            count += 1
            with open(p, "w", encoding="utf-8") as f:
                f.write(new)
    print(f"{len(names)} names, {count} files")


if __name__ == "__main__":
    main()
