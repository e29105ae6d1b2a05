#!/usr/bin/env python3
"""Spells this repository's own names in the library's way, once, after the port to a newer kit.

usage: python3 tools/respell.py [--list]        at the top of the repository

- A definition, lemma or field of specs/ and proofs/ is in snake case: a dash becomes an underscore.
- So are a name that a `use` line gives to another and a local name.
- A type or a fact, whose name begins with a capital, is in upper camel case: `Has-word` becomes `HasWord`.
- The crate `hex` becomes `hexadecimal`, since the kit has a library of that name.

Names that the prover makes (goals, invariants, steps) and names of libraries stay. --list prints the names and their new
spellings, with those that fall together, and writes nothing. It was run on the tree that the kit's own script had made,
and finds nothing to do in a tree that it has turned.
"""

import os
import re
import subprocess
import sys

WORD = r'[^\s(){}.;,@"«»\[\]`]+'
# Local names: what a lemma takes or a `let` binds.
LOCAL = "allowed-too as-shown at-line i-is in-line laws-too led-too no-case other-st ready-all within-handler yes-case".split()
ALIAS = re.compile(r"\bas ([a-z]+(?:-[a-z]+)+)(?=[,}])")
# Names of the library that stand at the beginning of a line.
LIBRARY = {"map-append"}
GENERATED = re.compile(r"(invariant|decreases)-|.*(-init|-preserved|-smaller|-requires)$")
SIGNATURE = re.compile(
    r"^\s*(?:\|\s*)?(?:(?:pub|abbrev|unfoldable|record|data|ruleset)\s+)*(" + WORD + r"(?:\s+" + WORD + r")*?)(?:\s+[({].*)?\s+:\s+(.*)"
)
HEADED = re.compile(r"^\s*(?:(?:abbrev|unfoldable|pub|record|data|ruleset)\s+)+(" + WORD + r")(?:\s|$)")
# Names that would meet one of the library's.
OTHERWISE = {"bit-and": "bit_of_and", "bit-or": "bit_of_or", "bit-xor": "bit_of_xor"}
GOAL = re.compile(r"^(goal|given|need|needs)\.")


def texts(*endings):
    for folder, folders, files in os.walk("crates"):
        folders[:] = sorted(f for f in folders if f != "out")
        for name in sorted(files):
            if name.endswith(endings):
                yield os.path.join(folder, name)


def read(path):
    with open(path, encoding="utf-8") as f:
        return f.read()


def without_comments(text):
    return "\n".join("" if line.lstrip().startswith("--") else line for line in text.split("\n"))


def declared():
    """The names that files of specs/ and proofs/ declare, goals aside, and the goals."""
    names, goals = set(), set()
    for path in texts(".antt"):
        for line in without_comments(read(path)).split("\n"):
            if re.match(r"\s*(pub\s+)?use\s", line):
                continue
            m = SIGNATURE.match(line)
            if m:
                (goals if GOAL.match(m[2]) else names).update(m[1].split())
            m = HEADED.match(line)
            if m:
                names.add(m[1])
    return names, goals


def aliases():
    """The names that a `use` line gives to a name of another file."""
    return {alias for path in texts(".antt") for line in read(path).split("\n") if re.match(r"\s*use\s", line) for alias in ALIAS.findall(line)}


def spelled(name):
    if name in OTHERWISE:
        return OTHERWISE[name]
    if name[0].isupper():
        first, *rest = name.split("-")
        return first + "".join(part[:1].upper() + part[1:] for part in rest)
    return name.replace("-", "_")


def table():
    names, goals = declared()
    own = {n for n in names if re.fullmatch(r"[A-Za-z][\w'-]*-[\w'-]+", n) and n not in goals and n not in LIBRARY and not GENERATED.match(n)}
    own |= aliases() | {n for n in LOCAL if any(n in read(path) for path in texts(".antt"))}
    return {n: spelled(n) for n in sorted(own)}, names


def turned_antt(text, names):
    lines = []
    for line in text.split("\n"):
        if line.lstrip().startswith("--"):
            lines.append(re.sub(r"`[^`\n]+`", lambda m: turned_words(m[0], names), line))
        else:
            lines.append(turned_words(line, names))
    return "\n".join(lines)


def turned_words(text, names):
    return re.sub(WORD + r'|"(?:[^"\\\n]|\\.)*"', lambda m: names.get(m[0], m[0]), text)


def turned_rt(text, names):
    """The code, and code spans of comments; strings stay."""

    def word(m):
        if m[0].startswith("//"):
            return re.sub(r"`[^`\n]+`", lambda s: turned_words(s[0], names), m[0])
        return names.get(m[0], m[0])

    return re.sub(r'//[^\n]*|"(?:[^"\\\n]|\\.)*"|' + WORD, word, text)


def turned_md(text, names):
    return re.sub(r"`[^`\n]+`", lambda m: turned_words(m[0], names), text)


def hexadecimal(text):
    text = re.sub(r"\bRattle\.hex\.", "Rattle.hexadecimal.", text)
    text = re.sub(r"\buse hex::", "use hexadecimal::", text)
    return re.sub(r"(?<![\w.\"])hex::", "hexadecimal::", text)


def write(path, old, new):
    if new != old:
        with open(path, "w", encoding="utf-8") as f:
            f.write(new)


def main():
    names, every = table()
    if "--list" in sys.argv:
        meet = {}
        for old, new in names.items():
            meet.setdefault(new, []).append(old)
            print(f"{old}\t{new}" + ("\tstands already" if new in every else ""))
        for new, olds in meet.items():
            if len(olds) > 1:
                print(f"fall together: {', '.join(olds)} as {new}")
        return
    for path in texts(".antt"):
        text = read(path)
        write(path, text, hexadecimal(turned_antt(text, names)))
    for path in texts(".rt", ".edit"):
        text = read(path)
        write(path, text, hexadecimal(turned_rt(text, names)))
    for name in sorted(os.listdir("docs")):
        if name.endswith(".md") and name != "PORT.md":
            path = os.path.join("docs", name)
            text = read(path)
            write(path, text, turned_md(text, names))
    if os.path.isdir("crates/hex"):
        subprocess.run(["git", "mv", "crates/hex", "crates/hexadecimal"], check=True)
        text = read("crates.txt")
        write("crates.txt", text, re.sub(r"\bhex\b", "hexadecimal", text))


if __name__ == "__main__":
    main()
