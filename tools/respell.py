#!/usr/bin/env python3
"""Respells the repository's own definitions and lemmas: words in snake case, types and facts in camel case.

usage: python3 tools/respell.py      at the top of a checkout, once, after the kit's port.py

A name is the repository's own if a file of specs/ or proofs/ declares it: as a definition, a lemma, a record or one of its fields, by a `let` or as an argument `(name : ..)`.
It is turned in specs/, proofs/, the clauses of src/, and what README.md and docs/ have between backquotes.
Left as they are: names that Rattle makes (goals, and the steps that an answer cites), names of the library, functions and other names of src/, strings, and lines that are comments.
In a lemma on the length, the elements or the spots of something a dash joins the two names, as the library has it: `length-put_page`.
"""
import glob
import re
import sys

NAME = r"[^\s(){}\[\]:;.,=λ↦|∷→×⌜⌝\"`+*/<>≡≤≢~?&!]+"
HEAD = r"^(?:abbrev |unfoldable )*(?:pub )?"
OUTER = {"getD": "get_or", "length": "length", "spots": "spots"}


def texts(ending):
    return sorted(f for f in glob.glob("crates/**/*" + ending, recursive=True) if "/out/" not in f)


def declared():
    """The names that the repository's own files of specs/ and proofs/ declare."""
    names, made = set(), set()
    for f in texts(".antt"):
        for line in open(f, encoding="utf-8"):
            line = line.strip()
            if line.startswith("--"):
                continue
            m = re.match(HEAD + r"(?:record |data )(" + NAME + ")", line)
            if m:
                names.add(m[1])
            m = re.match(HEAD + "(" + NAME + r")\s+:\s+(\S+)", line)
            if m:
                (made if m[2].startswith("goal.") else names).add(m[1])
            names.update(re.findall(r"let (" + NAME + r")\s+[:=]", line))
            names.update(re.findall(r"\((" + NAME + r") :", line))
    return names - made


def respelled(name):
    first, _, rest = name.partition("-")
    if first in OUTER and rest:
        return OUTER[first] + "-" + rest.replace("-", "_")
    if name[0].isupper():
        return "".join(w[0].upper() + w[1:] for w in re.split("[-_]", name))
    return name.replace("-", "_")


def main():
    old = declared()
    new = {n: respelled(n) for n in old if respelled(n) != n and re.search("[-_]", n)}
    for n, m in sorted(new.items()):
        if m in old or list(new.values()).count(m) > 1:
            print(f"falls together: {n} as {m}", file=sys.stderr)
            raise SystemExit(1)
    turn = lambda m: new.get(m[0], m[0])
    for ending, comment in ((".antt", "--"), (".rt", "//")):
        for f in texts(ending):
            lines = open(f, encoding="utf-8").read().split("\n")
            for i, line in enumerate(lines):
                if line.strip().startswith(comment):
                    continue
                lines[i] = "".join(p if p.startswith('"') else re.sub(NAME, turn, p) for p in re.split(r'("[^"]*")', line))
            text = "\n".join(lines)
            if text != open(f, encoding="utf-8").read():
                open(f, "w", encoding="utf-8").write(text)
    for f in ["README.md"] + sorted(glob.glob("docs/*.md")):
        text = open(f, encoding="utf-8").read()
        named = re.sub(r"`[^`\n]*`", lambda m: re.sub(NAME, turn, m[0]), text)
        if named != text:
            open(f, "w", encoding="utf-8").write(named)
    print(f"respell: {len(new)} names")


main()
