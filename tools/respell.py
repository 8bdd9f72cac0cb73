#!/usr/bin/env python3
"""Spells the repository's own definitions and lemmas as today's Rattle does: snake case for words, camel case for types.

usage: python3 tools/respell.py      at the top of a checkout, once, right after the kit's port.py

A name is ours if a file of specs/ or a lemma file of proofs/ declares it. What the checker names itself (the goals that
the files in proofs/FUNCTION/ answer) keeps its dashes. Strings and comments stay.
"""

import os
import re
import sys

TOKEN = re.compile(r"[^\s(){}\[\],;.«»\"`@#]+")
DECLARED = re.compile(r"^[ \t]*(?:(?:pattern|unfoldable|abbrev|pub|axiom|record|data)\s+)*([^\s:(){}]+)(?:[ \t]+[({][^\n]*?)?[ \t]*:(?!=)(.*)$", re.M)
LOCAL = re.compile(r"(?:[({]|\blet |λ )[ \t]*((?:[^\s:(){}.]+[ \t]+)*[^\s:(){}.]+)[ \t]*:")
LET = re.compile(r"\blet[ \t]+([^\s:(){}.=]+)[ \t]*=")
MADE = re.compile(r"\b(goal|need|given|rule)\.")


def texts(top):
    for folder, folders, files in os.walk(os.path.join(top, "crates")):
        folders[:] = sorted(f for f in folders if f != "out")
        for name in sorted(files):
            if name.endswith((".rt", ".antt")):
                yield os.path.join(folder, name)


def spans(text, rust):
    """The pieces of a text: (is code, piece), where strings and comments are no code."""
    i, start, n = 0, 0, len(text)
    while i < n:
        end = None
        if text[i] == '"':
            end = i + 1
            while end < n and text[end] != '"':
                end += 2 if text[end] == "\\" else 1
            end = min(end + 1, n)
        elif (rust and text.startswith("//", i)) or (not rust and text.startswith("--", i) and (i == 0 or text[i - 1].isspace())):
            end = text.find("\n", i)
            end = n if end < 0 else end
        if end is None:
            i += 1
            continue
        yield True, text[start:i]
        yield False, text[i:end]
        i = start = end
    yield True, text[start:]


def code(text, rust):
    return "".join(piece if is_code else " " * len(piece) for is_code, piece in spans(text, rust))


def is_answer_file(path):
    parts = path.split(os.sep)
    return "proofs" in parts and parts.index("proofs") < len(parts) - 2


def spelled(name):
    if name[0].isupper() and "-" in name:
        name = "".join(part[0].upper() + part[1:] for part in name.split("-") if part)
    return name.replace("-", "_").replace("′", "'")


def odd(name):
    return bool(re.search(r"\w-\w", name) or "′" in name) and bool(re.search(r"[A-Za-z]", name))


def names(top):
    ours, made = set(), set()
    for path in texts(top):
        if path.endswith(".rt"):
            continue
        with open(path, encoding="utf-8") as f:
            text = code(f.read(), False)
        for m in DECLARED.finditer(text):
            if is_answer_file(path) and MADE.search(m.group(2)):
                made.add(m.group(1))
            else:
                ours.add(m.group(1))
        for m in LOCAL.finditer(text):
            ours.update(m.group(1).split())
        for m in LET.finditer(text):
            ours.add(m.group(1))
    return {n: spelled(n) for n in ours - made if odd(n)}


def main():
    top = os.getcwd()
    known = names(top)
    before = {}
    for path in texts(top):
        with open(path, encoding="utf-8") as f:
            before[path] = f.read()
    # names that would fall together
    for path, text in before.items():
        tokens = set(TOKEN.findall(code(text, path.endswith(".rt"))))
        for old, new in known.items():
            if old in tokens and new in tokens:
                print(f"look: {path}: {old} and {new}")
    changed = 0
    for path, text in before.items():
        out = []
        for is_code, piece in spans(text, path.endswith(".rt")):
            out.append(TOKEN.sub(lambda m: known.get(m.group(), m.group()), piece) if is_code else piece)
        new = "".join(out)
        if new != text:
            changed += 1
            with open(path, "w", encoding="utf-8") as f:
                f.write(new)
    print(f"respell: {len(known)} names, {changed} files")
    if "-v" in sys.argv:
        for old in sorted(known):
            print(f"  {old} -> {known[old]}")


main()
