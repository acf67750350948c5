#!/usr/bin/env python3
"""Brings the repository's own names to today's spelling: snake case for definitions and lemmas. Run once, at the top, after port.py.

tools/respell.txt lists each name and its new one. Functions of src/, exported names, strings, inputs and outputs are left; in comments and pages a name
with a dash is turned only between backticks, since it may be an English word.
"""

import os
import re
import sys

HERE = os.path.dirname(os.path.realpath(__file__))
NAME = re.compile(r"[^\s(){}\[\],;.⌜⌝λ:=|\"«»`]+")
CAMEL = re.compile(r"(?<![\w'-])[a-z]+[a-z0-9]*[A-Z]\w*")
TICKS = re.compile(r"`[^`\n]*`")


def table():
    every, proofs = {}, {}
    with open(os.path.join(HERE, "respell.txt"), encoding="utf-8") as f:
        for line in f:
            words = line.split()
            if not words or words[0] == "#":
                continue
            (proofs if words[2:] == ["proofs"] else every)[words[0]] = words[1]
    return every, proofs


def names(text, to):
    return NAME.sub(lambda m: to.get(m.group(0), m.group(0)), text)


def prose(text, to):
    text = TICKS.sub(lambda m: names(m.group(0), to), text)
    return CAMEL.sub(lambda m: to.get(m.group(0), m.group(0)), text)


def code(text, to, mark):
    """Turns the names outside comments and strings, and what prose turns inside comments."""
    lines = []
    for line in text.split("\n"):
        at, quoted = None, False
        for i, c in enumerate(line):
            if c == '"' and (i == 0 or line[i - 1] not in "\\'"):
                quoted = not quoted
            if not quoted and line.startswith(mark, i) and (i == 0 or line[i - 1] in " ("):
                at = i
                break
        head, tail = (line, "") if at is None else (line[:at], line[at:])
        parts = re.split(r'("(?:[^"\\]|\\.)*")', head)
        head = "".join(p if i % 2 else names(p, to) for i, p in enumerate(parts))
        lines.append(head + prose(tail, to))
    return "\n".join(lines)


def main():
    root = os.path.realpath(sys.argv[1] if len(sys.argv) > 1 else ".")
    every, proofs = table()
    for folder, dirs, files in os.walk(root):
        dirs[:] = [d for d in dirs if d not in ("out", "target", ".git", "tools")]
        for f in files:
            path = os.path.join(folder, f)
            inside = os.path.relpath(path, root)
            if f.endswith(".antt") and inside.startswith("crates"):
                lemmas = re.fullmatch(r"crates/\w+/proofs/\w+\.antt", inside)
                turn = lambda t: code(t, every | proofs if lemmas else every, "--")
            elif f.endswith(".rt") and inside.startswith("crates"):
                turn = lambda t: code(t, every, "//")
            elif f.endswith(".md") and (inside == "README.md" or inside.startswith(("docs", "tests", "bench", "samples"))):
                turn = lambda t: prose(t, every)
            else:
                continue
            with open(path, encoding="utf-8") as it:
                old = it.read()
            new = turn(old)
            if new != old:
                with open(path, "w", encoding="utf-8") as it:
                    it.write(new)


if __name__ == "__main__":
    main()
