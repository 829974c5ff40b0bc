#!/usr/bin/env python3
"""Respells names of this repository's own definitions and lemmas, as names.tsv beside this script says: old, a tab, new.

usage: tools/respell.py [FOLDER]     once, at the top of a repository that port.py has just turned (or in FOLDER)

Whole words alone are turned: in .antt files all but comments and quoted text, in .rt files all but comments and quoted text, in .md files what stands
between backticks.
"""
import os
import re
import sys

HERE = os.path.dirname(os.path.abspath(__file__))
WORD = re.compile(r'[^\s(){}\[\].;:,@"«»`∷]+')
CODE = {
    ".antt": re.compile(r'"(?:[^"\\\n]|\\.)*"|(?<![^\s(){}.;,])--[^\n]*|' + WORD.pattern + r"|."  , re.S),
    ".rt": re.compile(r'//[^\n]*|b?"(?:[^"\\]|\\.)*"|b?\'(?:[^\'\\\n]|\\.)\'|' + WORD.pattern + r"|.", re.S),
}


def rows():
    with open(os.path.join(HERE, "names.tsv"), encoding="utf-8") as f:
        return dict(line.rstrip("\n").split("\t") for line in f if "\t" in line)


def turned(text, pattern, names):
    return pattern.sub(lambda m: names.get(m.group(0), m.group(0)), text)


def main(top):
    names = rows()
    for folder, dirs, files in os.walk(top):
        dirs[:] = sorted(d for d in dirs if d not in ("out", "target", ".git", "tools"))
        for f in sorted(files):
            path, kind = os.path.join(folder, f), os.path.splitext(f)[1]
            if kind not in (".antt", ".rt", ".md"):
                continue
            with open(path, encoding="utf-8") as it:
                old = it.read()
            if kind == ".md":
                new = re.sub(r"`[^`\n]+`", lambda m: WORD.sub(lambda w: names.get(w.group(0), w.group(0)), m.group(0)), old)
            else:
                new = turned(old, CODE[kind], names)
            if new != old:
                with open(path, "w", encoding="utf-8") as it:
                    it.write(new)


if __name__ == "__main__":
    main(sys.argv[1] if len(sys.argv) > 1 else os.path.dirname(HERE))
