#!/usr/bin/env python3
"""Respells the repository's own definitions and lemmas: words in snake case, facts in upper camel case.

usage: tools/respell.py [FOLDER]   (the repository's top by default)

tools/respelled.txt has a line for each name: the old spelling, a space, the new one. Names are replaced whole, in the
definitions, proofs, contracts and must-fail edits under crates/, and between backticks in README.md and docs/.
"""
import pathlib
import re
import sys

HERE = pathlib.Path(__file__).resolve().parent
NAME = re.compile(r"(?<![\w'?-])[A-Za-z][\w']*(?:-[\w']+)*(?![\w'?-])")


def table():
    rows = (HERE / "respelled.txt").read_text(encoding="utf-8").split("\n")
    return dict(row.split(" ") for row in rows if row)


def respelled(text, names):
    return NAME.sub(lambda m: names.get(m[0], m[0]), text)


def clauses_respelled(text, names):
    """The code of a source file keeps its words: only contracts, ghost items and ghost imports are respelled."""
    out, deep, ghost = [], 0, False
    for line in text.split("\n"):
        head = re.match(r"\s*(?:pub )?(ghost|requires|ensures)\b", line)
        if deep or head:
            out.append(respelled(line, names))
            deep = max(0, deep + line.count("{") - line.count("}"))
        else:
            out.append(line)
    return "\n".join(out)


def page_respelled(text, names):
    return re.sub(r"`[^`\n]+`", lambda m: respelled(m[0], names), text)


def turn(path, how, names):
    old = path.read_text(encoding="utf-8")
    new = how(old, names)
    if new != old:
        path.write_text(new, encoding="utf-8")


def main():
    root = pathlib.Path(sys.argv[1]) if len(sys.argv) > 1 else HERE.parent
    names = table()
    for path in sorted(root.glob("crates/*/**/*")):
        if "out" in path.relative_to(root).parts or not path.is_file():
            continue
        if path.suffix == ".antt" or path.suffix == ".edit":
            turn(path, respelled, names)
        elif path.suffix == ".rt":
            turn(path, clauses_respelled, names)
    for path in [root / "README.md", *sorted(root.glob("docs/*.md"))]:
        if path.is_file():
            turn(path, page_respelled, names)


main()
