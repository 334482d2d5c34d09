#!/usr/bin/env python3
"""Lists the places of src/ that a language form of today could stand in, by kind.

usage: tools/places.py [--count] [FOLDER]   (the repository's top by default)

It goes by text, so that it finds more than is meant: docs/DESIGN-PASS.md says of each place what became of it.
"""
import collections
import pathlib
import re
import sys

ITEM = re.compile(r"^\s*(?:pub(?:\(crate\))? )?(?:fn|struct|enum) ")
FN = re.compile(r"^\s*(?:pub(?:\(crate\))? )?fn (\w+)")
LINE_KINDS = [
    ("3 loops that count or search by hand", re.compile(r"\bwhile |\bloop \{|\.enumerate\(\)|\bfor \w+ in [\w:]+\.\.|\+= 1;")),
    ("4 widening casts", re.compile(r"\b(?!char)\w+\)? as (?:u16|u32|u64|usize|i64)\b")),
    ("4 bytes of words by hand", re.compile(r"256 \* |\* 256\b|/ 256\b|% 256\)? as u8")),
    ("4 digits and hexadecimal by hand", re.compile(r"b'[0aA]' \+|- b'[0aA]'|- '[0aA]' as|fn (?:push_hex|push_decimal|push_digits|digits?|hex_digit)\b")),
    ("1 answers handed on or turned by hand", re.compile(r"(?:None|Err\(\w+\)) => (?:return )?(?:None|Err\(|false|true)|return None;|Err\(\w+::\w+\(\w+::\w+\)\)")),
    ("1 a flag beside a value", re.compile(r"\b\w+: bool,|\(true, |\(false, ")),
    ("6 places by number", re.compile(r"\bfn position\b|\[self\.position\(\)\]")),
]
OPTION_LIKE = re.compile(r"^\s+(?:None|Absent|NumberOnly|Nothing|Empty|Refused|Failed|Fault)\b.*,$")


def fn_blocks(lines):
    start = None
    for i, line in enumerate(lines):
        if FN.match(line):
            start = i
        elif start is not None and re.match(r"^\s{0,4}\}\s*$|^\s{0,4}\{\}$|.*;$", line) and len(line) - len(line.lstrip()) == len(lines[start]) - len(lines[start].lstrip()):
            yield start, lines[start:i + 1]
            start = None


def shape(block):
    """A function's code without its contract, with names and numbers left out."""
    code = [l for l in block if not re.match(r"\s*(ensures|requires|//)", l)]
    text = re.sub(r"b?'[^']*'|b?\"[^\"]*\"", "S", " ".join(code))
    text = re.sub(r"\b[A-Za-z_]\w*\b", lambda m: m.group() if m.group() in ("fn", "for", "if", "match", "return", "while", "let", "else", "Some", "None", "Ok", "Err") else "N", text)
    return re.sub(r"\b\d\w*\b", "0", re.sub(r"\s+", " ", text))


def places(top):
    found = collections.defaultdict(list)
    shapes, clauses, params = (collections.defaultdict(list) for _ in range(3))
    for path in sorted(top.glob("crates/*/src/**/*.rt")):
        name = path.relative_to(top / "crates")
        lines = path.read_text(encoding="utf-8").split("\n")
        where = lambda i: f"{name}:{i + 1}: {lines[i].strip()[:100]}"
        enum = searched = None
        for i, line in enumerate(lines):
            if re.match(r"\s*//", line):
                continue
            for kind, pattern in LINE_KINDS:
                if pattern.search(line):
                    found[kind].append(where(i))
            if ITEM.match(line):
                enum = " enum " in f" {line.strip()}"
            if enum and OPTION_LIKE.match(line):
                found["1 own enums with a case for none or for a refusal"].append(where(i))
            if enum and re.match(r"^\s+\w+\((?:.*, )?u8\b.*\),$", line):
                found["1 numbers in an enum where a type stands elsewhere"].append(where(i))
            if re.match(r"\s*for ", line):
                searched = i
            if searched is not None and re.match(r"\s*return ", line) and i - searched < 4:
                found["3 loops that count or search by hand"].append(where(searched))
                searched = None
            if re.match(r"\s+\w+: \[.*; \w+\],$", line) and any(re.match(r"\s+(pub )?\w+: usize,$", l) for l in lines[i + 1:i + 3]):
                found["6 buffers with a length beside them"].append(where(i))
            if re.match(r"\s+pub \w+: \[.*; \w+\],$", line) and "usize" in lines[i + 1]:
                found["6 buffers with a length beside them"].append(where(i))
            clause = re.match(r"\s+(?:requires|ensures)(?: \w+)? \{ (.*) \}$", line)
            if clause:
                clauses[clause.group(1)].append(where(i))
        for start, block in fn_blocks(lines):
            head = " ".join(l.strip() for l in block)
            head = head[:head.find(")") + 1]
            names = re.findall(r"(\w+): (&?(?:mut )?[\w<>\[\], ']+?)(?=,|\))", head)
            for a in range(len(names)):
                for b in range(a + 1, len(names)):
                    params[(names[a], names[b])].append(where(start))
            if len(block) > 4 and "#[test]" not in lines[start - 1]:
                shapes[shape(block)].append(where(start))
            if re.search(r"fn number\(self\) -> u8", block[0]):
                found["4 numbers of refusals by a match"].append(where(start))
            arms = [l for l in block if re.match(r"\s+\w+::\w+ => (?!\w+::)\w[\w:]*\(", l)]
            if len(arms) > 1:
                found["7 a switch on what to run"].append(where(start))
    for group in shapes.values():
        if len(group) > 1:
            found["2 functions of one shape"].append("\n      ".join(group))
    for clause, group in clauses.items():
        if len(group) > 2:
            found["5 clauses that stand three times or more"].append(f"{len(group)} times, first {group[0]}")
    for pair, group in params.items():
        if len(group) > 3:
            found["5 parameters that travel together"].append(f"{len(group)} times {pair[0][0]}, {pair[1][0]}, first {group[0]}")
    return found


def main():
    args = [a for a in sys.argv[1:] if a != "--count"]
    top = pathlib.Path(args[0] if args else pathlib.Path(__file__).resolve().parent.parent)
    found = places(top)
    for kind in sorted(found):
        print(f"{len(found[kind]):4}  {kind}")
        if "--count" not in sys.argv:
            for place in found[kind]:
                print(f"      {place}")


if __name__ == "__main__":
    main()
