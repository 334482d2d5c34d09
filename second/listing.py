"""The expected output of the listing program on the words of its example."""
import re

from words import decode, line


def report(number, text):
    """What is printed for one line of input."""
    if not re.fullmatch(rb"[0-9A-Fa-f]{4}", text):
        return f"line {number}: not a word, four hexadecimal digits expected\n"
    word = int(text, 16)
    return line(word) if decode(word) else "refused 16\n"


def listing(data):
    lines = data.split(b"\n")
    if lines[-1] == b"":
        lines.pop()
    return "".join(report(i + 1, text) for i, text in enumerate(lines)).encode()


def outputs():
    with open("examples/words.txt", "rb") as f:
        example = f.read()
    return {"crates/listing/stdin": example, "crates/listing/stdout": listing(example)}
