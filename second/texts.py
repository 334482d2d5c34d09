"""The cases that both assemblers are given, and what is written of their answers.

`outputs()` gives what the program crate `texts` reads and what it must write. Run as a script, it prints how many cases
end with each answer.

Standard input is the number of cases on a line, then for each case a line of four decimal numbers (the text's bytes,
the image buffer's bytes, the label records, the line records), the text and an LF. Standard output has for each case

    case N
    accepted BYTES LABELS LINES       or   refused NUMBER LINE LABELS LINES
    image HEX                         where accepted with 1 to 48 bytes
    label PLACE LENGTH ADDRESS        each of the first 48
    line NUMBER ADDRESS WORDS KIND    each of the first 48
    lent IMAGE LABELS LINES           digests of all that was lent, filled or not
"""
import collections
import sys
from pathlib import Path

sys.path.insert(0, str(Path(__file__).resolve().parent))

from assembler import assemble  # noqa: E402
from chosen_texts import CHOSEN  # noqa: E402
from drawn_texts import drawn_cases  # noqa: E402
from text_pieces import ACCEPTED, UNSTATED  # noqa: E402

MOST_SHOWN = 48
# What everything lent is full of beforehand.
BYTE = 0xA5
LABEL = (0xA5A5, 0xA5, 0x5A5A)
LINE = (0xA5A5, 0x5A5A, 0xA55A, "data")
KINDS = {"instruction": 0, "data": 1}


def digest(numbers):
    state = 2166136261
    for n in numbers:
        state = ((state ^ n) * 16777619) % 2**32
    return f"{state:08x}"


def label_numbers(labels):
    return (n for label in labels for n in label)


def line_numbers(lines):
    return (n for *numbers, kind in lines for n in (*numbers, KINDS[kind]))


def padded(filled, filler, size):
    return list(filled) + [filler] * (size - len(filled))


def block(number, case, answer):
    """What is written of one case."""
    counts = f"{len(answer.labels)} {len(answer.lines)}"
    yield f"case {number}"
    if answer.refused:
        yield "refused %d %d %s" % (*answer.refused, counts)
    else:
        yield f"accepted {len(answer.image)} {counts}"
    if 0 < len(answer.image) <= MOST_SHOWN:
        yield f"image {answer.image.hex()}"
    yield from ("label %d %d %d" % label for label in answer.labels[:MOST_SHOWN])
    yield from ("line %d %d %d %s" % line for line in answer.lines[:MOST_SHOWN])
    image = digest(padded(answer.image, BYTE, case.image))
    labels = digest(label_numbers(padded(answer.labels, LABEL, case.labels)))
    lines = digest(line_numbers(padded(answer.lines, LINE, case.lines)))
    yield f"lent {image} {labels} {lines}"


def answer_to(case):
    """The second assembler's answer, which must be the stated one where one is stated."""
    answer = assemble(case.text, case.image, case.labels, case.lines)
    if case.stated != UNSTATED and (answer.refused or ACCEPTED) != case.stated:
        raise AssertionError(f"{case.text[:80]} {case[1:]}: {answer.refused or ACCEPTED}")
    return answer


def cases():
    for chosen in CHOSEN:
        yield from chosen()
    yield from drawn_cases()


def asked(all_cases):
    """What the program reads."""
    parts = [b"%d\n" % len(all_cases)]
    for c in all_cases:
        parts.append(b"%d %d %d %d\n%s\n" % (len(c.text), c.image, c.labels, c.lines, c.text))
    return b"".join(parts)


def outputs():
    """What is kept in the repository, by its path."""
    all_cases = list(cases())
    lines = (line for i, c in enumerate(all_cases) for line in block(i, c, answer_to(c)))
    written = "".join(f"{line}\n" for line in lines).encode()
    return {"crates/texts/stdin": asked(all_cases), "crates/texts/stdout": written}


def main():
    counts = collections.Counter()
    for c in cases():
        refused = answer_to(c).refused
        counts[refused[0] if refused else 0] += 1
    for number, count in sorted(counts.items()):
        print(f"{'refused %d' % number if number else 'accepted'}: {count}")
    print(f"cases: {sum(counts.values())}")


if __name__ == "__main__":
    main()
