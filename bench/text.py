#!/usr/bin/env python3
"""Prints a text to measure assemblers with.

usage: bench/text.py [BYTES [LABELS [SEED]]]

It has exactly BYTES bytes (32,768 by default, 256 at least), a line for each 16 of them, and a label for each 128 of them or
LABELS (256 at most, and one for each 64 bytes), and passes all questions: rows of one, two and three words, numbers in
every base, strings, data, comments and empty lines. About a quarter of its instructions use a label, any of them. The same
arguments give the same text.
"""
import random
import sys

MOST_BYTES = 32768
MOST_LABELS = 256
BYTES_OF_LINE = 16
BYTES_OF_LABEL = 128
MOST_IN_LINE = 120

# Register 0 is left out of OTHERS: rows that change it by themselves may not name it.
ZERO = ["r0", "at"]
OTHERS = ["r1", "r2", "r3", "r4", "r5", "r6", "r7", "sr", "lr", "sp"]
SAME = {"sr": "r5", "lr": "r6", "sp": "r7"}

STEMS = "a i k loop next done found print_line buffer table text Count sum_of_all end_of_the_text _x".split()
WORDS = "the a of to and next byte word count address table line until all is where it ends (see above) r1 = 0; -> 0x10".split()

# How often each kind of row comes: a letter for each operand, as docs/TEXT.md has them. R is a register other than 0, u
# and s a number of a byte without and with sign, d and c a number and a name where both may stand, a a name.
ROWS = [
    (24, "and or xor slt sltu add sub", "rrr"),
    (3, "lsr asr", "rrz"),
    (3, "ldb ldw", "rzr"),
    (3, "stb stw bez bnz", "zrr"),
    (5, "and or ldc", "ru"),
    (16, "xor slt sltu add sub ldr", "rs"),
    (6, "bez bnz", "rs"),
    (14, "lsr asr ldb ldw stb stw bez bnz lsl", "rr"),
    (2, "nop hcf", ""),
    (2, "not", "r"),
    (2, "neg", "R"),
    (8, "ldi", "rd"),
    (8, "ldi", "rc"),
    (3, "ldb ldw stb stw", "Rd"),
    (10, "ldb ldw stb stw", "Rc"),
    (12, "bez bnz", "Ra"),
    (3, "lsrm asrm lslm", "pq"),
]
RANGES = {"u": (0, 255), "s": (-128, 127), "d": (-32768, 65535)}


class Writer:
    def __init__(self, seed, labels):
        self.random = random.Random(seed)
        self.labels = [self.random.choice(STEMS) + str(i) for i in range(labels)]

    def number(self, low, high):
        """Mostly decimal, and small ones as often as any."""
        n = self.random.randint(low, high)
        if self.random.random() < 0.5:
            n = max(low, n // 100)
        base = self.random.choices(["{}", "0x{:x}", "0X{:04X}", "0o{:o}", "0b{:b}"], [12, 4, 2, 1, 1])[0]
        return ("-" if n < 0 else "") + base.format(abs(n))

    def operands(self, letters):
        if letters == "pq":
            p = self.random.choice(OTHERS)
            yield p
            yield self.random.choice([r for r in OTHERS if SAME.get(r, r) != SAME.get(p, p)])
            return
        for letter in letters:
            if letter in RANGES:
                yield self.number(*RANGES[letter])
            elif letter in "ca":
                yield self.random.choice(self.labels)
            elif letter == "z":
                yield self.random.choice(ZERO)
            else:
                yield self.random.choice(OTHERS if letter == "R" else OTHERS + ZERO)

    def instruction(self):
        _, mnemonics, letters = self.random.choices(ROWS, [row[0] for row in ROWS])[0]
        operands = ",".join(self.operands(letters))
        return "\t" + self.random.choice(mnemonics.split()) + (" " + operands if operands else "")

    def words(self, length):
        text = ""
        while len(text) < length:
            text += self.random.choice(WORDS) + " "
        return text[:length]

    def label(self, name):
        kind = self.random.random()
        if kind < 0.5:
            return name
        if kind < 0.75:
            return f'{name} "{self.words(self.random.randint(0, 24))}"'
        return name + " " + " ".join(self.number(-32768, 65535) for _ in range(self.random.randint(1, 5)))

    def lines(self, count, bytes):
        """The comments take what the other lines leave."""
        comments, empty = count // 9, count // 20
        labels = [self.label(name) for name in self.labels]
        rest = count - comments - empty - len(labels)
        lines = labels + [""] * empty + [self.instruction() for _ in range(rest)]
        left = bytes - sum(len(line) + 1 for line in lines) - comments
        lines += [";" + self.words(length) for length in self.parts(left - comments, comments, MOST_IN_LINE - 1)]
        self.random.shuffle(lines)
        return lines

    def parts(self, whole, count, most):
        """So many numbers up to `most` that come to the whole: even shares, and then some of one goes to the next."""
        share, more = divmod(whole, count)
        if not 0 <= share < most:
            raise SystemExit(f"bench/text.py: with these arguments a comment would need {share} bytes; try another seed")
        parts = [share + (i < more) for i in range(count)]
        for i in range(count - 1):
            moved = self.random.randint(0, min(parts[i], most - parts[i + 1]))
            parts[i] -= moved
            parts[i + 1] += moved
        return parts


def text(bytes=MOST_BYTES, labels=None, seed=1):
    writer = Writer(seed, bytes // BYTES_OF_LABEL if labels is None else labels)
    return "".join(line + "\n" for line in writer.lines(bytes // BYTES_OF_LINE, bytes))


def main():
    if len(sys.argv) > 4 or not all(a.isdecimal() for a in sys.argv[1:]):
        raise SystemExit(__doc__)
    arguments = [int(a) for a in sys.argv[1:]]
    bytes, labels = arguments[0] if arguments else MOST_BYTES, arguments[1] if len(arguments) > 1 else 1
    if not 256 <= bytes <= MOST_BYTES or not 1 <= labels <= min(MOST_LABELS, bytes // 64):
        raise SystemExit(__doc__)
    sys.stdout.write(text(*arguments))


if __name__ == "__main__":
    main()
