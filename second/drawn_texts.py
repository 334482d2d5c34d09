"""Texts drawn from a seed: of the grammar, with room that may not suffice, and damaged ones."""
from assembler import assemble
from text_pieces import ACCEPTED, LINES, MNEMONICS, NAMES, RANGES, REGISTERS, SPELLINGS, UNSTATED, Case, spelled

STRING_BYTES = [chr(b) for b in [9, *range(0x20, 0x7F)] if chr(b) != '"']
# Bytes that mean something somewhere in a text, and some that may stand nowhere.
DAMAGE = b"\t\t  ,,;\"\"-00x19afrskz_\n\n\r\x00\x7f\x80"


class Chance:
    """Numbers that look random: the high halves of a linear congruential generator."""

    def __init__(self, seed):
        self.state = seed

    def below(self, n):
        self.state = (self.state * 1664525 + 1013904223) % 2**32
        return (self.state >> 16) % n

    def one_of(self, choices):
        return choices[self.below(len(choices))]

    def in_turn(self, n):
        """True once in n times."""
        return self.below(n) == 0


class Writer:
    """Lines of the grammar, by chance."""

    def __init__(self, chance):
        self.chance = chance

    def number(self, low, high):
        chance = self.chance
        span = high - low + 1
        value = chance.one_of([low, low + 1, -1, 0, 1, high - 1, high, *(low + chance.below(span) for _ in range(5))])
        value = min(max(value, low), high)
        if value == 0 and chance.in_turn(4):
            return "-0"
        return chance.one_of(spelled(value))

    def register(self, n):
        return self.chance.one_of(REGISTERS[n])

    def operands(self, letters, names):
        chance = self.chance
        p = chance.below(8)
        q = (p + 1 + chance.below(7)) % 8
        for letter in letters:
            if letter == "c" and chance.in_turn(2) or letter == "l":
                yield chance.one_of(names)
            elif letter in RANGES:
                yield self.number(*RANGES[letter])
            else:
                numbers = {"r": chance.below(8), "R": 1 + chance.below(7), "0": 0, "p": p, "q": q}
                yield self.register(numbers[letter])

    def instruction(self, names):
        mnemonic, letters = self.chance.one_of(LINES)
        operands = ",".join(self.operands(letters, names))
        return f"\t{mnemonic}" + (self.chance.one_of(" \t") + operands if letters else "")

    def data(self):
        chance = self.chance
        if chance.in_turn(2):
            return '"' + "".join(chance.one_of(STRING_BYTES) for _ in range(chance.below(9))) + '"'
        return " ".join(self.number(-32768, 65535) for _ in range(1 + chance.below(4)))

    def label(self, name):
        return name if self.chance.in_turn(2) else name + self.chance.one_of(" \t") + self.data()

    def other(self):
        return self.chance.one_of(["", ";", "; a comment", ";\tnop", ';"'])

    def lines(self, most):
        """The lines of a text and its number of labels; a name may be used before its label, and each has one."""
        chance = self.chance
        names = []
        for _ in range(1 + chance.below(4)):
            name = chance.one_of(NAMES)
            if name not in names:
                names.append(name)
        lines = [self.instruction(names) for _ in range(chance.below(most))]
        lines += [self.other() for _ in range(chance.below(3))]
        for line in [self.label(name) for name in names]:
            lines.insert(chance.below(len(lines) + 1), line)
        return lines, len(names)

    def text(self, most=8):
        """The last line may lack its LF."""
        lines, labels = self.lines(most)
        text = "\n".join(lines).encode()
        return text + (b"" if lines[-1] and self.chance.in_turn(3) else b"\n"), labels


def sized(text):
    """A text's sizes where everything has room, by the longest that they could be."""
    return len(text) + len(text) % 2, text.count(b"\n") + 1


def valid_cases(chance, count):
    """Texts of the grammar, with room to spare."""
    writer = Writer(chance)
    for _ in range(count):
        text, labels = writer.text()
        image, lines = sized(text)
        yield Case(text, image, labels + chance.below(3), lines + chance.below(3), ACCEPTED)


def tight_cases(chance, count):
    """Texts of the grammar, with room that just suffices or does not."""
    writer = Writer(chance)
    for _ in range(count):
        text, labels = writer.text(6)
        answer = assemble(text, 65536, labels, 2048)
        sizes = [len(answer.image), len(answer.labels), len(answer.lines)]
        for i in range(3):
            if chance.in_turn(3):
                sizes[i] = max(0, sizes[i] - 1 - chance.below(3))
        yield Case(text, *sizes, UNSTATED)


def damaged(chance, text):
    """One to three bytes are changed, left out or put in, or a line is doubled or left out."""
    text = bytearray(text)
    for _ in range(1 + chance.below(3)):
        at = chance.below(len(text) + 1)
        how = chance.below(8)
        if how <= 2:
            text[at : at + 1] = [chance.one_of(DAMAGE)]
        elif how <= 4:
            text[at:at] = [chance.one_of(DAMAGE)]
        elif how <= 6:
            del text[at : at + 1]
        else:
            lines = text.split(b"\n")
            i = chance.below(len(lines))
            lines[i : i + 1] = [lines[i]] * (2 * chance.below(2))
            text = bytearray(b"\n").join(lines)
    return bytes(text)


def damaged_cases(chance, count):
    """Room is wanting at times, too."""
    writer = Writer(chance)
    for _ in range(count):
        text, labels = writer.text(5)
        text = damaged(chance, text)
        image, lines = sized(text)
        labels += -1 if chance.in_turn(4) else 1
        lines -= 3 if chance.in_turn(8) else 0
        yield Case(text, image, max(0, labels), max(0, lines), UNSTATED)


def jumbled_line(writer):
    """A line of pieces that are good by themselves."""
    chance = writer.chance
    name = chance.one_of(NAMES[:4])
    number = writer.number(*chance.one_of([*RANGES.values(), (-129, 256), (-32769, 65536)]))
    how = chance.below(8)
    if how == 0:
        return name
    if how == 1:
        return f"{name} {number}"
    operands = [chance.one_of(SPELLINGS)]
    operands += [chance.one_of([chance.one_of(SPELLINGS), number, name]) for _ in range(chance.below(3))]
    return f"\t{chance.one_of(MNEMONICS)} {','.join(operands)}"


def jumbled_cases(chance, count):
    writer = Writer(chance)
    for _ in range(count):
        text = "\n".join(jumbled_line(writer) for _ in range(1 + chance.below(3)))
        yield Case(text.encode(), chance.below(16), chance.below(4), chance.below(4), UNSTATED)


def drawn_cases():
    yield from valid_cases(Chance(1), 1000)
    yield from tight_cases(Chance(2), 700)
    yield from damaged_cases(Chance(3), 1800)
    yield from jumbled_cases(Chance(4), 1000)
