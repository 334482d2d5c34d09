"""The assembler, written a second time: a text to its image and tables, or to the first question that it fails.

It follows docs/TEXT.md and docs/REFUSALS.md and shares nothing with the crates.
"""
import re
import sys
from collections import namedtuple
from pathlib import Path

sys.path.insert(0, str(Path(__file__).resolve().parent))

from words import HCF, IMMEDIATE_FORMS, REGISTER_FORMS, ZERO_EXTENDED  # noqa: E402

MOST_BYTES = 32768
MOST_LINES = 2048
MOST_IN_LINE = 120
MOST_LABELS = 256
C_RANGE = range(-32768, 65536)

REGISTERS = {b"r%d" % i: i for i in range(8)} | {b"at": 0, b"sr": 5, b"lr": 6, b"sp": 7}
AT = 0

NAME = re.compile(rb"[A-Za-z_][A-Za-z0-9_]{0,31}")
NUMBER = re.compile(rb"-?(0|[1-9][0-9]*|0[xX][0-9A-Fa-f]+|0[oO][0-7]+|0[bB][01]+)")
SEPARATOR = re.compile(rb"[ \t]")

# place: the offset in the text of the name's first byte.
Label = namedtuple("Label", "place length address")
# kind: "instruction" or "data".
Line = namedtuple("Line", "number address words kind")
# refused: None, or the number and the line. The tables hold what was filled, and the image is empty where refused.
Answer = namedtuple("Answer", "refused image labels lines")


class No(Exception):
    """A question answered with no."""

    def __init__(self, number, line):
        super().__init__(number, line)
        self.number, self.line = number, line


# Words


def fields_of(forms):
    return {name: (opcode, op2) for op2, (names, _) in forms.items() for opcode, name in names.items()}


REGISTER_OPS = fields_of(REGISTER_FORMS)
IMMEDIATE_OPS = {name: opcode for opcode, name in IMMEDIATE_FORMS.items()}


def register_word(name, rst, rsa, rsb):
    opcode, op2 = REGISTER_OPS[name]
    return opcode << 12 | rst << 8 | rsa << 5 | rsb << 2 | op2


def immediate_word(name, rst, immediate):
    return IMMEDIATE_OPS[name] << 12 | 1 << 11 | rst << 8 | immediate & 0xFF


# Rows: what a mnemonic with operands of certain kinds spells

COMPUTES = {"and", "or", "xor", "slt", "sltu", "add", "sub"}
SHIFTS = {"lsr", "asr"}
LOADS = {"ldb", "ldw"}
STORES = {"stb", "stw"}
BRANCHES = {"bez", "bnz"}
LONG_SHIFTS = {"lsrm", "asrm", "lslm"}


def with_zero(name, r, s):
    """The word of a form with two registers: the third field is register 0."""
    if name in SHIFTS:
        return register_word(name, r, s, 0)
    if name in LOADS:
        return register_word(name, r, 0, s)
    return register_word(name, 0, r, s)


def load_immediate(r, c):
    """ldc shifts what the register held up by a byte, so the high byte comes first."""
    return [immediate_word("ldc", r, c >> 8), immediate_word("ldc", r, c)]


def by_way_of_at(name, r, c):
    return load_immediate(AT, c) + [with_zero(name, r, AT)]


def one_place(name, r):
    """The word that shifts r by one place."""
    if name == "lslm":
        return register_word("add", r, r, r)
    return register_word(name[:3], r, r, 0)


def long_shift(name, r, s):
    return [one_place(name, r), immediate_word("sub", s, 1), immediate_word("bnz", s, -6)]


def negative(r):
    return [register_word("xor", AT, AT, AT), register_word("sub", r, AT, r)]


# letters: one for each operand. r, s, t: a register. z: a register that has to be register 0. n: a number. c: a number
# or a name. a: a name.
Row = namedtuple("Row", "mnemonics letters spell writes_at apart", defaults=(False, False))

ROWS = (
    Row(COMPUTES, "rst", lambda m, r, s, t: [register_word(m, r, s, t)]),
    Row(SHIFTS, "rsz", lambda m, r, s, z: [register_word(m, r, s, z)]),
    Row(LOADS, "rzs", lambda m, r, z, s: [register_word(m, r, z, s)]),
    Row(STORES | BRANCHES, "zrs", lambda m, z, r, s: [register_word(m, z, r, s)]),
    Row(set(IMMEDIATE_OPS), "rn", lambda m, r, n: [immediate_word(m, r, n)]),
    Row({"nop"}, "", lambda m: [0x0000]),
    Row({"hcf"}, "", lambda m: [HCF]),
    Row(SHIFTS | LOADS | STORES | BRANCHES, "rs", lambda m, r, s: [with_zero(m, r, s)]),
    Row({"lsl"}, "rs", lambda m, r, s: [register_word("add", r, s, s)]),
    Row({"not"}, "r", lambda m, r: [immediate_word("xor", r, -1)]),
    Row({"neg"}, "r", lambda m, r: negative(r), writes_at=True),
    Row({"ldi"}, "rc", lambda m, r, c: load_immediate(r, c)),
    Row(LOADS | STORES, "rc", by_way_of_at, writes_at=True),
    Row(BRANCHES, "ra", by_way_of_at, writes_at=True),
    Row(LONG_SHIFTS, "rs", long_shift, apart=True),
)
MNEMONICS = set().union(*(row.mnemonics for row in ROWS))
KINDS = {"register": "rstz", "number": "nc", "name": "ca"}


def words_in(row, mnemonic):
    """A row has as many words whatever its operands are."""
    return len(row.spell(mnemonic, *(0 for _ in row.letters)))


# Reading


def lines_of(text):
    """The bytes of each line and where it begins; behind a last LF there is no further line."""
    lines = text.split(b"\n")
    if lines[-1] == b"":
        lines.pop()
    place = 0
    for line in lines:
        yield place, line
        place += len(line) + 1


def is_name(word):
    return NAME.fullmatch(word) is not None and word not in REGISTERS


def number_of(word):
    """The integer that a number writes, however long it is, or None where it is no number."""
    return int(word, 0) if NUMBER.fullmatch(word) else None


def halves(line):
    """All before the first space or tab, and what is behind it, or None where there is neither."""
    first, *rest = SEPARATOR.split(line, maxsplit=1)
    return first, rest[0] if rest else None


def operand_of(word):
    """A pair of kind and value, or None where it is no operand."""
    if word in REGISTERS:
        return "register", REGISTERS[word]
    if is_name(word):
        return "name", word
    number = number_of(word)
    return None if number is None else ("number", number)


def row_of(mnemonic, operands):
    """The row that takes operands of these kinds, or None."""
    for row in ROWS:
        if mnemonic in row.mnemonics and len(row.letters) == len(operands):
            if all(letter in KINDS[kind] for letter, (kind, _) in zip(row.letters, operands)):
                return row
    return None


def range_of(mnemonic, letter):
    if letter == "c":
        return C_RANGE
    return range(0, 256) if mnemonic in ZERO_EXTENDED else range(-128, 128)


def in_range(mnemonic, row, operands):
    """A name is in range whatever its address."""
    return all(
        value in range_of(mnemonic, letter)
        for letter, (kind, value) in zip(row.letters, operands)
        if kind == "number"
    )


def well_named(row, operands):
    """Whether the registers are such as the row can take."""
    registers = [value for kind, value in operands if kind == "register"]
    if any(letter == "z" and value != 0 for letter, (_, value) in zip(row.letters, operands)):
        return False
    if row.writes_at and AT in registers:
        return False
    return not row.apart or len(set(registers)) == len(registers)


def words_of_bytes(data):
    return [data[i] << 8 | data[i + 1] for i in range(0, len(data), 2)]


def string_words(data):
    """The words of a string with its quotes, or None where it is none."""
    if len(data) < 2 or data[-1:] != b'"' or b'"' in data[1:-1]:
        return None
    ended = data[1:-1] + b"\0"
    return words_of_bytes(ended + b"\0" * (len(ended) % 2))


def data_words(data):
    """The words of a label line's data, or None where it is not well formed."""
    if data[:1] == b'"':
        return string_words(data)
    numbers = [number_of(word) for word in data.split(b" ")]
    if any(n is None or n not in C_RANGE for n in numbers):
        return None
    return [n % 0x10000 for n in numbers]


class Instruction:
    """An instruction line that has passed its own questions."""

    def __init__(self, number, mnemonic, row, operands):
        self.number, self.mnemonic, self.row, self.operands = number, mnemonic, row, operands

    def used(self):
        return [value for kind, value in self.operands if kind == "name"]

    def words(self, addresses):
        values = [addresses[value] if kind == "name" else value for kind, value in self.operands]
        return self.row.spell(self.mnemonic, *values)


class Data:
    """The data of a label line."""

    def __init__(self, number, words):
        self.number, self.its_words = number, words

    def used(self):
        return []

    def words(self, _):
        return self.its_words


def read_instruction(number, line):
    first, rest = halves(line[1:])
    mnemonic = first.decode("ascii")
    if mnemonic not in MNEMONICS:
        raise No(9, number)
    operands = [] if rest is None else [operand_of(word) for word in rest.split(b",")]
    row = None if None in operands else row_of(mnemonic, operands)
    if row is None:
        raise No(10, number)
    if not in_range(mnemonic, row, operands):
        raise No(11, number)
    if not well_named(row, operands):
        raise No(12, number)
    return Instruction(number, mnemonic, row, operands)


# Assembling


class Assembly:
    """The tables as far as lines have passed, and what the image is made of."""

    def __init__(self, label_records, line_records):
        self.most_labels = min(label_records, MOST_LABELS)
        self.most_lines = line_records
        self.labels, self.lines = [], []
        self.addresses = {}
        self.address = 0
        # What the lines spell, which has to wait for the labels behind them.
        self.parts = []

    def read(self, text):
        if len(text) > MOST_BYTES:
            raise No(1, 0)
        lines = list(lines_of(text))
        if len(lines) > MOST_LINES:
            raise No(2, MOST_LINES + 1)
        for number, (place, line) in enumerate(lines, 1):
            self.read_line(number, place, line)

    def read_line(self, number, place, line):
        if len(line) > MOST_IN_LINE or any(b != 9 and not 0x20 <= b <= 0x7E for b in line):
            raise No(3, number)
        first = line[:1]
        if first in (b"", b";"):
            return
        if first == b" ":
            raise No(4, number)
        if first == b"\t":
            self.read_instruction_line(number, line)
        else:
            self.read_label_line(number, place, line)

    def read_instruction_line(self, number, line):
        instruction = read_instruction(number, line)
        self.add_line(words_in(instruction.row, instruction.mnemonic), "instruction", instruction)

    def read_label_line(self, number, place, line):
        """The label's record is written last: a line that is refused has written nothing."""
        name, data = halves(line)
        if not is_name(name):
            raise No(5, number)
        if name in self.addresses:
            raise No(6, number)
        if len(self.labels) == self.most_labels:
            raise No(7, number)
        label = Label(place, len(name), self.address)
        if data is not None:
            words = data_words(data)
            if words is None:
                raise No(8, number)
            self.add_line(len(words), "data", Data(number, words))
        self.labels.append(label)
        self.addresses[name] = label.address

    def add_line(self, words, kind, part):
        if len(self.lines) == self.most_lines:
            raise No(13, part.number)
        self.lines.append(Line(part.number, self.address, words, kind))
        self.parts.append(part)
        self.address += 2 * words

    def image(self, size):
        for part in self.parts:
            if any(name not in self.addresses for name in part.used()):
                raise No(14, part.number)
        if self.address > size:
            raise No(15, 0)
        words = (word for part in self.parts for word in part.words(self.addresses))
        return b"".join(word.to_bytes(2, "big") for word in words)


def assemble(text, image_size, label_records, line_records):
    """What a text comes to with an image buffer of so many bytes and tables of so many records."""
    assembly = Assembly(label_records, line_records)
    refused, image = None, b""
    try:
        assembly.read(text)
        image = assembly.image(image_size)
    except No as no:
        refused = no.number, no.line
    return Answer(refused, image, assembly.labels, assembly.lines)
