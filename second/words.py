"""The word rules, written a second time: which words are valid, their lines, and what they do.

It follows docs/WORDS.md and shares nothing with the crates.
"""

MODULUS = 0x10000

# Words with Imm 0: op2, then opcode, to mnemonic; and the fields that must be 0.
REGISTER_FORMS = {
    0: ({0: "and", 1: "or", 2: "xor", 3: "slt", 4: "sltu", 5: "add", 6: "sub"}, {}),
    1: ({0: "lsr", 1: "asr"}, {0: ("rsb",), 1: ("rsb",)}),
    2: ({0: "ldb", 4: "ldw", 1: "stb", 5: "stw"}, {0: ("rsa",), 4: ("rsa",), 1: ("rst",), 5: ("rst",)}),
    3: ({10: "bez", 11: "bnz"}, {10: ("rst",), 11: ("rst",)}),
}
# Words with Imm 1: opcode to mnemonic.
IMMEDIATE_FORMS = {
    0: "and", 1: "or", 2: "xor", 3: "slt", 4: "sltu", 5: "add", 6: "sub",
    8: "ldr", 9: "ldc", 10: "bez", 11: "bnz",
}
ZERO_EXTENDED = {"and", "or", "ldc"}
HCF = 0x0003


def signed(value, bits):
    """The number that these bits stand for in two's complement."""
    return value - (1 << bits) if value >> (bits - 1) else value


class Word:
    """A valid word taken apart."""

    def __init__(self, name, rst, rsa=None, rsb=None, immediate=None):
        self.name, self.rst, self.rsa, self.rsb, self.immediate = name, rst, rsa, rsb, immediate

    def number(self):
        """The immediate as the word means it."""
        return self.immediate if self.name in ZERO_EXTENDED else signed(self.immediate, 8)


def decode(word):
    """The word taken apart, or None where it is not valid."""
    opcode, rst = word >> 12, word >> 8 & 7
    if word >> 11 & 1:
        name = IMMEDIATE_FORMS.get(opcode)
        return Word(name, rst, immediate=word & 0xFF) if name else None
    if word == HCF:
        return Word("hcf", 0)
    fields = {"rst": rst, "rsa": word >> 5 & 7, "rsb": word >> 2 & 7}
    names, zeros = REGISTER_FORMS[word & 3]
    if opcode not in names or any(fields[z] for z in zeros.get(opcode, ())):
        return None
    return Word(names[opcode], **fields)


def line(word):
    """The line that assembles to a valid word, with its LF."""
    w = decode(word)
    if w.name == "hcf":
        return "\thcf\n"
    if w.immediate is not None:
        return f"\t{w.name} r{w.rst},{w.number()}\n"
    return f"\t{w.name} r{w.rst},r{w.rsa},r{w.rsb}\n"


COMPUTE = {
    "and": lambda a, b: a & b,
    "or": lambda a, b: a | b,
    "xor": lambda a, b: a ^ b,
    "slt": lambda a, b: int(signed(a, 16) < signed(b, 16)),
    "sltu": lambda a, b: int(a < b),
    "add": lambda a, b: (a + b) % MODULUS,
    "sub": lambda a, b: (a - b) % MODULUS,
}


def effect(word, registers, address):
    """What a valid word at this address does: a register's new value, a load, a store, the next address, or a halt."""
    w = decode(word)
    if w.name == "hcf":
        return ("halt",)
    if w.immediate is not None:
        a, b = registers[w.rst], w.number() % MODULUS
    else:
        a, b = registers[w.rsa], registers[w.rsb]
    if w.name in COMPUTE:
        return ("register", w.rst, COMPUTE[w.name](a, b))
    if w.name == "ldr":
        return ("register", w.rst, b)
    if w.name == "ldc":
        return ("register", w.rst, (256 * a + b) % MODULUS)
    if w.name == "lsr":
        return ("register", w.rst, a // 2)
    if w.name == "asr":
        return ("register", w.rst, signed(a, 16) // 2 % MODULUS)
    if w.name in ("ldb", "ldw"):
        return ("load", w.rst, "byte" if w.name == "ldb" else "word", b)
    if w.name == "stb":
        return ("store", "byte", b, a % 256)
    if w.name == "stw":
        return ("store", "word", b, a)
    after = (address + 2) % MODULUS
    if (a == 0) != (w.name == "bez"):
        return ("next", after)
    return ("next", (after + b) % MODULUS if w.immediate is not None else b)
