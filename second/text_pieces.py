"""What the texts that are given to both assemblers are made of."""
from collections import namedtuple

# A text, the lengths of what is lent for it, and what it is sure to be answered: a refusal's number and line,
# `ACCEPTED`, or `UNSTATED`.
ACCEPTED, UNSTATED = "accepted", "unstated"
Case = namedtuple("Case", "text image labels lines stated")

REGISTERS = [["r0", "at"], ["r1"], ["r2"], ["r3"], ["r4"], ["r5", "sr"], ["r6", "lr"], ["r7", "sp"]]
SPELLINGS = [name for names in REGISTERS for name in names]
NAMES = "a _ k loop Loop R0 r8 r00 add nop hcf AT at_ sp1 x9 __ A_b_9".split() + ["z" * 32]

# The rows by their operands: r a register, 0 register 0, b a byte, s a byte with its sign, c a number of a word's size
# or a name, l a name. R is a register other than register 0, and p and q are two registers that differ.
FORMS = {
    "rrr": "and or xor slt sltu add sub",
    "rr0": "lsr asr",
    "r0r": "ldb ldw",
    "0rr": "stb stw bez bnz",
    "rb": "and or ldc",
    "rs": "xor slt sltu add sub ldr bez bnz",
    "": "nop hcf",
    "rr": "lsr asr ldb ldw stb stw bez bnz lsl",
    "r": "not",
    "R": "neg",
    "rc": "ldi",
    "Rc": "ldb ldw stb stw",
    "Rl": "bez bnz",
    "pq": "lsrm asrm lslm",
}
LINES = [(mnemonic, letters) for letters, mnemonics in FORMS.items() for mnemonic in mnemonics.split()]
MNEMONICS = sorted({mnemonic for mnemonic, _ in LINES})
RANGES = {"b": (0, 255), "s": (-128, 127), "c": (-32768, 65535)}
# The mnemonics with a number, and the letter of its range.
NUMBERED = [(mnemonic, letters[1]) for mnemonic, letters in LINES if letters[1:] in ("b", "s", "c")]


def spelled(n):
    """A number in each base, with letters of both cases and zeros in front."""
    sign, n = ("-", -n) if n < 0 else ("", n)
    digits = (f"{n}", f"0x{n:x}", f"0X{n:X}", f"0o{n:o}", f"0O0{n:o}", f"0b{n:b}", f"0B000{n:b}")
    return [sign + s for s in digits]
