"""Texts on both sides of each question that the assembler asks, and of neighbouring ones."""
import itertools

from text_pieces import ACCEPTED, FORMS, MNEMONICS, NAMES, NUMBERED, RANGES, REGISTERS, SPELLINGS, UNSTATED
from text_pieces import Case, spelled


def case(text, stated, image=64, labels=4, lines=8):
    """A case with room for a few lines, if it says nothing else."""
    return Case(text.encode() if isinstance(text, str) else text, image, labels, lines, stated)


def big_texts():
    """Bytes and lines at their most, and one more."""
    comment = ";" + "." * 30 + "\n"
    full = comment * 1024
    yield case(full, ACCEPTED)
    yield case(full[:-1], ACCEPTED)
    yield case(full + "\n", (1, 0))
    yield case(full[:-32] + "\t" + "\n" * 31, (9, 1024))
    yield case("\n" * 2048, ACCEPTED)
    yield case("\n" * 2047 + ";", ACCEPTED)
    yield case("\n" * 2047 + " ", (4, 2048))
    yield case("\n" * 2048 + ";", (2, 2049))
    yield case("\n" * 2049, (2, 2049))
    yield case(" \n" * 3000, (2, 2049))
    yield case("k\nk\n" + "\n" * 2046, (6, 2))
    yield case("k\nk\n" + "\n" * 2047, (2, 2049))
    yield case("\n" * 32768, (2, 2049))
    yield case("\n" * 32769, (1, 0))
    yield case("\n" * 33000, (1, 0))
    yield case(b"\xff" * 32768, (3, 1))
    yield case("\t", (9, 1))
    yield case("", ACCEPTED)
    yield case("", ACCEPTED, 0, 0, 0)
    yield case("\n", ACCEPTED, 0, 0, 0)
    yield case("\n;\n;", ACCEPTED, 0, 0, 0)


def big_tables():
    """Each table at its most, and one more; an image of the longest kind."""
    nops = "\tnop\n" * 2048
    yield case(nops, ACCEPTED, 4096, 0, 2048)
    yield case(nops, ACCEPTED, 4099, 3, 2050)
    yield case(nops, (13, 2048), 4096, 0, 2047)
    yield case(nops, (15, 0), 4095, 0, 2048)
    labels = [f"l{i}\n" for i in range(1, 259)]
    yield case("".join(labels[:255]), ACCEPTED, 0, 255, 0)
    yield case("".join(labels[:256]), ACCEPTED, 0, 256, 0)
    yield case("".join(labels[:256]), ACCEPTED, 0, 300, 0)
    yield case("".join(labels[:256]), (7, 256), 0, 255, 0)
    yield case("".join(labels[:257]), (7, 257), 0, 256, 0)
    yield case("".join(labels[:257]), (7, 257), 0, 257, 0)
    yield case("".join(labels[:258]), (7, 257), 0, 1000, 0)
    yield case("".join(labels[:256]) + "l1 x\n", (6, 257), 0, 300, 0)
    yield case("".join(labels[:256]) + "\tldi r1,l256\n", ACCEPTED, 4, 256, 1)
    data = "".join(f"d{i:03} {'1 ' * 57}1\n" for i in range(256))
    yield case(data, ACCEPTED, 29696, 256, 256)
    yield case(data, (15, 0), 29695, 256, 256)
    yield case(data, (13, 256), 29696, 256, 255)
    yield case(data + "\tldw r1,d255\n\tbez r2,end\nend\n", (7, 259), 29708, 257, 258)
    far = data[: 121 * 250] + "\tldw r1,d249\n\tbez r2,end\nend\n"
    yield case(far, ACCEPTED, 29012, 251, 252)


def small_tables():
    text = "a\n\tnop\nb 1\n;\n\tneg r1\nc\n"
    for labels, lines in itertools.product(range(4), range(4)):
        yield case(text, UNSTATED, 8, labels, lines)
    for image in range(9):
        yield case(text, ACCEPTED if image == 8 else (15, 0), image)
    yield case(text, (7, 1), 0, 0, 0)
    yield case("\tnop\n", (13, 1), 0, 0, 0)
    yield case("a", (7, 1), 64, 0, 8)
    yield case("a", ACCEPTED, 0, 1, 0)


def long_lines():
    """A line of 120 bytes and one of 121, of each kind."""
    for ends, whole in ((120, True), (121, False)):
        for end in ("", "\n", "\n\n", "\n;"):
            yield case(";" + "x" * (ends - 1) + end, ACCEPTED if whole else (3, 1))
        number = "\tldi r1,"
        yield case(number + "0x" + "1".rjust(ends - len(number) - 2, "0"), ACCEPTED if whole else (3, 1))
        yield case(number + "1" * (ends - len(number)), (11, 1) if whole else (3, 1))
        yield case(number + "1" * (ends - len(number) - 1) + "x", (10, 1) if whole else (3, 1))
        yield case('s "' + "q" * (ends - 4) + '"', ACCEPTED if whole else (3, 1), 120)
        yield case("s " + "9" * (ends - 2), (8, 1) if whole else (3, 1))
        yield case("s -0b" + "1".rjust(ends - 5, "0"), ACCEPTED if whole else (3, 1))
        yield case("s" * ends, (5, 1) if whole else (3, 1))
        yield case(" " * ends, (4, 1) if whole else (3, 1))
        yield case("\t" * ends, (9, 1) if whole else (3, 1))
        yield case(";\n" + "\tnop " + "x" * (ends - 5), (10, 2) if whole else (3, 2))
        yield case("\tldi r1,q\n" + "7" * ends, (5, 2) if whole else (3, 2))


# In a comment, in a string, first, in a name, in a mnemonic and behind operands.
AROUND = [(b";", b"c"), (b's "', b'c"'), (b"", b"c"), (b"c", b"c"), (b"\tn", b"p"), (b"\tnot r1", b"")]


def each_byte():
    for byte, (front, back) in itertools.product(range(256), AROUND):
        text = b"\n%s%c%s\n" % (front, byte, back)
        yield case(text, UNSTATED if byte in (9, 10) or 0x20 <= byte <= 0x7E else (3, 2))


GOOD_NAMES = NAMES + ["n" * 32, "_" * 32, "Z9" * 16] + "r r10 R7 Sp rr0 r0_ _r0".split()
BAD_NAMES = SPELLINGS + ["n" * 33, "_" * 33, "n" * 100] + """1 9a -a a-b a.b a: a,b " "a" a; 0x1 , $ ' ~""".split()


def names():
    for name in GOOD_NAMES:
        yield case(f"{name}\n\tldi r1,{name}\n", ACCEPTED)
        yield case(f"\tbez r1,{name}\n{name}", ACCEPTED)
        yield case(f"{name} 5\n\tldw r2,{name}\n", ACCEPTED)
    for name in BAD_NAMES:
        yield case(f";\n{name}\n", (5, 2))
        yield case(f"{name} 5\n", (5, 1))
        yield case(f"{name}\t5", (5, 1))
        yield case(f"q\n\tldi r1,{name}\n", UNSTATED)
        yield case(f"q\n\tbnz r1,{name}\n", UNSTATED)


def labels():
    yield case("a\na\n", (6, 2))
    yield case("a\nA\na_\n", ACCEPTED)
    yield case("a 1\nb\na 2\n", (6, 3))
    yield case("a 1\nb\na x\n", (6, 3))
    yield case("a\nb\na", (6, 3), labels=2)
    yield case("a\nb\nc", (7, 3), labels=2)
    yield case("a\nb\nc x", (7, 3), labels=2)
    yield case("a\nb\na x", (6, 3), labels=2)
    yield case("a 1\nb x", (8, 2), lines=1)
    yield case("a 1\nb 2", (13, 2), lines=1)
    yield case("a 1\nb", ACCEPTED, lines=1)
    yield case("a 1\nb 2", (7, 2), labels=1, lines=1)
    yield case("a" * 32 + "\n" + "a" * 31 + "\n" + "a" * 31 + "b\n", ACCEPTED)
    yield case("a" * 32 + "\n" + "a" * 32 + "\n", (6, 2))


GOOD_DATA = [
    *"0 -0 -0x10 65535 -32768 0x0000000000000001 0X1f 0B1 0O17 0xaBcD".split(),
    *["1 2", "1 -1 0xF 0o7 0b1", "0 0 0 0 0 0 0 0"],
    *['""', '"a"', '"ab"', '"abc"', '"\t;\\\'"', '" "', '"0"', '"a b"'],
]
BAD_DATA = [
    *["", " ", "\t", " 1", "1 ", "1  2", "1\t2", "\t1", "- 1", "1 x", "1 65536"],
    *"+1 00 01 007 - --1 -01 0x 0X 0o 0b 0b2 0o8 0xg 0x-1 1_0 1.0 1e3 1,2 1; x k r1 'a'".split(),
    *"65536 -32769 70000 -65535 0x10000 4294967296 18446744073709551616 -18446744073709551616".split(),
    *['"', '"a', 'a"', '"""', '"a"b', '"a" ', '"a"b"', '"a" "b"', '"a" 1', '1 "a"', "9" * 100],
]


def data():
    for separator in " \t":
        for text in GOOD_DATA:
            yield case(f"k{separator}{text}\n", ACCEPTED)
        for text in BAD_DATA:
            yield case(f"k{separator}{text}\n", (8, 1))
    for value in (-32769, -32768, 65535, 65536):
        for text in spelled(value):
            for line in (f"k {text}", f"k 1 {text} 2"):
                yield case(line, ACCEPTED if -32768 <= value <= 65535 else (8, 1))
    yield case('a "abc"\nb\nc ""\nd\n\tldi r1,b\n\tldi r2,d\n', ACCEPTED)


def mnemonics():
    for mnemonic in MNEMONICS:
        yield case(f"\t{mnemonic}", UNSTATED)
        yield case(f"\t{mnemonic} ", (10, 1))
        yield case(f"\t{mnemonic}\t", (10, 1))
        for wrong in ("%sx", "%s,", "z%s", "%s~", "%s\\"):
            yield case(f"\t{wrong % mnemonic}", (9, 1))
        for wrong in (mnemonic.upper(), mnemonic.title()):
            yield case(f"\t{wrong}", (9, 1))
            yield case(f"\t{wrong} r1,r2", (9, 1))
    for wrong in ("", "\t", " ", "\tnop", " nop", ";", "1", "r1", '"nop"', "ld", "ldq r1,1", "b", "adds", "mov r1,r2"):
        yield case(f";\n\t{wrong}", (9, 2))


def kinds_of_operands():
    """Each mnemonic with none to three operands of each kind, and some with more."""
    choices = {"r": ["r1", "r2", "r3"], "0": ["r0", "at", "r0"], "n": ["1", "-2", "0x3"], "a": ["k", "kk", "q"]}
    for mnemonic in MNEMONICS:
        for count in range(1, 4):
            for kinds in itertools.product(choices, repeat=count):
                operands = ",".join(choices[kind][i] for i, kind in enumerate(kinds))
                yield case(f"\t{mnemonic} {operands}\nk\nkk\n", UNSTATED)
        yield case(f"\t{mnemonic} r1,r2,r3,r4\n", (10, 1))
        yield case(f"\t{mnemonic} r1,r2,r0,1\n", (10, 1))


# Commas, spaces and spellings that no operands have.
ODD_OPERANDS = [
    *["r1,", ",r1", "r1,,r2", ",", "r1,r2,", "r1,r2;", "r1;r2"],
    *["r1, r2", "r1 ,r2", "r1\t,r2", " r1,r2", "\tr1,r2", "r1,r2 ", "r1 r2", "r1,R 1", "r1,1 "],
    *"r1,+1 r1,00 r1,01 r1,- r1,--1 r1,0x r1,0b2 r1,0o8".split(),
    *["r1,(r2)", "r1,#1", "r1,1k", "r1,-k", "r1,'a'", 'r1,"a"', "r1,k-1", "r1,r2."],
    "r1," + "n" * 33,
]
# Names where only a register will do.
NO_REGISTERS = ["R1,r2", "r8,r2", "k,r2", "1,r2", "R1", "AT,1"]


def odd_operands():
    for operands, mnemonic in itertools.product(ODD_OPERANDS, "lsr add ldi ldb bez lsrm nop".split()):
        yield case(f"\t{mnemonic} {operands}\n", (10, 1))
    for operands, mnemonic in itertools.product(NO_REGISTERS, "lsr ldi stw bnz asrm neg".split()):
        yield case(f"\t{mnemonic} {operands}\nR1\n", (10, 1))


# Where an answer counted too narrow would come back into range.
FAR = [
    *"4294967296 4294967297 18446744073709551617 -18446744073709551615 0x100000000".split(),
    *["99999999999", "100000000000", "100000000001", "9" * 100, "-0x" + "f" * 100, "0b" + "1" * 100],
]


def ranges():
    """Each number's lowest and highest, and one past them, in all bases."""
    for mnemonic, letter in NUMBERED:
        low, high = RANGES[letter]
        for value in (low - 1, low, -1, 0, high, high + 1):
            for text in spelled(value):
                yield case(f"\t{mnemonic} r1,{text}\n", ACCEPTED if low <= value <= high else (11, 1))
        for text in FAR:
            yield case(f"\t{mnemonic} r1,{text}\n", (11, 1))
        for text in ("256", "-129", "65536", "-32769"):
            yield case(f"\t{mnemonic} r1,{text}\n", UNSTATED)
        yield case(f"\t{mnemonic} r1,0x{'1'.rjust(91, '0')}\n", ACCEPTED)
        yield case(f"\t{mnemonic} r1,-0x{'0' * 90}\n", ACCEPTED)


def registers():
    """Which lines care for register 0, and by which names."""
    for z in SPELLINGS:
        stated = ACCEPTED if z in ("r0", "at") else (12, 1)
        other = (12, 1) if z in ("r0", "at") else ACCEPTED
        for mnemonic in ("lsr", "asr"):
            yield case(f"\t{mnemonic} r1,r2,{z}\n", stated)
        for mnemonic in ("ldb", "ldw"):
            yield case(f"\t{mnemonic} r1,{z},r2\n", stated)
        for mnemonic in ("stb", "stw", "bez", "bnz"):
            yield case(f"\t{mnemonic} {z},r1,r2\n", stated)
        yield case(f"\tneg {z}\n", other)
        for mnemonic in ("ldb", "ldw", "stb", "stw"):
            yield case(f"\t{mnemonic} {z},5\n", other)
            yield case(f"\t{mnemonic} {z},k\nk\n", other)
            yield case(f"\t{mnemonic} {z},k\n", (12, 1) if other != ACCEPTED else (14, 1))
            yield case(f"\t{mnemonic} {z},r2\n", ACCEPTED)
            yield case(f"\t{mnemonic} {z},{z}\n", ACCEPTED)
        for mnemonic in ("bez", "bnz"):
            yield case(f"\t{mnemonic} {z},k\nk\n", other)
            yield case(f"\t{mnemonic} {z},5\n", ACCEPTED)
        yield case(f"\tldi {z},5\n", ACCEPTED)
        yield case(f"\tnot {z}\n", ACCEPTED)
        yield case(f"\tlsl {z},{z}\n", ACCEPTED)
    numbers = {name: i for i, names in enumerate(REGISTERS) for name in names}
    for r, s in itertools.product(SPELLINGS, repeat=2):
        for mnemonic in ("lsrm", "asrm", "lslm"):
            yield case(f"\t{mnemonic} {r},{s}\n", (12, 1) if numbers[r] == numbers[s] else ACCEPTED)


def all_registers():
    """Every three registers of the lines with three, and every two of those with two."""
    pairs, triples = (list(itertools.product(range(8), repeat=n)) for n in (2, 3))
    for mnemonic in FORMS["rrr"].split():
        text = "".join(f"\t{mnemonic} r%d,r%d,r%d\n" % triple for triple in triples)
        yield case(text, ACCEPTED, 1024, 0, 512)
    for letters in ("rr0", "r0r", "0rr"):
        for mnemonic in FORMS[letters].split():
            operands = ",".join(letters).replace("r", "r%d").replace("0", "at")
            text = "".join(f"\t{mnemonic} {operands % pair}\n" for pair in pairs)
            yield case(text, ACCEPTED, 128, 0, 64)
    for mnemonic in FORMS["rr"].split():
        text = "".join(f"\t{mnemonic} r%d,r%d\n" % pair for pair in pairs)
        yield case(text, ACCEPTED, 128, 0, 64)
    for mnemonic, letter in NUMBERED:
        low, high = RANGES[letter]
        if letter == "c":
            continue
        text = "".join(f"\t{mnemonic} r{n % 8},{n}\n" for n in range(low, high + 1))
        yield case(text, ACCEPTED, 512, 0, 256)


# Lines that fail two questions, or one of the last.
FAILING = [
    *[((3, 1), " \x01"), ((3, 1), "\x7fk"), ((4, 1), " 1x"), ((5, 1), "1x y"), ((9, 1), "\tfoo r1,,")],
    *[((10, 1), "\tadd r1,300,r2"), ((10, 1), "\tldb at,1,2"), ((10, 1), "\tlsr r1,r2,5")],
    *[((11, 1), "\tldb at,65536"), ((11, 1), "\tstw r0,-32769"), ((11, 1), "\tand r1,-1"), ((11, 1), "\tldc r1,256")],
    *[((12, 1), "\tldb at,65535"), ((12, 1), "\tlsr r1,r2,r3"), ((12, 1), "\tneg at"), ((12, 1), "\tlsrm r5,sr")],
    *[((11, 1), "\tbez at,128"), ((12, 1), "\tbez at,q"), ((14, 1), "\tldi r1,q"), ((14, 1), "\tldi at,q")],
]


def neighbours():
    """Lines that fail two questions, and texts that fail a line's and one asked of all lines."""
    for stated, line in FAILING:
        yield case(line, stated)
        yield case(line, (13, 1) if stated[0] == 14 else stated, 0, 0, 0)
        yield case(f"\tldi r3,none\n{line}", (14, 1) if stated[0] == 14 else (stated[0], 2))
        yield case(f"\tnop\n{line}", (13, 2) if stated[0] == 14 else (stated[0], 2), lines=1)
        yield case(f"{line}\n\n1", (5, 3) if stated[0] == 14 else stated)
    yield case("\tldi r1,q\n\tldi r2,p\nq\n", (14, 2))
    yield case("\tldi r1,q\n\tldi r2,p\n", (14, 1))
    yield case("\tldi r1,q\n\tldi r2,p\n", (14, 1), image=0)
    yield case("\tldi r1,q\n\tldi r2,q\nq\n", (15, 0), image=7)
    yield case("\tldi r1,q\n\tldi r2,q\nq\n", ACCEPTED, image=8)
    yield case("\tldi r1,q\n\tnop\n\tnop\n", (13, 3), lines=2)
    yield case("\tldi r1,q\nq\nq\n", (6, 3), image=0)
    yield case("qq\n\tldi r1,q\n", (14, 2))
    yield case("q\n\tldi r1,qq\n", (14, 2))
    yield case("Q\n\tldi r1,q\n", (14, 2))
    yield case("q" * 32 + "\n\tldi r1," + "q" * 31 + "\n", (14, 2))
    yield case("\tstw r1,q\n;q\n\tnop\n", (14, 1))
    yield case("q x\n\tldi r1,q\n", (8, 1))


def ends_of_lines():
    for text in ("\r\n", "\tnop\r\n", "k\r\n", ";\r\n", "k 1\r"):
        yield case(text, (3, 1))
    yield case('k "\n"', (8, 1))
    for text in ("k", "k\n", "k\n\n", "\n\nk", "\tnop", "\tnop\n", ";", "k 1", 'k "x"'):
        yield case(text, ACCEPTED)
    yield case("\n\n\tldi r1,k\n\n\nk 1 2 3\n\n\tldi r2,k", ACCEPTED)
    yield case("start\n\tldi r1,k\n\tneg r1\n\thcf\nk 5\n", ACCEPTED)
    yield case("\tadd r3,r1,r2\n\txor r5,-1\n\tbez r4,28\n\tldi r1,-31073\n\tbnz r0,r1,at\n", ACCEPTED)


CHOSEN = [
    *[big_texts, big_tables, small_tables, long_lines, each_byte, names, labels, data, mnemonics],
    *[kinds_of_operands, odd_operands, ranges, registers, all_registers, neighbours, ends_of_lines],
]
