"""The expected output of the program that prints every word."""
from words import decode, effect, line

ADDRESS = 0xFFF0
REGISTERS = (
    (0x0000, 0x0001, 0x7FFF, 0x8000, 0xFFFF, 0x1234, 0x00FF, 0xABCD),
    (0xFF80, 0x8001, 0x0002, 0x7FFE, 0x0000, 0xC0DE, 0x5555, 0xAAAA),
)


def told(e):
    """An effect as it is printed."""
    if e[0] == "register":
        return f"r{e[1]}={e[2]:04x}"
    if e[0] == "load":
        return f"r{e[1]}<-{e[2]} {e[3]:04x}"
    if e[0] == "store":
        return f"{e[3]:04x}->{e[1]} {e[2]:04x}"
    if e[0] == "next":
        return f"next={e[1]:04x}"
    return "halt"


def all_words():
    out, run = [], None
    for word in range(0x10000):
        if decode(word) is None:
            run = word if run is None else run
            continue
        if run is not None:
            out.append(f"{run:04x}-{word - 1:04x} refused 16\n")
            run = None
        effects = " ".join(told(effect(word, r, ADDRESS)) for r in REGISTERS)
        out.append(f"{word:04x}{line(word)[:-1]} ; {effects}\n")
    if run is not None:
        out.append(f"{run:04x}-ffff refused 16\n")
    return "".join(out)


def outputs():
    return {"crates/all_words/stdout": all_words().encode()}
