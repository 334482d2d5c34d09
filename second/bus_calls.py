"""The seeded calls to stacks of buses, and what is written of their answers.

`outputs()` gives what the program crate `bus_calls` must write. Run as a script, it prints that.
"""

import sys
from pathlib import Path

sys.path.insert(0, str(Path(__file__).resolve().parent))

from buses import Card, Console, Flat, No, ProgramCard  # noqa: E402

PER_LINE = 20
PHASES = (("mixed", 60), ("flood", 80), ("drain", 60), ("mixed", 20))


def numbers(seed):
    """The numbers of a seed: the high halves of a linear congruential generator."""
    state = seed
    while True:
        state = (state * 1664525 + 1013904223) % 2**32
        yield state >> 16


def address(kind, n):
    """Addresses at and around the edges of memory, cards and ports."""
    kind %= 8
    if kind == 0:
        return n % 16
    if kind == 1:
        return n % 128
    if kind == 2:
        return 4088 + n % 16
    if kind == 3:
        return n
    if kind == 7:
        return 0xFFF0 + n % 16
    return 0xEFFE + n % 12


def value(n):
    """Mostly any word, at times one with an extreme text."""
    return {0: 0, 1: 9, 2: 10, 3: 0x7FFF, 4: 0x8000, 5: 0xFFFF}.get(n % 32, n)


def calls(seed):
    """The calls of a seed, as pairs of a method's name and its arguments."""
    source = numbers(seed)
    for phase, lines in PHASES:
        for _ in range(lines * PER_LINE):
            choice = next(source) % 8
            place = next(source)
            a = address(place, next(source))
            v = value(next(source))
            yield CHOICES[phase](choice, a, v)


def mixed(choice, a, v):
    return (
        ("peek", (a,)),
        ("load_byte", (a,)),
        ("load_word", (a,)),
        ("store_byte", (a, v % 256)),
        ("store_word", (a, v)),
        ("store_word", (a, v)),
        ("give", (v % 256,)),
        ("take", ()),
    )[choice]


def flood(choice, a, v):
    if choice <= 2:
        return "store_word", (0xF002, v)
    if choice == 3:
        return "store_word", (0xF000, v)
    if choice <= 5:
        return "give", (v % 256,)
    return ("store_word", (a, v)) if choice == 6 else ("peek", (a,))


def drain(choice, a, v):
    if choice <= 3:
        return "take", ()
    if choice <= 5:
        return "load_word", (0xF004,)
    return ("load_word", (a,)) if choice == 6 else ("store_byte", (a, v % 256))


CHOICES = {"mixed": mixed, "flood": flood, "drain": drain}


def answer(bus, call):
    """What a call answers: a number, None, "done", or the `No` that refused it."""
    name, arguments = call
    try:
        result = getattr(bus, name)(*arguments)
    except No as no:
        return no
    return "done" if name in ("store_byte", "store_word", "give") else result


def shown(said):
    if isinstance(said, No):
        return f"!{said.number}"
    if said is None:
        return "-"
    return "." if said == "done" else str(said)


class Digest:
    """A running digest of answers."""

    def __init__(self):
        self.state = 2166136261

    def mix(self, n):
        self.state = ((self.state ^ n) * 16777619) % 2**32

    def add(self, said):
        if isinstance(said, No):
            self.mix(80000 + said.number)
        elif said is None:
            self.mix(70000)
        else:
            self.mix(70001 if said == "done" else said)

    def add_until_refused(self, bus, call):
        for _ in range(2000):
            said = answer(bus, call)
            self.add(said)
            if isinstance(said, No):
                return

    def __str__(self):
        return f"{self.state:08x}"


def digest_of(bus):
    """The kind and the byte of each address, and what waits and was sent."""
    digest = Digest()
    digest.add_until_refused(bus, ("take", ()))
    digest.add_until_refused(bus, ("load_word", (0xF004,)))
    for a in range(65536):
        seen = answer(bus, ("peek", (a,)))
        digest.add(seen)
        digest.add(answer(bus, ("load_byte", (a,))))
        digest.add(answer(bus, ("store_byte", (a, 0 if seen is None else seen))))
        if seen is None:
            digest.add(answer(bus, ("load_word", (a,))))
            digest.add(answer(bus, ("store_word", (a, 7))))
    digest.add_until_refused(bus, ("give", (1,)))
    digest.add_until_refused(bus, ("store_word", (0xF000, 1)))
    return digest


def pattern(n):
    return bytearray((3 + 7 * i) % 256 for i in range(n))


class Report:
    def __init__(self):
        self.lines = []

    def script(self, name, bus, seed):
        self.lines.append(f"stack {name}")
        said = [shown(answer(bus, call)) for call in calls(seed)]
        for i in range(0, len(said), PER_LINE):
            self.lines.append(" ".join(said[i : i + PER_LINE]))

    def bus(self, bus):
        self.lines.append(f"bus {digest_of(bus)}")

    def lent(self, lent):
        digest = Digest()
        for byte in lent:
            digest.mix(byte)
        self.lines.append(f"bytes {digest}")

    def card(self, length):
        """A card filled with so many bytes of the pattern, if it can be."""
        card = ProgramCard()
        try:
            card.fill(pattern(4098)[:length])
            self.lines.append(f"card {length}")
        except No as no:
            self.lines.append(f"card {length} !{no.number}")
        return card


def report():
    out = Report()
    for seed, size in enumerate((0, 7, 65536, 65539), 1):
        lent = pattern(size)
        bus = Flat(lent)
        out.script(f"flat {size}", bus, seed)
        out.bus(bus)
        out.lent(lent)
    plain = (("card 0, flat 64", 0, 64), ("card 10, flat 64", 10, 64), ("card 64, flat 11", 64, 11))
    plain += (("card 4096, flat 65536", 4096, 65536), ("card 11 refused, flat 20", 11, 20), ("card 4098 refused, flat 20", 4098, 20))
    for seed, (name, length, size) in enumerate(plain, 5):
        lent = pattern(size)
        bus = Card(out.card(length), Flat(lent))
        out.script(name, bus, seed)
        out.bus(bus)
        out.bus(bus.below)
        out.lent(lent)
    lent = pattern(12)
    lower = Card(out.card(8), Flat(lent))
    bus = Card(out.card(4), lower)
    out.script("card 4, card 8, flat 12", bus, 11)
    out.bus(bus)
    out.lent(lent)
    for seed, size in ((12, 0), (13, 65536)):
        lent = pattern(size)
        bus = Console(Flat(lent))
        out.script(f"console, flat {size}", bus, seed)
        out.bus(bus)
        out.bus(bus.below)
        out.lent(lent)
    lent = pattern(65535)
    bus = Console(Card(out.card(4096), Flat(lent)))
    out.script("console, card 4096, flat 65535", bus, 14)
    out.bus(bus)
    out.lent(lent)
    lent = pattern(7)
    bus = Card(out.card(16), Console(Flat(lent)))
    out.script("card 16, console, flat 7", bus, 15)
    out.bus(bus)
    out.lent(lent)
    lent = pattern(61445)
    lower = Console(Flat(lent))
    out.script("lower console", lower, 16)
    upper = Console(lower)
    out.script("console, console, flat 61445", upper, 16 ^ 1)
    out.bus(upper)
    out.bus(lower)
    out.lent(lent)
    return "".join(line + "\n" for line in out.lines).encode("ascii")


def outputs():
    """What is kept in the repository, by its path."""
    return {"crates/bus_calls/stdout": report()}


if __name__ == "__main__":
    sys.stdout.buffer.write(report())
