"""Buses of our own, written from the rules of the bus and not from the proved code.

A bus has 65,536 byte addresses. At each stands a cell, a fixed cell, one of three ports, or nothing.
A call answers a value or raises `No` with the number of the question that got a no; a refused call
changes nothing.
"""

ADDRESSES = 65536
CELL, FIXED, CHARACTER, NUMBER, INPUT, NOTHING = range(6)
PORTS = (CHARACTER, NUMBER, INPUT)
LOADABLE = (CELL, FIXED, INPUT)
STORABLE = (CELL, CHARACTER, NUMBER)


class No(Exception):
    """A refused call, with the number of its question."""

    def __init__(self, number):
        super().__init__(number)
        self.number = number


def number_text(word):
    """A word as the shortest text of a signed number."""
    signed = word - 65536 if word >= 32768 else word
    return str(signed).encode("ascii")


class Bus:
    """What all buses share: the questions in order, and what each kind of place does."""

    def kind(self, address):
        raise NotImplementedError

    def byte(self, address):
        raise NotImplementedError

    def set_byte(self, address, byte):
        raise NotImplementedError

    def waiting(self):
        """The waiting bytes, oldest first, as a list to change."""
        raise NotImplementedError

    def sent(self):
        """The sent bytes not yet taken, oldest first, as a list to change."""
        raise NotImplementedError

    def most_waiting(self):
        raise NotImplementedError

    def most_sent(self):
        raise NotImplementedError

    def peek(self, address):
        return self.byte(address) if self.kind(address) in (CELL, FIXED) else None

    def _ask(self, address, word, ways):
        """Questions 30 to 33; the kind of the place that passed them."""
        if word and address % 2 != 0:
            raise No(30)
        kind = self.kind(address)
        if kind == NOTHING:
            raise No(31)
        if kind in PORTS and not word:
            raise No(32)
        if kind not in ways:
            raise No(33)
        return kind

    def load_byte(self, address):
        self._ask(address, False, LOADABLE)
        return self.byte(address)

    def load_word(self, address):
        if self._ask(address, True, LOADABLE) == INPUT:
            if not self.waiting():
                raise No(34)
            return self.waiting().pop(0)
        return self.byte(address) * 256 + self.byte(address + 1)

    def store_byte(self, address, byte):
        self._ask(address, False, STORABLE)
        self.set_byte(address, byte)

    def store_word(self, address, word):
        kind = self._ask(address, True, STORABLE)
        if kind == CELL:
            self.set_byte(address, word // 256)
            self.set_byte(address + 1, word % 256)
            return
        text = bytes([word % 256]) if kind == CHARACTER else number_text(word)
        if len(self.sent()) + len(text) > self.most_sent():
            raise No(35)
        self.sent().extend(text)

    def give(self, byte):
        if len(self.waiting()) >= self.most_waiting():
            raise No(36)
        self.waiting().append(byte)

    def take(self):
        if not self.sent():
            raise No(37)
        return self.sent().pop(0)


class Flat(Bus):
    """Lent bytes as cells: an even number of them, at most 65,536."""

    def __init__(self, lent):
        self.lent = lent
        self.cells = min(len(lent), ADDRESSES) & ~1
        self.no_queue = []

    def kind(self, address):
        return CELL if address < self.cells else NOTHING

    def byte(self, address):
        return self.lent[address]

    def set_byte(self, address, byte):
        self.lent[address] = byte

    def waiting(self):
        return self.no_queue

    def sent(self):
        return self.no_queue

    def most_waiting(self):
        return 0

    def most_sent(self):
        return 0


class ProgramCard:
    """A card before it goes over a bus."""

    def __init__(self):
        self.bytes = b""

    def fill(self, program):
        if len(program) % 2 != 0 or len(program) > 4096:
            raise No(38)
        self.bytes = bytes(program)


class Layer(Bus):
    """A bus over another, as it is where nothing else is said."""

    def __init__(self, below):
        self.below = below

    def kind(self, address):
        return self.below.kind(address)

    def byte(self, address):
        return self.below.byte(address)

    def set_byte(self, address, byte):
        self.below.set_byte(address, byte)

    def waiting(self):
        return self.below.waiting()

    def sent(self):
        return self.below.sent()

    def most_waiting(self):
        return self.below.most_waiting()

    def most_sent(self):
        return self.below.most_sent()


class Card(Layer):
    """A filled card over a bus: fixed cells from address 0."""

    def __init__(self, card, below):
        super().__init__(below)
        self.fixed = card.bytes

    def kind(self, address):
        return FIXED if address < len(self.fixed) else self.below.kind(address)

    def byte(self, address):
        return self.fixed[address] if address < len(self.fixed) else self.below.byte(address)


class Console(Layer):
    """Three ports with queues of their own; ports and queues below are hidden."""

    PLACES = {0xF000: CHARACTER, 0xF001: CHARACTER, 0xF002: NUMBER, 0xF003: NUMBER, 0xF004: INPUT, 0xF005: INPUT}

    def __init__(self, below):
        super().__init__(below)
        self.own_waiting = []
        self.own_sent = []

    def kind(self, address):
        if address in self.PLACES:
            return self.PLACES[address]
        kind = self.below.kind(address)
        return NOTHING if kind in PORTS else kind

    def waiting(self):
        return self.own_waiting

    def sent(self):
        return self.own_sent

    def most_waiting(self):
        return 256

    def most_sent(self):
        return 1024
