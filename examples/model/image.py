"""Code images: their parts, how bytes are read as one, and how one is spelled. Written from docs/formats.md, apart from psyc's code."""
import re
from dataclasses import dataclass, field

HEAD = b"PSYC\x01"
MOST = (1 << 32) - 1
LONGEST = 262144  # bytes of an image
NAME_MOST = 32
WORD = re.compile(rb"[A-Za-z_][A-Za-z0-9_]*")
RESERVED = set(
    b"advance after agent body budget clock depth else if input int int8 int16 int32 int64 keep max of on past processor ready return send stream take"
    b" temporal tick to while".split())

OPERATORS = "Mul Div Rem Add Sub Shl Shr Lt Le Gt Ge Eq Ne And Xor Or".split()  # of two operands


@dataclass(frozen=True)
class Kind:
    """A kind of instruction: its byte, its name, what its operands are called, and how many values it pops and pushes. Those of a call and of tests with
    a jump depend on more."""
    byte: int
    name: str
    operands: tuple = ()
    pops: int = 0
    pushes: int = 0


def kinds():
    yield Kind(0x01, "Push", ("value",), 0, 1)
    yield Kind(0x02, "Load", ("cell",), 0, 1)
    yield Kind(0x03, "Store", ("cell",), 1, 0)
    yield Kind(0x04, "LoadCell", ("base", "cells"), 1, 1)
    yield Kind(0x05, "StoreCell", ("base", "cells"), 2, 0)
    yield Kind(0x06, "LoadCopy", ("variable",), 0, 1)
    yield Kind(0x07, "StoreCopy", ("variable",), 1, 0)
    yield Kind(0x08, "Past", ("variable", "back"), 0, 1)
    yield Kind(0x09, "Ready", ("stream",), 0, 1)
    yield Kind(0x0A, "Take", ("stream",), 0, 1)
    yield Kind(0x0B, "Send", ("stream", "after", "clock"), 1, 0)
    yield Kind(0x0C, "Jump", ("to",))
    yield Kind(0x0D, "JumpZero", ("to",), 1, 0)
    yield Kind(0x0E, "AndTest", ("to",), 1, 0)
    yield Kind(0x0F, "OrTest", ("to",), 1, 0)
    yield Kind(0x10, "Truth", (), 1, 1)
    yield Kind(0x11, "Zero", ("counter",))
    yield Kind(0x12, "Guard", ("counter", "bound"), 1, 1)
    yield Kind(0x13, "Call", ("function",))
    yield Kind(0x14, "Return", (), 1, 0)
    yield Kind(0x15, "Advance", ("point",))
    for base, width in ((0x20, ""), (0x40, "8"), (0x50, "16"), (0x60, "64")):
        for place, name in enumerate(OPERATORS):
            yield Kind(base + place, name + width, (), 2, 1)
    for place, name in enumerate(("Neg", "Flip", "Not", "Cast8", "Cast16", "Cast32")):
        yield Kind(0x30 + place, name, (), 1, 1)
    for place, name in enumerate(("Neg8", "Flip8", "Neg16", "Flip16", "Neg64", "Flip64")):
        yield Kind(0x70 + place, name, (), 1, 1)


KINDS = {kind.byte: kind for kind in kinds()}
NAMED = {kind.name: kind for kind in KINDS.values()}
assert len(KINDS) == 97


@dataclass
class Clock:
    name: str
    period: int
    first: int


@dataclass
class Variable:
    name: str
    owner: int  # None of an input
    clock: int
    first: int
    depth: int


@dataclass
class Stream:
    name: str
    receiver: int
    keep: int
    clock: int


@dataclass
class Function:
    entry: int
    parameters: int
    locals: list = field(default_factory=list)
    counters: int = 0


@dataclass
class Point:
    count: int
    clock: int
    budget: int
    place: int


@dataclass
class Agent:
    name: str
    clock: int
    budget: int
    processor: int
    points: list
    cells: list = field(default_factory=list)
    counters: int = 0
    copies: list = field(default_factory=list)  # a variable and its first value
    stack: int = 0
    frames: int = 0


@dataclass
class Image:
    quantum: int
    clocks: list = field(default_factory=list)
    variables: list = field(default_factory=list)
    streams: list = field(default_factory=list)
    functions: list = field(default_factory=list)
    agents: list = field(default_factory=list)
    code: list = field(default_factory=list)  # an instruction is its kind's name, and its operands


# ---- from bytes


class Bad(Exception):
    """Bytes that are no image: the place of the first field that isn't there, isn't whole or is out of range, or that of the first byte too many."""

    def __init__(self, place):
        super().__init__(place)
        self.place = place


class Reader:
    """Reads field by field."""

    def __init__(self, data):
        self.data, self.at, self.names = data, 0, set()
        self.owners, self.receivers = [], []  # place, and the greatest number that there has to be an agent below

    def number(self, least=0, most=MOST, signed=False):
        piece = self.data[self.at:self.at + 4]
        value = int.from_bytes(piece, "little", signed=signed)
        if len(piece) < 4 or not signed and not least <= value <= most:
            raise Bad(self.at)
        self.at += 4
        return value

    def value(self):
        return self.number(signed=True)

    def name(self):
        start = self.at
        try:
            length = self.number(1, NAME_MOST)
        except Bad:
            raise Bad(start) from None
        word = self.data[self.at:self.at + length]
        if len(word) < length or not WORD.fullmatch(word) or word in RESERVED or word in self.names:
            raise Bad(start)
        self.at += length
        self.names.add(word)
        return word.decode("ascii")

    def these(self, wanted):
        if self.data[self.at:self.at + len(wanted)] != wanted:
            raise Bad(self.at)
        self.at += len(wanted)

    def list(self, least, most, member):
        return [member() for _ in range(self.number(least, most))]

    def index(self, things):
        """The number of one of so many things."""
        if not things:
            raise Bad(self.at)
        return self.number(0, things - 1)

    def clock(self):
        name = self.name()
        period = self.number(1, 10_000)
        return Clock(name, period, self.number(0, period - 1))

    def variable(self):
        name = self.name()
        self.owners.append((self.at, self.number()))
        owner = self.owners[-1][1]
        return Variable(name, owner - 1 if owner else None, self.index(self.clocks), self.value(), self.number(1, 1024))

    def stream(self):
        name = self.name()
        self.receivers.append((self.at, self.number()))
        return Stream(name, self.receivers[-1][1], self.number(1, 1024), self.index(self.clocks))

    def function(self):
        entry, parameters = self.number(), self.number(0, 64)
        return Function(entry, parameters, self.list(0, 64 - parameters, self.value), self.number(0, 65_536))

    def count_of_agents(self):
        """The count of agents; with it the owners, and then the receivers, are judged, which stand before it."""
        count = self.number(0, 64)
        late = [place for place, owner in self.owners if owner > count] + [place for place, receiver in self.receivers if receiver >= count]
        if late:
            raise Bad(late[0])
        return count

    def point(self, count=None, clock=None, budget=None):
        """A point; the first of an agent has these numbers."""
        if count is None:
            return Point(self.number(1, 1024), self.index(self.clocks), self.number(1, 1_000_000), self.number())
        return Point(self.number(count, count), self.number(clock, clock), self.number(budget, budget), self.number())

    def agent(self, number, variables):
        name, clock, budget, processor = self.name(), self.index(self.clocks), self.number(1, 1_000_000), self.number(0, 7)
        points = self.number(1, 256)
        read = Agent(name, clock, budget, processor, [self.point(0, clock, budget)] + [self.point() for _ in range(points - 1)])
        read.cells = self.list(0, 16_384, self.value)
        read.counters = self.number(0, 65_536)
        owned = [place for place, variable in enumerate(variables) if variable.owner == number]
        self.number(len(owned), len(owned))
        read.copies = [(self.number(variable, variable), self.value()) for variable in owned]
        read.stack, read.frames = self.number(0, 1_000_000), self.number(0, 1_000_000)
        return read

    def instruction(self):
        kind = KINDS.get(self.data[self.at]) if self.at < len(self.data) else None
        if kind is None:
            raise Bad(self.at)
        self.at += 1
        return (kind.name, *(self.value() if operand == "value" else self.number() for operand in kind.operands))

    def image(self):
        self.these(HEAD)
        read = Image(self.number(1, 1_000_000))
        self.clocks = MOST  # while clocks are read, nothing names one
        read.clocks = self.list(0, 64, self.clock)
        self.clocks = len(read.clocks)
        read.variables = self.list(0, 256, self.variable)
        read.streams = self.list(0, 64, self.stream)
        read.functions = self.list(0, 64, self.function)
        read.agents = [self.agent(number, read.variables) for number in range(self.count_of_agents())]
        read.code = self.list(0, MOST, self.instruction)
        if self.at < len(self.data):
            raise Bad(self.at)
        return read


def decode(data):
    """The image that the bytes spell. Bytes that spell none are Bad, at a place."""
    return Reader(data).image()


# ---- to bytes


def number(value):
    return (value % (1 << 32)).to_bytes(4, "little")


def name(word):
    return number(len(word)) + word.encode("ascii")


def listed(members):
    members = list(members)
    return number(len(members)) + b"".join(members)


def numbers(*values):
    return b"".join(map(number, values))


def instruction(kind, *operands):
    return bytes([NAMED[kind].byte]) + numbers(*operands)


def agent(read):
    points = listed(numbers(point.count, point.clock, point.budget, point.place) for point in read.points)
    copies = listed(numbers(*copy) for copy in read.copies)
    head = name(read.name) + numbers(read.clock, read.budget, read.processor)
    return head + points + listed(map(number, read.cells)) + number(read.counters) + copies + numbers(read.stack, read.frames)


def encode(image):
    """The bytes that spell the image."""
    parts = [
        HEAD + number(image.quantum),
        listed(name(clock.name) + numbers(clock.period, clock.first) for clock in image.clocks),
        listed(name(v.name) + numbers(0 if v.owner is None else v.owner + 1, v.clock, v.first, v.depth) for v in image.variables),
        listed(name(stream.name) + numbers(stream.receiver, stream.keep, stream.clock) for stream in image.streams),
        listed(numbers(f.entry, f.parameters) + listed(map(number, f.locals)) + number(f.counters) for f in image.functions),
        listed(map(agent, image.agents)),
        listed(instruction(*one) for one in image.code),
    ]
    return b"".join(parts)
