"""Reads the text of a code image: declarations and instructions by name. `examples/model/assemble` says what such a text is."""
from image import Agent, Clock, Function, Image, NAMED, Point, Stream, Variable


class Wrong(Exception):
    """What is wrong with a line."""


def wanted(words, *shape):
    """The words that stand between those that have to be there: of a shape, those in capitals are anything."""
    if len(words) != len(shape) or any(part.islower() and part != word for part, word in zip(shape, words)):
        raise Wrong("it isn't " + " ".join(shape))
    return [word for part, word in zip(shape, words) if not part.islower()]


def is_number(word):
    return word.lstrip("-").isdigit()


def found(word, names, sort):
    """The number of a name, or the number that stands in its place."""
    if word in names:
        return names.index(word)
    if is_number(word):
        return int(word)
    raise Wrong(f"no {sort} {word}")


class Block:
    """An agent or a function: its names, and where its code is."""

    def __init__(self, name, start):
        self.name, self.start = name, start
        self.cells, self.firsts, self.counters = [], [], []
        self.points, self.labels, self.parameters = [], {}, 0
        self.stack = self.frames = 0

    def cell(self, name, firsts):
        self.cells += [name] + [None] * (len(firsts) - 1)
        self.firsts += firsts


class Assembler:
    def __init__(self, text):
        self.image, self.functions, self.agents = Image(0), [], []
        self.owners, self.receivers, self.code = [], [], []  # of code: line, block, words
        self.block = None
        for number, line in enumerate(text.splitlines(), 1):
            try:
                self.line(number, line.partition("#")[0].split())
            except Wrong as wrong:
                raise Wrong(f"line {number}: {wrong}") from None
        self.finish()

    def line(self, number, words):
        while words and words[0].endswith(":"):
            self.block.labels[words.pop(0)[:-1]] = len(self.code)
        if words and words[0] in NAMED:
            self.code.append((number, self.block, words))
        elif words:
            read = getattr(self, "read_" + words[0], None)
            if read is None:
                raise Wrong(f"it begins with {words[0]}")
            read(words)

    # ---- declarations

    def names(self, sort):
        return [thing.name for thing in getattr(self.image, sort)]

    def clock(self, word):
        return found(word, self.names("clocks"), "clock")

    def read_tick(self, words):
        self.image.quantum = int(wanted(words, "tick", "CYCLES")[0])

    def read_clock(self, words):
        name, period, first = wanted(words, "clock", "NAME", "period", "TICKS", "first", "DATE")
        self.image.clocks.append(Clock(name, int(period), int(first)))

    def read_input(self, words):
        name, clock, first, depth = wanted(words, "input", "NAME", "on", "CLOCK", "first", "VALUE", "depth", "NUMBER")
        self.owners.append(None)
        self.image.variables.append(Variable(name, None, self.clock(clock), int(first), int(depth)))

    def read_temporal(self, words):
        name, owner, clock, first, depth = wanted(words, "temporal", "NAME", "of", "AGENT", "on", "CLOCK", "first", "VALUE", "depth", "NUMBER")
        self.owners.append(owner)
        self.image.variables.append(Variable(name, 0, self.clock(clock), int(first), int(depth)))

    def read_stream(self, words):
        name, receiver, keep, clock = wanted(words, "stream", "NAME", "to", "AGENT", "keep", "NUMBER", "on", "CLOCK")
        self.receivers.append(receiver)
        self.image.streams.append(Stream(name, 0, int(keep), self.clock(clock)))

    def read_function(self, words):
        self.block = Block(wanted(words, "function", "NAME")[0], len(self.code))
        self.functions.append(self.block)
        self.image.functions.append(Function(self.block.start, 0))

    def read_agent(self, words):
        name, clock, processor, budget = wanted(words, "agent", "NAME", "on", "CLOCK", "processor", "NUMBER", "budget", "CYCLES")
        self.block = Block(name, len(self.code))
        self.agents.append(self.block)
        start = Point(0, self.clock(clock), int(budget), self.block.start)
        self.image.agents.append(Agent(name, start.clock, start.budget, int(processor), [start]))

    def read_param(self, words):
        self.block.cell(wanted(words, "param", "NAME")[0], [0])
        self.block.parameters += 1

    def read_cell(self, words):
        self.block.cell(words[1], list(map(int, words[2:])) or [0])

    def read_counter(self, words):
        self.block.counters.append(wanted(words, "counter", "NAME")[0])

    def read_stack(self, words):
        self.block.stack = int(wanted(words, "stack", "VALUES")[0])

    def read_frames(self, words):
        self.block.frames = int(wanted(words, "frames", "CELLS")[0])

    def read_point(self, words):
        name, count, clock, budget = wanted(words, "point", "NAME", "advance", "COUNT", "on", "CLOCK", "budget", "CYCLES")
        self.block.points.append(name)
        self.image.agents[-1].points.append(Point(int(count), self.clock(clock), int(budget), 0))

    # ---- what names stand for

    def operand(self, block, sort, word):
        if sort in ("cell", "base"):
            return found(word, block.cells, "cell")
        if sort == "variable":
            return found(word, self.names("variables"), sort)
        if sort == "stream":
            return found(word, self.names("streams"), sort)
        if sort == "clock":
            return self.clock(word)
        if sort == "to":
            return block.labels[word] if word in block.labels else found(word, [], "label")
        if sort == "counter":
            return found(word, block.counters, sort)
        if sort == "function":
            return found(word, [function.name for function in self.functions], sort)
        if sort == "point":
            return found(word, [None] + block.points, sort)
        return found(word, [], "number")

    def finish(self):
        names = [agent.name for agent in self.agents]
        for variable, owner in zip(self.image.variables, self.owners):
            variable.owner = None if owner is None else found(owner, names, "agent")
        for stream, receiver in zip(self.image.streams, self.receivers):
            stream.receiver = found(receiver, names, "agent")
        for function, block in zip(self.image.functions, self.functions):
            function.parameters, function.locals, function.counters = block.parameters, block.firsts[block.parameters:], len(block.counters)
        for number, (agent, block) in enumerate(zip(self.image.agents, self.agents)):
            agent.cells, agent.counters, agent.stack, agent.frames = block.firsts, len(block.counters), block.stack, block.frames
            agent.copies = [(place, variable.first) for place, variable in enumerate(self.image.variables) if variable.owner == number]
            for point, name in zip(agent.points[1:], block.points):
                point.place = block.labels[name] if name in block.labels else found(name, [], "label")
        for number, block, (kind, *words) in self.code:
            operands = NAMED[kind].operands
            if len(words) != len(operands):
                raise Wrong(f"line {number}: {kind} has operands {' '.join(operands) or '-'}")
            try:
                self.image.code.append((kind, *map(lambda sort, word: self.operand(block, sort, word), operands, words)))
            except Wrong as wrong:
                raise Wrong(f"line {number}: {wrong}") from None


def assembled(text):
    """The image that a text tells of; or it is Wrong."""
    return Assembler(text).image
