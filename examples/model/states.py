"""States of runs: what a run leaves at a quiet date, the bytes that spell it, what is at fault in bytes, and how a run goes on from them. Written from the
definitions, apart from psyc's code."""
from copy import deepcopy
from dataclasses import dataclass, field
from functools import lru_cache

from meaning import History, Message, Seat
from rates import edges_of
from schedule import Schedule
from sizes import cycle_of, queue, ring

MARK = bytes.fromhex("5053595301")
LONGEST = 262144  # bytes of a state
NOT_BEGUN, BEGINS, SILENT = range(3)  # where an agent may be

NUMBERS = range(1 << 32)
ACTIONS = range(1_000_001)
HELD = range(65_537)  # messages of a stream
DATES = range(1 << 40)  # of messages
FIGURES = range(1 << 50)  # counts and slacks


@dataclass
class AgentState:
    kind: int
    number: int = 0  # of the action that it begins, with the point and the cells
    point: int = 0
    cells: list = field(default_factory=list)
    copies: list = field(default_factory=list)
    count: int = 0
    slack: int = None


@dataclass
class VariableState:
    values: list  # newest first
    reach: int


@dataclass
class StreamState:
    held: int  # the most
    messages: list


@dataclass
class State:
    """Where all agents, variables and streams are at a date, in order of declaration."""
    date: int
    agents: list = field(default_factory=list)
    variables: list = field(default_factory=list)
    streams: list = field(default_factory=list)


def signed(width):
    """The values of a type."""
    return range(-(1 << (width - 1)), 1 << (width - 1))


def owned(program, name):
    return [variable for variable, declared in program.variables.items() if declared.owner == name]


def cells_of(values):
    """The cells of an agent's variables, those of an array one after the other."""
    return [cell for value in values for cell in (value if isinstance(value, list) else [value])]


def known(values):
    """Those that there are."""
    return [value for value in values if value not in (None, "-")]


# ---- what a run leaves


class Before(History):
    """A history up to a date, without the actions that start at it."""

    def start(self, name, seat, date):
        if date < self.until:
            super().start(name, seat, date)

    def is_busy(self, seat):
        return not seat.silent and seat.last is not None and seat.start != self.until


def agent_left(history, schedule, name):
    seat, figures = history.seats[name], {"count": len(schedule.due(name)), "slack": min(known([schedule.slack(name)]), default=None)}
    if seat.silent:
        return AgentState(SILENT, copies=[history.committed[variable] for variable in owned(history.program, name)], **figures)
    if seat.start != history.until:
        return AgentState(NOT_BEGUN, **figures)
    copies = [seat.copies[variable] for variable in owned(history.program, name)]
    return AgentState(BEGINS, seat.actions, seat.point, cells_of(seat.variables.values()), copies, **figures)


def variable_left(history, schedule, name):
    size, first = form_of(history.program).rings[name], history.program.variables[name].first
    newest = history.published[name][::-1][:size]
    return VariableState(newest + [first] * (size - len(newest)), schedule.reach.get(name))


def left(history, orders, rounds):
    """The state that a history leaves at its last date, which is quiet."""
    program, schedule = history.program, Schedule(history, orders, rounds)
    return State(
        history.until,
        [agent_left(history, schedule, name) for name in program.agents],
        [variable_left(history, schedule, name) for name in program.variables],
        [StreamState(history.most_held[name], history.messages[name]) for name in program.streams],
    )


# ---- to bytes


def number(value, width=4):
    return (value % (1 << 8 * width)).to_bytes(width, "little")


def numbers(values, width=4):
    return b"".join(number(value, width) for value in values)


def optional(value, width=4):
    return number(0) if value is None else number(1) + number(value, width)


def spelled_agent(agent):
    begins = number(agent.number, 8) + number(agent.point) + numbers(agent.cells, 8) if agent.kind == BEGINS else b""
    copies = numbers(agent.copies) if agent.kind != NOT_BEGUN else b""
    return number(agent.kind) + begins + copies + number(agent.count, 8) + optional(agent.slack, 8)


def spelled_message(m):
    return numbers((m.visible, m.entry), 8) + numbers((m.sender, m.number)) + number(m.expiry, 8) + number(m.value)


def spelled(state):
    """The bytes that spell a state."""
    parts = [MARK, number(state.date), *map(spelled_agent, state.agents)]
    parts += [numbers(variable.values) + optional(variable.reach) for variable in state.variables]
    parts += [number(stream.held) + number(len(stream.messages)) + b"".join(map(spelled_message, stream.messages)) for stream in state.streams]
    return b"".join(parts)


# ---- from bytes


class Form:
    """What is asked of the states of a program, beside their dates."""

    def __init__(self, program):
        self.rings = {name: ring(program, name) for name in program.variables}
        self.queues = {name: queue(program, name) for name in program.streams}
        self.places = {name: {place for edge in edges_of(program, agent) for place in edge[:2]} for name, agent in program.agents.items()}
        self.cells = {}  # by agent, the values that each cell may have
        for name, agent in program.agents.items():
            lengths = {one: len(first) if isinstance(first, list) else 1 for one, first in agent.variables.items()}
            self.cells[name] = [signed(agent.types[one]) for one, length in lengths.items() for _ in range(length)]


form_of = lru_cache(None)(Form)


class Ended(Exception):
    """Nothing more can be read: a field is cut, or what follows depends on one that is out of range."""


class Reader:
    """Reads field by field, and keeps each fault: its place and its number."""

    def __init__(self, program, until, data):
        self.program, self.until, self.data, self.form = program, until, data, form_of(program)
        self.at, self.faults = 0, []

    def field(self, among, width=4):
        place, piece = self.at, self.data[self.at:self.at + width]
        if len(piece) < width:
            self.faults.append((place, 1))
            raise Ended
        value = int.from_bytes(piece, "little", signed=among.start < 0)
        if value not in among:
            self.faults.append((place, 1))
        self.at += width
        return value

    def turn(self, among):
        """A field on which it depends what follows."""
        value = self.field(among)
        if value not in among:
            raise Ended
        return value

    def state(self):
        """The state; a part of it where nothing more can be read."""
        read = State(None)
        try:
            self.read_into(read)
        except Ended:
            return read
        if self.at < len(self.data):
            self.faults.append((self.at, 1))
        return read

    def least(self):
        """The number and the place of the first fault; None where there is none."""
        return min(self.faults)[::-1] if self.faults else None

    def read_into(self, read):
        if not self.data.startswith(MARK):
            self.faults.append((0, 1))
            raise Ended
        self.at = len(MARK)
        read.date = self.field(range(self.until + 1))
        for name, agent in self.program.agents.items():
            read.agents.append(self.agent(name, agent, read.date))
        for name, variable in self.program.variables.items():
            read.variables.append(self.variable(name, variable, read.date))
        begun = {name for name, agent in zip(self.program.agents, read.agents) if agent.kind != NOT_BEGUN}
        for name, stream in self.program.streams.items():
            read.streams.append(self.stream(name, read.date, stream.receiver in begun))

    def agent(self, name, agent, date):
        place, kind = self.at, self.turn(range(3))
        if kind == (NOT_BEGUN if agent.clock.first <= date else BEGINS):
            self.faults.append((place, 2))
        read = AgentState(kind)
        if kind == BEGINS:
            read.number, read.point = self.field(ACTIONS, 8), self.field(range(len(agent.points)))
            if (read.point, date % cycle_of(agent)) not in self.form.places[name]:
                self.faults.append((place, 2))
            read.cells = [self.field(values, 8) for values in self.form.cells[name]]
        if kind != NOT_BEGUN:
            read.copies = [self.field(signed(32)) for _ in owned(self.program, name)]
        read.count = self.field(FIGURES, 8)
        if self.turn(range(1, 2) if read.count else range(1)):
            read.slack = self.field(FIGURES, 8)
        return read

    def variable(self, name, variable, date):
        published, size = variable.clock.count(date), self.form.rings[name]
        values = [self.field(signed(32) if place < published else range(variable.first, variable.first + 1)) for place in range(size)]
        return VariableState(values, self.field(range(size)) if self.turn(range(2)) else None)

    def stream(self, name, date, has_begun):
        held, messages, before = self.field(range(self.form.queues[name] + 1)), [], None
        for _ in range(self.turn(HELD)):
            before = self.message(before, date, has_begun)
            messages.append(Message(*before))
        return StreamState(held, messages)

    def message(self, before, date, has_begun):
        """The numbers of a message, behind those of the one before. One that is cut is at fault where what is there tells it."""
        place, read = self.at, []
        fields = (DATES, 8), (DATES, 8), (range(len(self.program.agents)), 4), (NUMBERS, 4), (DATES, 8), (signed(32), 4)
        try:
            for among, width in fields:
                read.append(self.field(among, width))
        finally:
            if is_misplaced(read, before, date, has_begun):
                self.faults.append((place, 3))
        return read


def is_misplaced(read, before, date, has_begun):
    """The numbers of a message, all or the first of them, don't stand behind the message before it, or can't be those of one that is held."""
    visible, entry, _, _, expiry, _ = read + [None] * (6 - len(read))
    return (
        before is not None and (read[:4] <= before[:4] if len(read) >= 4 else read < before[:len(read)])
        or entry is not None and (entry > date or visible < entry)
        or expiry is not None and (expiry <= visible or has_begun and expiry <= date)
    )


def judged(program, until, data):
    """The number and the place of the least fault by place, then number; None where there is none."""
    reader = Reader(program, until, data)
    reader.state()
    return reader.least()


# ---- how a run goes on


class Resumed(History):
    """The history that goes on from a state: the actions that start at its date, and all that comes behind it."""

    def __init__(self, program, until, lists, stalls, state):
        super().__init__(program, -1, lists, stalls)
        self.until, self.state = until, state
        for name, agent in zip(program.agents, state.agents):
            self.take_agent(name, agent)
        for name, variable in zip(program.variables, state.variables):
            self.take_variable(name, variable)
        for name, stream in zip(program.streams, state.streams):
            self.messages[name], self.most_held[name] = list(stream.messages), stream.held
        for name, agent in zip(program.agents, state.agents):
            if agent.kind == BEGINS:
                self.start(name, self.seats[name], state.date)
        for date in range(state.date + 1, until + 1):
            self.do(date)

    def take_agent(self, name, agent):
        if agent.kind == NOT_BEGUN:
            return
        copies = dict(zip(owned(self.program, name), agent.copies))
        self.committed.update(copies)
        if agent.kind == SILENT:
            self.seats[name] = Seat(0, None, {}, copies, silent=True)
            return
        cells, variables = list(agent.cells), deepcopy(self.program.agents[name].variables)
        for one, first in variables.items():
            variables[one] = [cells.pop(0) for _ in first] if isinstance(first, list) else cells.pop(0)
        self.seats[name] = Seat(agent.point, self.state.date, variables, copies, agent.number)

    def take_variable(self, name, variable):
        """Of the values that were published, those that the state has are at their places; no action asks for the others."""
        published = self.program.variables[name].clock.count(self.state.date)
        newest = variable.values[:published]
        self.published[name] = [None] * (published - len(newest)) + newest[::-1]


def written(history, orders, rounds):
    """The lines of a run that goes on from a state."""
    program, state, schedule = history.program, history.state, Schedule(history, orders, rounds)
    lines = history.lines + [f"end {history.until}"]
    for name, agent in zip(program.agents, state.agents):
        slack = min(known([agent.slack, schedule.slack(name)]), default="-")
        lines.append(f"agent {name} {agent.count + len(schedule.due(name))} {slack}")
    for name, variable in zip(program.variables, state.variables):
        reach = max(known([variable.reach, schedule.reach.get(name)]), default="-")
        lines.append(f"variable {name} {form_of(program).rings[name]} {reach}")
    return lines + [f"stream {name} {form_of(program).queues[name]} {most}" for name, most in history.most_held.items()]


# ---- the two commands


def save(program, date, lists, script):
    """The status, and the bytes of the state at a date, or the line that says why there is none."""
    stalls, orders, rounds = script
    history = Before(program, date, lists, stalls)
    busy = [name for name, seat in history.seats.items() if history.is_busy(seat)]
    if busy:
        return 9, f"busy {busy[0]}"
    data = spelled(left(history, orders, rounds))
    return (0, data) if len(data) <= LONGEST else (7, f"limit state {LONGEST}")


def state_of(program, until, data):
    """The state that bytes spell, and no line; or none, and the line with which psyc refuses them."""
    if len(data) > LONGEST:
        return None, f"limit state {LONGEST}"
    reader = Reader(program, until, data)
    state = reader.state()
    return (None, "refused state {} at {}".format(*reader.least())) if reader.faults else (state, None)


def resume(program, until, data, lists, script):
    """The status, and the lines."""
    stalls, orders, rounds = script
    state, refused = state_of(program, until, data)
    if refused:
        return (7 if refused.startswith("limit") else 6), [refused]
    return 0, written(Resumed(program, until, lists, stalls, state), orders, rounds)
