"""Traces of runs: the trace of a history, and which traces are legal, judged cycle by cycle. Written from docs/formats.md, apart from psyc's code."""
import re
from dataclasses import dataclass
from functools import lru_cache

from schedule import Schedule, in_force
from sizes import points_from, ring

LONGEST = 262144  # bytes of a trace
MORE = 1_000_001  # cycles than any budget has
NUMBER = re.compile(r"\d{1,12}", re.A)
VALUE = re.compile(r"-?\d{1,12}", re.A)


# ---- the trace of a history


class Traced(Schedule):
    """A schedule that keeps which action each processor served, and what was looked at."""

    def __init__(self, history, orders, rounds):
        self.stretches = [[] for _ in history.program.processors()]  # of a processor: first cycle, the one behind the last, action
        self.seen = []  # action, cycle, variable, how far back
        super().__init__(history, orders, rounds)

    def look(self, action, cycle):
        super().look(action, cycle)
        its = self.stretches[self.history.program.agents[action.agent].processor]
        if its and its[-1][1] == cycle and its[-1][2] is action:
            its[-1][1] += 1
        else:
            its.append([cycle, cycle + 1, action])
        self.seen += [(action, cycle, name, back) for instruction, name, back in action.looks if self.place(action, instruction) == self.done[id(action)]]


def ending(schedule, action):
    if id(action) not in schedule.finish:
        return "-"
    return "stop" if action.stop else action.end


def trace(history, orders, rounds):
    """The lines of the trace of a history."""
    program, until = history.program, history.until
    schedule = Traced(history, orders, rounds)
    by_agent = {name: number for number, name in enumerate(history.names)}
    for name in history.names:
        for a in history.actions:
            if a.agent == name and a.start < until:
                yield f"act {name} {a.number} {a.point} {a.start} {a.deadline} {schedule.done[id(a)]} {ending(schedule, a)}"
    for name, variable in program.variables.items():
        for number, value in enumerate(history.published[name]):
            yield f"pub {name} {variable.clock.date(number)} {number % ring(program, name)} {value}"
    for processor, its in enumerate(schedule.stretches):
        for first, past, action in its:
            yield f"seg {processor} {first} {past} {action.agent} {action.number}"
    for action, cycle, name, back in sorted(schedule.seen, key=lambda seen: (by_agent[seen[0].agent], seen[0].number, seen[1])):
        number = program.variables[name].clock.count(action.start) - 1 - back
        value = history.past(name, back, action.start)
        yield f"look {action.agent} {action.number} {cycle} {name} {back} {number % ring(program, name)} {value}"
    yield f"end {until}"


# ---- what lines say


@dataclass
class Act:
    agent: str
    number: int
    point: int
    start: int
    due: int
    work: int
    end: object  # a date, `stop` or `-`

    def place(self, judge):
        return 0, judge.agents.index(self.agent), self.number


@dataclass
class Pub:
    variable: str
    date: int
    slot: int
    value: int

    def place(self, judge):
        return 1, judge.variables.index(self.variable), self.date


@dataclass
class Seg:
    processor: int
    first: int
    past: int
    agent: str
    number: int

    def place(self, judge):
        return 2, self.processor, self.first


@dataclass
class Look:
    agent: str
    number: int
    cycle: int
    variable: str
    back: int
    slot: int
    value: int

    def place(self, judge):
        return 3, judge.agents.index(self.agent), self.number, self.cycle


@dataclass
class End:
    until: int

    def place(self, judge):
        return (4,)


# the forms of a line, by its first word: A is a name of an agent, V one of a variable, N a number, I a value, E a date, `stop` or `-`
FORMS = {"act": (Act, "ANNNNNE"), "pub": (Pub, "VNNI"), "seg": (Seg, "NNNAN"), "look": (Look, "ANNVNNI"), "end": (End, "N")}


def part(form, word):
    """What a word says; None where it isn't of its form."""
    if form in "AV" or form == "E" and word in ("stop", "-"):
        return word
    return int(word) if (VALUE if form == "I" else NUMBER).fullmatch(word) else None


def said(line, until):
    """What a line says; None where it has no form of these."""
    word, *words = re.findall(r"[^ \t]+", line) or [""]
    kind, forms = FORMS.get(word, (None, ""))
    if kind is None or len(words) != len(forms):
        return None
    parts = list(map(part, forms, words))
    return None if None in parts or kind is End and parts != [until] else kind(*parts)


def lines_of(text):
    pieces = text.split("\n")
    ended = [piece[:-1] if piece.endswith("\r") else piece for piece in pieces[:-1]]
    return ended + pieces[-1:] if pieces[-1] else ended


# ---- which are legal


class Judge:
    """Judges a trace, each line behind those before it and in sight of all."""

    def __init__(self, program, until, text, orders):
        self.program, self.until, self.orders, self.quantum = program, until, orders, program.quantum
        self.agents, self.variables = list(program.agents), list(program.variables)
        self.rings = {name: ring(program, name) for name in program.variables}
        self.lines = [said(line, until) for line in lines_of(text)]
        self.ends = [number for number, line in enumerate(self.lines) if isinstance(line, End)]
        self.body = self.lines[:self.ends[0]] if self.ends else self.lines
        self.acts = {name: self.of(Act, self.body, agent=name) for name in self.agents}
        self.pubs = {name: self.of(Pub, self.body, variable=name) for name in self.variables}
        self.segs = lru_cache(None)(self.segs)
        self.first_at = lru_cache(None)(self.first_at)

    @staticmethod
    def of(kind, lines, **wanted):
        return [line for line in lines if isinstance(line, kind) and all(getattr(line, name) == value for name, value in wanted.items())]

    def segs(self, agent, number):
        return self.of(Seg, self.body, agent=agent, number=number)

    def judge(self):
        """The number of the first fault and its line, from 1; None where there is none."""
        for number, line in enumerate(self.lines):
            fault = self.fault(number, line)
            if fault:
                return fault, number + 1
        return None if self.ends else (1, len(self.lines) + 1)

    def fault(self, number, line):
        before = self.lines[:number]
        if line is None or self.ends and self.ends[0] < number:
            return 1
        if getattr(line, "agent", None) not in [None] + self.agents or getattr(line, "variable", None) not in [None] + self.variables:
            return 2
        if before and not before[-1].place(self) < line.place(self):
            return 3
        return getattr(self, "fault_of_" + type(line).__name__.lower())(line, before)

    # ---- actions

    def points_behind(self, name, point):
        """The points to which an action of an agent from a point may go, with their dates when it starts at a date."""
        agent = self.program.agents[name]
        if point >= len(agent.points):
            return lambda start: {}
        points = {to: agent.points[to] for to in points_from(agent, point)}
        return lambda start: {to: point.clock.after(start, point.count) for to, point in points.items()}

    def goes_on(self, a, before):
        ends = self.points_behind(a.agent, before.point)(before.start)
        return a.number == before.number + 1 and a.start == before.end and ends.get(a.point) == a.start

    def fault_of_act(self, a, before):
        earlier = self.of(Act, before, agent=a.agent)
        if earlier:
            is_next = self.goes_on(a, earlier[-1])
        else:
            is_next = (a.number, a.point, a.start) == (0, 0, self.program.agents[a.agent].clock.first)
        if not is_next or a.start >= self.until:
            return 4
        ends = self.points_behind(a.agent, a.point)(a.start).values()
        if a.due != min(ends):
            return 4
        if isinstance(a.end, int):
            if a.end not in ends or a.end < self.until and not any(self.goes_on(other, a) for other in self.acts[a.agent]):
                return 4
        return None if self.has_cycles(a) else 5

    def has_cycles(self, a):
        segs = self.segs(a.agent, a.number)
        cycles = {cycle for seg in segs for cycle in range(seg.first, min(seg.past, seg.first + MORE))}
        return (
            a.work <= self.program.agents[a.agent].points[a.point].budget
            and a.work == len(cycles)
            and all(a.start * self.quantum <= cycle < a.due * self.quantum for cycle in cycles)
            and not (a.end == "-" and a.due <= self.until)
        )

    # ---- publications

    def fault_of_pub(self, pub, before):
        number = len(self.of(Pub, before, variable=pub.variable))
        right = self.program.variables[pub.variable].clock.date(number), number % self.rings[pub.variable]
        return None if (pub.date, pub.slot) == right else 6

    # ---- processors

    def is_pending(self, a, cycle):
        return a.start * self.quantum <= cycle and (a.end == "-" or any(seg.first < seg.past and cycle < seg.past for seg in self.segs(a.agent, a.number)))

    def first_at(self, processor, cycle):
        """The agent and the number of the action that comes first on a processor at a cycle; None where none is pending."""
        order = in_force(self.orders, self.agents, cycle)
        pending = [a for name in order if self.program.agents[name].processor == processor for a in self.acts[name] if self.is_pending(a, cycle)]
        first = min(pending, key=lambda a: a.due, default=None)
        return first and (first.agent, first.number)

    def is_idle(self, processor, first, past):
        return all(self.first_at(processor, cycle) is None for cycle in range(first, past))

    def past_on(self, processor, lines):
        its = self.of(Seg, lines, processor=processor)
        return its[-1].past if its else 0

    def fault_of_seg(self, seg, before):
        its = self.of(Seg, before, processor=seg.processor)
        is_right = (
            seg.first < seg.past <= self.until * self.quantum
            and self.program.agents[seg.agent].processor == seg.processor
            and any(a.number == seg.number for a in self.acts[seg.agent])
            and not any((one.agent, one.number) == (seg.agent, seg.number) and seg.first <= one.past for one in its)
            and all(self.first_at(seg.processor, cycle) in (None, (seg.agent, seg.number)) for cycle in range(seg.first, seg.past))
            and self.is_idle(seg.processor, self.past_on(seg.processor, before), seg.first)
        )
        return None if is_right else 7

    # ---- looks

    def is_seen(self, look, a):
        variable, size = self.program.variables[look.variable], self.rings[look.variable]
        number = variable.clock.count(a.start) - 1 - look.back  # of the value that is asked for
        published = [pub.value for pub in self.pubs[look.variable]]
        if number >= 0:
            value = published[number] if number < len(published) else None
        else:
            value = variable.first
        return (
            any(seg.first <= look.cycle < seg.past for seg in self.segs(a.agent, a.number))
            and look.back < variable.depth
            and look.slot == number % size
            and look.value == value
            and variable.clock.count(look.cycle // self.quantum) - 1 - number < size
        )

    def fault_of_look(self, look, before):
        return None if any(a.number == look.number and self.is_seen(look, a) for a in self.acts[look.agent]) else 8

    # ---- the end

    def fault_of_end(self, end, before):
        if any(agent.clock.first < self.until and not self.acts[name] for name, agent in self.program.agents.items()):
            return 4
        if any(self.program.variables[name].clock.count(self.until) > len(self.pubs[name]) for name in self.variables):
            return 6
        cycles = self.until * self.quantum
        processors = range(len(self.program.processors()))
        return None if all(self.is_idle(processor, self.past_on(processor, self.body), cycles) for processor in processors) else 7


def judged(program, until, text, orders):
    """The status of an audit, and its line."""
    if len(text) > LONGEST:
        return 7, f"limit trace {LONGEST}"
    judge = Judge(program, until, text.decode("latin-1"), orders)
    fault = judge.judge()
    if fault:
        return 6, "refused trace {} at {}".format(*fault)
    return 0, f"legal {len(judge.of(Act, judge.body))} {len(judge.of(Look, judge.body))}"
