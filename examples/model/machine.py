"""What code does: the ways through it, and actions that execute it, one instruction after the other. Written from docs/formats.md, apart from psyc's code."""
from math import inf

import program as declared
from image import OPERATORS
from meaning import BINARY, History, SHIFTS, Trap, UNARY, wrap
from verify import goes_on, reached

MOST_SENDS = 65_537
SIGNS = dict(zip(OPERATORS, ("*", "/", "%", "+", "-", "<<", ">>", "<", "<=", ">", ">=", "==", "!=", "&", "^", "|")))
SIGN_OF_ONE = {"Neg": "-", "Flip": "~", "Not": "!"}


def sign_and_width(kind):
    """An operator's sign and its width; of a narrowing the width alone."""
    name = kind.rstrip("0123456789")
    return SIGNS.get(name) or SIGN_OF_ONE.get(name), int(kind[len(name):] or 32)


class Ways:
    """The ways of an agent through verified code: each test with a jump goes either way."""

    def __init__(self, image, program, agent):
        self.image, self.program, self.agent = image, program, agent

    def places(self, point):
        return reached(self.image.code, [self.agent.points[point].place])

    def instructions(self, point):
        return [self.image.code[place] for place in self.places(point)]

    def points(self, point):
        return {operands[0] for kind, *operands in self.instructions(point) if kind == "Advance"}

    def looks(self, point):
        names = list(self.program.variables)
        return {names[operands[0]] for kind, *operands in self.instructions(point) if kind == "Past"}

    def sends(self):
        """As a text has them: without a value, the stream, how many dates and of which clock later."""
        streams, clocks = list(self.program.streams), list(self.program.clocks.values())[1:]
        for point in range(len(self.agent.points)):
            for kind, *operands in self.instructions(point):
                if kind == "Send":
                    stream, after, clock = operands
                    yield "send", None, streams[stream], after, clocks[clock]

    def most_sends(self, point, stream):
        """By the point that a way goes to, the most sends to a stream on one; where there is no most, the budget."""
        number, budget = list(self.program.streams).index(stream), self.agent.points[point].budget
        by_point = {}
        for to in self.points(point):
            most = self.most_to(point, to, number)
            by_point[to] = min(budget if most == inf else most, MOST_SENDS)
        return by_point

    def most_to(self, point, to, stream):
        """Place by place the most sends on ways from there of 0, 1, 2 instructions and so on; what rises when there are more than places has no most."""
        code, places = self.image.code, self.places(point)
        most = {place: 0 for place in places if code[place] == ("Advance", to)}
        for turn in range(3 * len(places)):
            risen = dict(most)
            for place in places:
                behind = [most[on] for on in goes_on(code[place], place) if on in most]
                if behind:
                    risen[place] = max(behind) + (code[place][:2] == ("Send", stream))
            if risen == most:
                break
            if turn > len(places):
                risen = {place: sends if sends == most.get(place) else inf for place, sends in risen.items()}
            most = risen
        return most[self.agent.points[point].place]


def program_of(image):
    """The image's declarations as those of a program, whose agents have code in place of statements."""
    program = declared.Program(image.quantum)
    program.clocks["tick"] = declared.Clock(0, 1)
    program.clocks.update((clock.name, declared.Clock(clock.first, clock.period)) for clock in image.clocks)
    clocks, names = list(program.clocks.values())[1:], [agent.name for agent in image.agents]
    for v in image.variables:
        program.variables[v.name] = declared.Variable(None if v.owner is None else names[v.owner], clocks[v.clock], v.first, v.depth)
    for stream in image.streams:
        program.streams[stream.name] = declared.Stream(names[stream.receiver], stream.keep, clocks[stream.clock])
    for agent in image.agents:
        points = [declared.Point(point.count, clocks[point.clock], point.budget) for point in agent.points]
        program.agents[agent.name] = declared.Agent(clocks[agent.clock], agent.processor, {}, points, ways=Ways(image, program, agent))
    return program


class Frame:
    """The cells and counters of an agent or of an open call, and where that call was made."""

    def __init__(self, cells, counters, back=None):
        self.cells, self.counters, self.back = cells, [0] * counters, back


class Machine:
    """One action: the stack, the frames, and each instruction counted."""

    def __init__(self, history, agent, seat, action, view):
        self.history, self.image, self.action, self.view = history, history.image, action, view
        self.names, self.streams = list(history.program.variables), list(history.program.streams)
        self.clocks = list(history.program.clocks.values())[1:]
        self.copies, self.stack, self.place, self.cost = dict(seat.copies), [], agent.points[seat.point].place, 0
        self.frames = [Frame(list(seat.variables), agent.counters)]
        self.point = None

    def run(self, most):
        """Executes up to an `Advance`, but no more instructions than are asked of it."""
        while self.point is None and self.cost <= most:
            kind, *operands = self.image.code[self.place]
            self.place += 1
            self.cost += 1
            does = getattr(self, "do_" + kind, None)
            if does:
                does(*operands)
            else:
                self.do_operator(kind)

    def push(self, value):
        self.stack.append(value)

    def pop(self):
        return self.stack.pop()

    def do_operator(self, kind):
        sign, width = sign_and_width(kind)
        if sign in UNARY and kind.startswith(tuple(SIGN_OF_ONE)):
            value = self.pop()
            self.push(wrap(UNARY[sign](value if kind == "Not" else wrap(value, width)), width))
        elif sign is None:
            self.push(wrap(self.pop(), width))
        else:
            b, a = wrap(self.pop(), width), wrap(self.pop(), width)
            if sign in "/%" and b == 0:
                raise Trap("divide")
            self.push(wrap(SHIFTS[sign](a, b % width) if sign in SHIFTS else BINARY[sign](a, b), width))

    def do_Push(self, value):
        self.push(value)

    def do_Load(self, cell):
        self.push(self.frames[-1].cells[cell])

    def do_Store(self, cell):
        self.frames[-1].cells[cell] = self.pop()

    def index(self, index, cells):
        if not 0 <= index < cells:
            raise Trap("index")
        return index

    def do_LoadCell(self, base, cells):
        self.push(self.frames[-1].cells[base + self.index(self.pop(), cells)])

    def do_StoreCell(self, base, cells):
        value, index = self.pop(), self.pop()
        self.frames[-1].cells[base + self.index(index, cells)] = value

    def do_LoadCopy(self, variable):
        self.push(self.copies[self.names[variable]])

    def do_StoreCopy(self, variable):
        self.copies[self.names[variable]] = wrap(self.pop(), 32)

    def do_Past(self, variable, back):
        self.action.looks.append((self.cost - 1, self.names[variable], back))
        self.push(self.history.past(self.names[variable], back, self.action.start))

    def do_Ready(self, stream):
        self.push(len(self.view[self.streams[stream]]))

    def do_Take(self, stream):
        messages = self.view[self.streams[stream]]
        if not messages:
            raise Trap("take")
        self.action.taken.append(messages.pop(0))
        self.push(self.action.taken[-1].value)

    def do_Send(self, stream, after, clock):
        self.action.sends.append((self.streams[stream], wrap(self.pop(), 32), after, self.clocks[clock]))

    def do_Jump(self, to):
        self.place = to

    def do_JumpZero(self, to):
        self.place = self.place if self.pop() else to

    def do_AndTest(self, to):
        if self.pop() == 0:
            self.push(0)
            self.place = to

    def do_OrTest(self, to):
        if self.pop():
            self.push(1)
            self.place = to

    def do_Truth(self):
        self.push(int(self.pop() != 0))

    def do_Zero(self, counter):
        self.frames[-1].counters[counter] = 0

    def do_Guard(self, counter, bound):
        counters = self.frames[-1].counters
        if self.stack[-1]:
            if counters[counter] == bound:
                raise Trap("loop")
            counters[counter] = (counters[counter] + 1) % (1 << 32)

    def do_Call(self, number):
        function = self.image.functions[number]
        given = [self.pop() for _ in range(function.parameters)][::-1]
        self.frames.append(Frame(given + list(function.locals), function.counters, self.place))
        self.place = function.entry

    def do_Return(self):
        self.place = self.frames.pop().back

    def do_Advance(self, point):
        self.point = point


class CodeHistory(History):
    """The dates of an image, whose actions are done by its code. What lies behind an action's budget isn't executed: it may go on for ever."""

    def __init__(self, image, program, until, lists, stalls):
        self.image = image
        self.code_of = {agent.name: agent for agent in image.agents}
        super().__init__(program, until, lists, stalls)

    def seat(self, name, agent):
        made = super().seat(name, agent)
        made.variables = list(self.code_of[name].cells)
        made.copies = {self.image.variables[variable].name: first for variable, first in self.code_of[name].copies}
        return made

    def following(self, agent, point):
        return agent.ways.points(point)

    def act(self, agent, seat, action, view):
        machine = Machine(self, self.code_of[action.agent], seat, action, view)
        try:
            machine.run(action.budget)
        except Trap as trap:
            action.stop = f"trap {trap}"
        return machine.cost, machine.point, machine.frames[0].cells, machine.copies
