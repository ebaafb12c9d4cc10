"""What a program means by dates: its actions, what they see, do and cost, and what is published, sent and held."""
import copy
from dataclasses import dataclass, field


def wrap(value, width):
    """What is left of a value in so many bits, as a signed number."""
    value &= (1 << width) - 1
    return value - (1 << width) if value >> (width - 1) else value


def quotient(a, b):
    whole = abs(a) // abs(b)
    return whole if (a < 0) == (b < 0) else -whole


BINARY = {
    "*": lambda a, b: a * b,
    "+": lambda a, b: a + b,
    "-": lambda a, b: a - b,
    "/": quotient,
    "%": lambda a, b: a - quotient(a, b) * b,
    "<": lambda a, b: int(a < b),
    "<=": lambda a, b: int(a <= b),
    ">": lambda a, b: int(a > b),
    ">=": lambda a, b: int(a >= b),
    "==": lambda a, b: int(a == b),
    "!=": lambda a, b: int(a != b),
    "&": lambda a, b: a & b,
    "^": lambda a, b: a ^ b,
    "|": lambda a, b: a | b,
}
SHIFTS = {"<<": lambda a, distance: a << distance, ">>": lambda a, distance: a >> distance}
UNARY = {"-": lambda a: -a, "~": lambda a: ~a, "!": lambda a: int(a == 0)}


class Trap(Exception):
    """An instruction that can't be executed, by its kind."""


class Advance(Exception):
    """The `advance` of a point was reached."""


class Return(Exception):
    """A function returned a value."""


@dataclass
class Action:
    agent: str
    number: int
    point: int  # where it starts
    start: int
    deadline: int
    budget: int
    work: int = 0
    stop: str = None  # how it was stopped
    end: int = None  # where it ends, unless it was stopped
    looks: list = field(default_factory=list)  # instruction, variable, how far back
    sends: list = field(default_factory=list)
    taken: list = field(default_factory=list)
    copies: dict = field(default_factory=dict)


def rest(body, point):
    """The statements behind a point's `advance` in a body, with a jump where one is executed; None where it isn't there."""
    for place, statement in enumerate(body):
        tail = body[place + 1:]
        if statement == ("advance", point):
            return tail
        if statement[0] == "if":
            for branch, jump in ((statement[2], statement[3] is not None), (statement[3] or [], False)):
                inner = rest(branch, point)
                if inner is not None:
                    return inner + [("jump",)] * jump + tail
        if statement[0] == "while":
            inner = rest(statement[3], point)
            if inner is not None:
                return inner + [("jump",), statement] + tail
    return None


def pieces(agent, point):
    """What an action from a point executes, up to some `advance`."""
    return agent.body if point == 0 else rest(agent.body, point) + [("jump",)] + agent.body


def next_points(statements):
    """The points that may be reached first, and whether the statements may fall through."""
    found = set()
    for statement in statements:
        if statement[0] == "advance":
            return found | {statement[1]}, False
        if statement[0] == "if":
            one, falls = next_points(statement[2])
            other, passes = next_points(statement[3]) if statement[3] is not None else (set(), True)
            found |= one | other
            if not falls and not passes:
                return found, False
        if statement[0] == "while":
            found |= next_points(statement[3])[0]
    return found, True


class Execution:
    """One action: its statements walked through, each instruction counted."""

    def __init__(self, history, action, variables, copies, view):
        self.history, self.action = history, action
        self.variables, self.copies, self.view = variables, copies, view
        self.cost = 0

    def tick(self):
        self.cost += 1

    def index(self, cells, value):
        if not 0 <= value < len(cells):
            raise Trap("index")
        return value

    def value(self, expression, frame):
        kind, _, *parts = expression
        return getattr(self, "value_of_" + kind)(*parts, frame)

    def value_of_number(self, number, frame):
        self.tick()
        return number

    def value_of_cast(self, width, operand, frame):
        a = self.value(operand, frame)
        self.tick()
        return wrap(a, width)

    def value_of_name(self, name, frame):
        self.tick()
        if frame is not None:
            return frame[name]
        return self.variables[name] if name in self.variables else self.copies[name]

    def value_of_cell(self, name, index, frame):
        at = self.value(index, frame)
        self.tick()
        cells = self.variables[name]
        return cells[self.index(cells, at)]

    def value_of_past(self, name, back, frame):
        self.action.looks.append((self.cost, name, back))
        self.tick()
        return self.history.past(name, back, self.action.start)

    def value_of_ready(self, stream, frame):
        self.tick()
        return len(self.view[stream])

    def value_of_take(self, stream, frame):
        self.tick()
        if not self.view[stream]:
            raise Trap("take")
        message = self.view[stream].pop(0)
        self.action.taken.append(message)
        return message.value

    def value_of_unary(self, operator, width, operand, frame):
        a = self.value(operand, frame)
        self.tick()
        return wrap(UNARY[operator](a), width)

    def value_of_binary(self, operator, width, left, right, frame):
        a = self.value(left, frame)
        if operator in ("&&", "||"):
            self.tick()
            if (a == 0) == (operator == "&&"):
                return int(a != 0)
            b = self.value(right, frame)
            self.tick()
            return int(b != 0)
        b = self.value(right, frame)
        self.tick()
        if operator in ("/", "%") and b == 0:
            raise Trap("divide")
        if operator in SHIFTS:
            return wrap(SHIFTS[operator](a, b % width), width)
        return wrap(BINARY[operator](a, b), width)

    def value_of_call(self, name, arguments, frame):
        values = [self.value(argument, frame) for argument in arguments]
        self.tick()
        function = self.history.program.functions[name]
        inner = dict(zip(function.parameters, values))
        inner.update(function.locals)
        try:
            self.run(function.body, inner)
        except Return as returned:
            return returned.args[0]
        self.cost += 2
        return 0

    def run(self, statements, frame):
        for statement in statements:
            getattr(self, "do_" + statement[0])(*statement[1:], frame)

    def do_jump(self, frame):
        self.tick()

    def do_set(self, name, index, value, frame):
        at = None if index is None else self.value(index, frame)
        result = self.value(value, frame)
        self.tick()
        if at is not None:
            cells = self.variables[name]
            cells[self.index(cells, at)] = result
        elif frame is not None:
            frame[name] = result
        elif name in self.variables:
            self.variables[name] = result
        else:
            self.copies[name] = result

    def do_if(self, test, branch, other, frame):
        holds = self.value(test, frame)
        self.tick()
        if holds:
            self.run(branch, frame)
            if other is not None:
                self.tick()
        elif other is not None:
            self.run(other, frame)

    def do_while(self, test, most, body, frame):
        turns = 0
        if most is not None:
            self.tick()
        while True:
            holds = self.value(test, frame)
            self.tick()
            if most is not None:
                if holds and turns == most:
                    raise Trap("loop")
                self.tick()
            if not holds:
                return
            turns += 1
            self.run(body, frame)
            self.tick()

    def do_send(self, value, stream, delay, clock, frame):
        result = self.value(value, frame)
        self.tick()
        self.action.sends.append((stream, result, delay, clock))

    def do_advance(self, point, frame):
        self.tick()
        raise Advance(point)

    def do_return(self, value, frame):
        result = self.value(value, frame)
        self.tick()
        raise Return(result)


@dataclass
class Message:
    visible: int
    entry: int
    sender: int
    number: int
    expiry: int
    value: int

    def key(self):
        return self.visible, self.entry, self.sender, self.number


@dataclass
class Seat:
    """Where an agent is: its last action, and where its next one starts."""
    point: int
    start: int
    variables: dict
    copies: dict
    actions: int = 0
    last: Action = None
    silent: bool = False


class History:
    """The dates up to the last one, one after the other."""

    def __init__(self, program, until, lists, stalls):
        self.program, self.until, self.lists, self.stalls = program, until, lists, stalls
        self.names = list(program.agents)
        self.published = {name: [] for name in program.variables}
        self.committed = {name: variable.first for name, variable in program.variables.items()}
        self.messages = {name: [] for name in program.streams}
        self.most_held = {name: 0 for name in program.streams}
        self.seats = {name: self.seat(name, agent) for name, agent in program.agents.items()}
        self.actions, self.lines = [], []
        for date in range(until + 1):
            self.do(date)

    def seat(self, name, agent):
        copies = {v: variable.first for v, variable in self.program.variables.items() if variable.owner == name}
        return Seat(0, agent.clock.first, copy.deepcopy(agent.variables), copies)

    def past(self, name, back, start):
        variable = self.program.variables[name]
        dates = variable.clock.count(start)
        return self.published[name][dates - 1 - back] if back < dates else variable.first

    def do(self, date):
        for name in self.names:
            self.commit(name, date)
        for name, stream in self.program.streams.items():
            self.settle(name, self.seats[stream.receiver], date)
        for number, name in enumerate(self.names):
            self.enter(number, self.seats[name].last, date)
        for name, held in self.messages.items():
            held.sort(key=Message.key)
            self.most_held[name] = max(self.most_held[name], len(held))
        for name, variable in self.program.variables.items():
            if variable.clock.has(date):
                self.publish(name, variable, date)
        for name, held in self.messages.items():
            self.lines += [f"{date} {name} msg {message.value}" for message in held if message.visible == date]
        for name in self.names:
            seat = self.seats[name]
            if not seat.silent and seat.start == date:
                self.start(name, seat, date)

    def commit(self, name, date):
        seat = self.seats[name]
        last = seat.last
        if last and last.stop and last.deadline == date:
            self.lines.append(f"{date} stop {name} {last.stop}")
            seat.silent = True
        if last and last.end == date:
            self.committed.update(last.copies)

    def settle(self, name, receiver, date):
        held = self.messages[name]
        if receiver.last and receiver.last.end == date:
            held = [message for message in held if not any(message is taken for taken in receiver.last.taken)]
        if receiver.silent or receiver.start == date:
            held = [message for message in held if message.expiry > date]
        self.messages[name] = held

    def enter(self, sender, last, date):
        if not last or last.end != date:
            return
        for number, (name, value, delay, clock) in enumerate(last.sends):
            stream = self.program.streams[name]
            visible = clock.from_date(date, delay)
            expiry = stream.clock.after(visible, stream.keep)
            self.messages[name].append(Message(visible, date, sender, number, expiry, value))

    def publish(self, name, variable, date):
        if variable.owner is None:
            values, number = self.lists.get(name, []), variable.clock.count(date) - 1
            self.published[name].append(values[min(number, len(values) - 1)] if values else variable.first)
            return
        self.published[name].append(self.committed[name])
        self.lines.append(f"{date} {name} {self.committed[name]}")

    def following(self, agent, point):
        """The points that an action from a point may come to first."""
        return next_points(pieces(agent, point))[0]

    def act(self, agent, seat, action, view):
        """Does an action: its cost, the point that it comes to, and what it leaves in the agent's variables and working copies."""
        execution = Execution(self, action, copy.deepcopy(seat.variables), dict(seat.copies), view)
        point = None
        try:
            execution.run(pieces(agent, seat.point), None)
        except Advance as reached:
            point = reached.args[0]
        except Trap as trap:
            action.stop = f"trap {trap}"
        return execution.cost, point, execution.variables, execution.copies

    def start(self, name, seat, date):
        agent = self.program.agents[name]
        ends = [agent.points[point] for point in self.following(agent, seat.point)]
        deadline = min(point.clock.after(date, point.count) for point in ends)
        action = Action(name, seat.actions, seat.point, date, deadline, agent.points[seat.point].budget)
        view = {
            stream: [m for m in self.messages[stream] if m.visible <= date < m.expiry]
            for stream, declared in self.program.streams.items() if declared.receiver == name
        }
        cost, point, variables, copies = self.act(agent, seat, action, view)
        charge = cost + sum(
            cycles for (who, number, instruction), cycles in self.stalls.items()
            if (who, number) == (name, action.number) and instruction < cost
        )
        action.work = min(charge, action.budget)
        if charge > action.budget:
            action.stop = "overrun"
        seat.last, seat.start, seat.actions = action, None, seat.actions + 1
        if not action.stop:
            to = agent.points[point]
            action.end, action.copies = to.clock.after(date, to.count), copies
            seat.point, seat.start = point, action.end
            seat.variables, seat.copies = variables, copies
        self.actions.append(action)
