"""Reads a lawful program, its inputs and its script. Of what the rules forbid only first values outside their types are judged here."""
import re
from dataclasses import dataclass, field

COMMENT = re.compile(r"/\*.*?\*/|//[^\n]*", re.S)
TOKEN = re.compile(r"[A-Za-z_]\w*|\d+|<<|>>|<=|>=|==|!=|&&|\|\||[;{}()\[\],=+\-*/%<>&^|~!]")

TYPES = {"int": 32, "int8": 8, "int16": 16, "int32": 32, "int64": 64}  # a type is told by its width
INT = 32

# binary operators, loosest first
LEVELS = [["||"], ["&&"], ["|"], ["^"], ["&"], ["==", "!="], ["<", "<=", ">", ">="], ["<<", ">>"], ["+", "-"], ["*", "/", "%"]]
TRUTHS = ("||", "&&", "==", "!=", "<", "<=", ">", ">=")  # those that give 1 or 0, as an int


@dataclass(frozen=True)
class Clock:
    first: int
    period: int

    def count(self, time):
        """How many dates stand up to a time."""
        return 0 if time < self.first else (time - self.first) // self.period + 1

    def date(self, number):
        return self.first + number * self.period

    def after(self, time, k):
        """The k-th date behind a time."""
        return self.date(self.count(time) + k - 1)

    def from_date(self, time, k):
        """The k-th date from a time on, counted from 0."""
        return self.date(self.count(time - 1) + k)

    def has(self, time):
        return self.from_date(time, 0) == time


@dataclass
class Variable:
    owner: str  # None of an input
    clock: Clock
    first: int
    depth: int


@dataclass
class Stream:
    receiver: str
    keep: int
    clock: Clock


@dataclass
class Function:
    parameters: list
    locals: dict
    body: list


@dataclass
class Point:
    count: int
    clock: Clock
    budget: int


@dataclass(eq=False)
class Agent:
    clock: Clock
    processor: int
    variables: dict
    points: list
    body: list = field(default_factory=list)
    ways: object = None  # of its code, where it has code and no body
    types: dict = field(default_factory=dict)  # of its variables and arrays


@dataclass(eq=False)
class Program:
    quantum: int = 0
    clocks: dict = field(default_factory=dict)
    variables: dict = field(default_factory=dict)
    streams: dict = field(default_factory=dict)
    functions: dict = field(default_factory=dict)
    agents: dict = field(default_factory=dict)

    def processors(self):
        """By processor, the names of its agents, in order of declaration."""
        count = 1 + max((agent.processor for agent in self.agents.values()), default=0)
        return [[name for name, agent in self.agents.items() if agent.processor == number] for number in range(count)]


class Refused(Exception):
    """The line with which psyc refuses a program."""


def width_of(expression):
    """The width of an expression's type, which stands behind its kind."""
    return expression[1]


def unary(operator, operand):
    done_at = width_of(operand)
    return ("unary", INT if operator == "!" else done_at, operator, done_at, operand)


def binary(operator, left, right):
    """Both operands are taken as of the wider of their types."""
    done_at = max(width_of(left), width_of(right))
    return ("binary", INT if operator in TRUTHS else done_at, operator, done_at, left, right)


def into(width, expression):
    """The expression as of a type: narrowed where its own is wider. Widening does nothing but to give it that type."""
    if width < width_of(expression):
        return ("cast", width, width, expression)
    kind, _, *parts = expression
    return (kind, width, *parts)


class Parser:
    """Recursive descent. Statements are tuples: the kind, and its parts. So are expressions, with the width of their type behind the kind."""

    def __init__(self, text):
        self.tokens = TOKEN.findall(COMMENT.sub(" ", text))
        self.at = 0
        self.program = Program()
        self.agent = None  # the one whose body is read
        self.budget = 0
        self.types = {}  # of the variables and arrays of the agent or function that is read; what has no type here is an int
        self.out_of_range = []  # the tokens of first values that their types don't have

    def peek(self):
        return self.tokens[self.at] if self.at < len(self.tokens) else None

    def next(self):
        self.at += 1
        return self.tokens[self.at - 1]

    def expect(self, token):
        found = self.next()
        if found != token:
            raise ValueError(f"token {self.at - 1}: {found} in place of {token}")

    def accept(self, token):
        if self.peek() == token:
            self.at += 1
            return True
        return False

    def number(self):
        return int(self.next())

    def first_value(self):
        return -self.number() if self.accept("-") else self.number()

    def behind(self, word, read):
        self.expect(word)
        return read()

    def clock(self):
        return self.program.clocks[self.next()]

    def read(self):
        self.expect("tick")
        self.program.quantum = self.number()
        self.program.clocks["tick"] = Clock(0, 1)
        self.expect(";")
        # Agents come last: their heads name clocks, which may stand below.
        items = []
        while self.peek():
            items.append(self.item())
        for item in sorted(items, key=lambda read: read[0]):
            item[1]()
        if self.out_of_range:
            raise Refused(f"refused rule 12 at {min(self.out_of_range)}")
        return self.program

    def item(self):
        """The item's turn, and what reads it; meanwhile it is passed over."""
        start, kind, depth = self.at, self.next(), 0
        while True:
            token = self.next()
            depth += (token == "{") - (token == "}")
            if depth == 0 and token in (";", "}"):
                break
        turn = {"clock": 0, "temporal": 1, "input": 1, "stream": 1, "int": 1, "agent": 2}[kind]
        return turn, lambda: self.read_item(start)

    def read_item(self, start):
        self.at = start
        getattr(self, "read_" + self.next())()

    def read_clock(self):
        name = self.next()
        self.expect("=")
        factor = self.number()
        self.expect("*")
        parent = self.clock()
        shift = self.number() if self.accept("+") else 0
        self.program.clocks[name] = Clock(parent.first + shift * parent.period, factor * parent.period)

    def read_temporal(self):
        name = self.next()
        owner = self.behind("of", self.next)
        self.variable(name, owner)

    def read_input(self):
        self.variable(self.next(), None)

    def variable(self, name, owner):
        clock = self.behind("on", self.clock)
        first = self.behind("=", self.first_value)
        self.program.variables[name] = Variable(owner, clock, first, self.behind("depth", self.number))

    def read_stream(self):
        name = self.next()
        receiver = self.behind("to", self.next)
        keep = self.behind("keep", self.number)
        self.program.streams[name] = Stream(receiver, keep, self.behind("on", self.clock))

    def read_int(self):
        name, parameters = self.next(), []
        self.expect("(")
        while not self.accept(")"):
            self.accept(",")
            self.expect("int")
            parameters.append(self.next())
        self.expect("{")
        scalars = self.declarations()
        self.program.functions[name] = Function(parameters, scalars, self.statements())

    def read_agent(self):
        name = self.next()
        clock = self.behind("on", self.clock)
        processor = self.number() if self.accept("processor") else 0
        self.budget = self.behind("budget", self.number)
        self.expect("{")
        declared = self.declarations()
        self.agent = Agent(clock, processor, declared, [Point(0, clock, self.budget)], types=self.types)
        self.expect("body")
        self.agent.body = self.block()
        self.program.agents[name] = self.agent

    def declarations(self):
        """Variables with their first values; an array has a list."""
        declared, self.types = {}, {}
        while self.peek() in TYPES:
            width, name = TYPES[self.next()], self.next()
            self.types[name] = width
            if self.accept("["):
                declared[name] = [0] * self.number()
                self.expect("]")
            else:
                declared[name] = self.behind("=", self.first_value)
                if not -(1 << (width - 1)) <= declared[name] < 1 << (width - 1):
                    self.out_of_range.append(self.at - 1)
            self.expect(";")
        return declared

    def type_of(self, name):
        return self.types.get(name, INT)

    def block(self):
        self.expect("{")
        return self.statements()

    def statements(self):
        read = []
        while not self.accept("}"):
            read.append(self.statement())
        return read

    def in_brackets(self):
        self.expect("(")
        read = self.expression()
        self.expect(")")
        return read

    def statement(self):
        word = self.next()
        if word == "if":
            test, branch = self.in_brackets(), self.block()
            return ("if", test, branch, self.block() if self.accept("else") else None)
        if word == "while":
            test = self.in_brackets()
            most = self.number() if self.accept("max") else None
            return ("while", test, most, self.block())
        read = self.simple(word)
        self.expect(";")
        return read

    def simple(self, word):
        if word == "send":
            value = into(INT, self.expression())
            stream = self.behind("to", self.next)
            delay = self.behind("after", self.number)
            return ("send", value, stream, delay, self.behind("on", self.clock))
        if word == "advance":
            count = self.number()
            clock = self.behind("on", self.clock)
            budget = self.number() if self.accept("budget") else self.budget
            self.agent.points.append(Point(count, clock, budget))
            return ("advance", len(self.agent.points) - 1)
        if word == "return":
            return ("return", into(INT, self.expression()))
        index = None
        if self.accept("["):
            index = self.expression()
            self.expect("]")
        return ("set", word, index, into(self.type_of(word), self.behind("=", self.expression)))

    def expression(self, level=0):
        if level == len(LEVELS):
            return self.unary()
        read = self.expression(level + 1)
        while self.peek() in LEVELS[level]:
            read = binary(self.next(), read, self.expression(level + 1))
        return read

    def unary(self):
        if self.peek() in ("-", "~", "!"):
            return unary(self.next(), self.unary())
        token = self.next()
        if token == "(":
            read = self.expression()
            self.expect(")")
            return read
        if token.isdigit():
            return ("number", INT, int(token))
        if token in TYPES:
            return into(TYPES[token], self.in_brackets())
        if token == "past":
            self.expect("(")
            name = self.next()
            back = self.behind(",", self.number)
            self.expect(")")
            return ("past", INT, name, back)
        if token in ("ready", "take"):
            self.expect("(")
            name = self.next()
            self.expect(")")
            return (token, INT, name)
        if self.accept("["):
            index = self.expression()
            self.expect("]")
            return ("cell", self.type_of(token), token, index)
        if self.accept("("):
            return ("call", INT, token, self.arguments())
        return ("name", self.type_of(token), token)

    def arguments(self):
        read = []
        while not self.accept(")"):
            self.accept(",")
            read.append(into(INT, self.expression()))
        return read


def spoken(path):
    """The words of each line that says something."""
    with open(path) as file:
        return [line.split() for line in file if line.split() and not line.startswith("#")]


def read_inputs(path):
    return {words[0]: [int(word) for word in words[1:]] for words in spoken(path)}


def read_script(path):
    """The stalls, by agent, action and instruction; and the orders and the rounds, rising by cycle."""
    stalls, orders, rounds = {}, [], []
    for word, *words in spoken(path):
        if word == "stall":
            stalls[words[0], int(words[1]), int(words[2])] = int(words[3])
        elif word == "order":
            orders.append((int(words[0]), words[1:]))
        else:
            rounds.append((int(words[0]), [int(number) for number in words[1:]]))
    return stalls, sorted(orders), sorted(rounds)
