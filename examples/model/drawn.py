"""Programs that are drawn at random from a number: expressions of all types and operators, in agents and functions, with casts, cells, branches, loops and messages."""
import random

TYPES = ("int8", "int16", "int", "int32", "int64")
NUMBERS = (0, 1, 2, 3, 7, 8, 9, 15, 17, 31, 33, 63, 65, 100, 127, 128, 255, 256, 32767, 32768, 65535, 65536, 1000000, 2147483647)
OPERATORS = ("*", "+", "-", "<<", ">>", "<", "<=", ">", ">=", "==", "!=", "&", "^", "|", "&&", "||", "/", "%")
FIRST = {"int8": 127, "int16": 32767, "int": 2147483647, "int32": 2147483647, "int64": 2147483647}  # the greatest first value
AGENTS, VARIABLES, FUNCTIONS, STATEMENTS = 3, 5, 3, 7
MOST = 60  # operators of an expression; a statement may have 255

HEAD = """tick 20000;
clock c = 1 * tick;
stream bus to A0 keep 2 on c;
"""


class Writer:
    """Writes expressions and statements over the names that are in reach."""

    def __init__(self, draw, values, cells, functions, looks, streams):
        self.draw, self.values, self.cells, self.functions, self.looks, self.streams = draw, values, cells, functions, looks, streams
        self.left = MOST

    def whole(self):
        self.left = MOST
        return self.expression(4)

    def expression(self, depth):
        draw = self.draw
        self.left -= 1
        if depth == 0 or self.left <= 0 or draw.random() < 0.15:
            return self.operand()
        sort = draw.choice(("binary",) * 6 + ("cast",) * 3 + ("unary", "unary", "cell", "call"))
        if sort == "binary":
            return self.binary(depth)
        if sort == "cast":
            return f"{draw.choice(TYPES)}({self.expression(depth - 1)})"
        if sort == "unary":
            return f"{draw.choice('-~!')}({self.expression(depth - 1)})"
        if sort == "cell" and self.cells:
            return self.cell(depth)
        if sort == "call" and self.functions:
            return f"{draw.choice(self.functions)}({self.expression(depth - 1)}, {self.expression(depth - 1)})"
        return self.operand()

    def operand(self):
        draw = self.draw
        if self.looks and draw.random() < 0.1:
            return f"past({draw.choice(self.looks)}, 0)"
        if self.streams and draw.random() < 0.05:
            return f"ready({draw.choice(self.streams)})"
        return draw.choice(self.values) if draw.random() < 0.6 else str(draw.choice(NUMBERS))

    def binary(self, depth):
        operator, left, right = self.draw.choice(OPERATORS), self.expression(depth - 1), self.expression(depth - 1)
        if operator in ("/", "%") and self.draw.random() < 0.97:
            right = f"({right} | 1)"
        return f"({left} {operator} {right})"

    def cell(self, depth):
        """A cell of an array of four, whose index lies inside it but for a few."""
        index = self.expression(depth - 1)
        return f"{self.draw.choice(self.cells)}[{index if self.draw.random() < 0.02 else index + ' & 3'}]"

    def statement(self, depth):
        draw = self.draw
        sort = draw.choice(("set",) * 5 + ("cell", "if", "while", "send"))
        if sort == "cell" and self.cells:
            return f"{self.cell(2)} = {self.whole()};"
        if sort == "if" and depth:
            other = f" else {{ {self.statement(depth - 1)} }}" if draw.random() < 0.5 else ""
            return f"if ({self.whole()}) {{ {self.statement(depth - 1)} }}{other}"
        if sort == "while" and depth == 2:
            most = draw.randrange(1, 5)
            return f"turn = 0; while (turn < {most}) max {most} {{ {self.statement(0)} turn = turn + 1; }}"
        if sort == "send" and self.looks:
            return f"send {self.whole()} to bus after {draw.randrange(2)} on c;"
        return f"{draw.choice(self.values)} = {self.whole()};"

    def statements(self, many):
        return " ".join(self.statement(2) for _ in range(many))


def scalars(draw, names):
    for name in names:
        kind = draw.choice(TYPES)
        value = draw.choice([number for number in NUMBERS if number <= FIRST[kind]])
        yield f"{kind} {name} = {draw.choice(('', '-'))}{value};"


def function(draw, number, above):
    names = [f"l{place}" for place in range(3)]
    writer = Writer(draw, ["x", "y"] + names, [], above, [], [])
    return f"int f{number}(int x, int y) {{ {' '.join(scalars(draw, names))} int8 turn = 0; {writer.statements(3)} return {writer.whole()}; }}"


def agent(draw, number, functions):
    """It tells the lower and the upper half of a sum of 64 bits, to which all of its variables and some cells add."""
    names, cells = [f"n{place}" for place in range(VARIABLES)], ["narrow", "wide"]
    writer = Writer(draw, names + [f"v{number}"], cells, functions, [f"v{other}" for other in range(AGENTS)], ["bus"] if number == 0 else [])
    arrays = f"{draw.choice(TYPES)} narrow[4]; {draw.choice(TYPES)} wide[4];"
    mixed = " ".join(f"all = all * 31 + {name};" for name in names + ["narrow[1]", "wide[2]"])
    taken = "while (ready(bus)) max 40 { n0 = n0 ^ take(bus); } " if number == 0 else ""
    body = f"{taken}{writer.statements(STATEMENTS)} {mixed} v{number} = all; w{number} = all >> 32; advance 1 on c;"
    return f"agent A{number} on c budget 6000 {{ {' '.join(scalars(draw, names))} {arrays} int64 all = 0; int8 turn = 0; body {{ {body} }} }}"


def drawn(seed):
    draw = random.Random(seed)
    functions = [f"f{number}" for number in range(FUNCTIONS)]
    lines = [f"temporal {name}{number} of A{number} on c = 0 depth 1;" for number in range(AGENTS) for name in "vw"]
    lines += [function(draw, number, functions[:number]) for number in range(FUNCTIONS)]
    return HEAD + "\n".join(lines + [agent(draw, number, functions) for number in range(AGENTS)]) + "\n"
