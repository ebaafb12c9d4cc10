"""Code images that are drawn at random from a number: short code of a few agents and functions, most of it nearly as it should be."""
import random

from image import Agent, Clock, Function, Image, Point, Stream, Variable, encode
from verify import AFTER

WRONG = 0.02  # how often an operand, or the instruction itself, is any


class Drawing:
    """Draws the code of one owner after the other; its heights are kept so that jumps go where the same height is."""

    def __init__(self, seed):
        self.draw = random.Random(seed)
        draw = self.draw
        self.functions, self.agents = draw.choice((0, 0, 1, 2, 3)), draw.choice((1, 1, 2))
        self.parameters = [draw.randrange(3) for _ in range(self.functions)]
        self.code, self.image = [], Image(draw.choice((10, 100, 1000)), [Clock("c", 1, 0), Clock("d", 3, 1)])
        for number in range(self.agents + 1):
            owner = number if number < self.agents else None
            self.image.variables.append(Variable(f"v{number}", owner, draw.randrange(2), number, draw.randrange(1, 3)))
        self.image.streams = [Stream("s", draw.randrange(self.agents), draw.randrange(1, 4), draw.randrange(2))]

    def any(self, right, ends=(0, 1, 2, 3, 5, 8, 1024, 1025, (1 << 32) - 1)):
        return self.draw.choice(ends) if self.draw.random() < WRONG else right

    def step(self, height, number, is_agent, cells, counters):
        """An instruction that finds what it wants, and the height behind it."""
        draw = self.draw
        least = [(1, "Push"), (1, "Load"), (0, "Zero")] if height < 4 else []
        if is_agent and height < 4:
            least += [(1, "LoadCopy"), (1, "Past"), (1, "Ready"), (1, "Take")]
        if height:
            least += [(-1, "Store"), (0, "LoadCell"), (0, "Truth"), (0, draw.choice(("Neg", "Not", "Cast8", "Flip64"))), (0, "Guard")]
            least += [(-1, "JumpZero"), (-1, "AndTest"), (-1, "OrTest")]
            least += [(-1, "StoreCopy"), (-1, "Send")] if is_agent else []
        if height > 1:
            least += [(-2, "StoreCell"), (-1, draw.choice(("Add", "Sub8", "Mul64", "Lt", "Div16")))]
        if not is_agent and draw.random() < WRONG:
            return draw.choice((("LoadCopy", number), ("Past", 0, 0), ("Call", number))), height + 1
        callees = [callee for callee in range(self.functions if is_agent else number) if self.parameters[callee] <= height]
        if callees:
            callee = draw.choice(callees)
            least += [(1 - self.parameters[callee], "Call")] * 3
        change, kind = draw.choice(least)
        operands = {
            "Push": lambda: (draw.randrange(-2, 9),),
            "Load": lambda: (self.any(draw.randrange(cells)),),
            "Store": lambda: (self.any(draw.randrange(cells)),),
            "LoadCell": lambda: (self.any(0), self.any(cells)),
            "StoreCell": lambda: (self.any(0), self.any(cells)),
            "Zero": lambda: (self.any(draw.randrange(counters)),),
            "Guard": lambda: (self.any(draw.randrange(counters)), draw.randrange(3)),
            "LoadCopy": lambda: (self.any(number),),
            "StoreCopy": lambda: (self.any(number),),
            "Past": lambda: (self.any(draw.randrange(self.agents + 1)), self.any(0)),
            "Ready": lambda: (self.any(0),),
            "Take": lambda: (self.any(0),),
            "Send": lambda: (self.any(0), self.any(draw.randrange(3), (AFTER, AFTER + 1)), self.any(draw.randrange(2))),
            "Call": lambda: (self.any(callee),),
        }
        if kind in ("Ready", "Take") and is_agent and self.image.streams[0].receiver != number and draw.random() > WRONG:
            return self.step(height, number, is_agent, cells, counters)
        if draw.random() < WRONG:
            return ("Truth",), height + change
        return (kind, *operands.get(kind, tuple)()), height + change

    def block(self, number, is_agent, cells, counters):
        """The code of an owner, and the places behind its `Advance`s."""
        draw, start, height, behind, heights = self.draw, len(self.code), 0, [], []
        for _ in range(draw.randrange(1, 12)):
            heights.append(height)
            step, height = self.step(height, number, is_agent, cells, counters)
            self.code.append(step)
            if is_agent and height == 0 and draw.random() < 0.3:
                heights.append(0)
                self.code.append(("Advance", self.any(len(behind) + 1)))
                behind.append(len(self.code))
        wanted = 0 if is_agent else 1
        while height != wanted:
            heights.append(height)
            self.code.append(("Push", 1) if height < wanted else ("Store", 0))
            height += 1 if height < wanted else -1
        heights.append(height)
        if is_agent and (not behind or draw.random() < 0.5):
            self.code.append(("Advance", len(behind) + 1))
            behind.append(len(self.code))
            heights.append(0)
        self.code.append(("Jump",) if is_agent else ("Return",))
        for place, kind in enumerate([step[0] for step in self.code[start:]]):
            if kind in ("Jump", "JumpZero", "AndTest", "OrTest"):
                after = heights[place] - (kind == "JumpZero")
                fit = [to for to, there in enumerate(heights) if there == after]
                self.code[start + place] = kind, self.any(start + draw.choice(fit or [0]), (0, start, len(self.code) - 1, len(self.code)))
        return start, behind

    def drawn(self):
        draw, image = self.draw, self.image
        for number in range(self.functions):
            cells, counters = self.parameters[number] + 1, draw.randrange(1, 3)
            start, _ = self.block(number, False, cells, counters)
            image.functions.append(Function(self.any(start), self.parameters[number], [0], counters))
        for number in range(self.agents):
            cells, counters = draw.randrange(1, 4), draw.randrange(1, 3)
            start, behind = self.block(number, True, cells, counters)
            points = [Point(0, 0, 40, self.any(start))]
            points += [Point(draw.randrange(1, 3), draw.randrange(2), draw.randrange(5, 40), self.any(place)) for place in behind]
            copies = [(number, 0)]
            rooms = draw.choice((4, 8, 20)), draw.choice((4, 20, 40))
            image.agents.append(Agent(f"A{number}", 0, 40, draw.randrange(2), points, [0] * cells, counters, copies, *rooms))
        image.code = self.code
        return encode(image)


def drawn_image(seed):
    return Drawing(seed).drawn()
