"""The text of the program that is made from a number, as it is defined."""

HEAD = """tick 1000;
clock c0 = 1 * tick;
clock c1 = 4 * c0 + 1;
clock c2 = 5 * c1 + 2;
stream bus to A0 keep 1 on c1;
"""


class Draws:
    def __init__(self, seed):
        self.x = seed

    def below(self, n):
        self.x = (self.x * 1664525 + 1013904223) % (1 << 32)
        return (self.x >> 16) % n


def agent(number, clock, looked, factor):
    parts = [f"agent A{number} on c{clock} budget 50 {{ int n = 0; body {{ n = n * {factor} + past(v{looked}, 0);"]
    if number == 0:
        parts.append("if (ready(bus)) { n = n + take(bus); }")
    if number % 2:
        parts.append("send n to bus after 0 on c0;")
    return " ".join(parts + [f"v{number} = n; if (n & 1) {{ advance 1 on c{clock}; }} else {{ advance 2 on c{clock}; }} }} }}"])


def made(seed):
    draws = Draws(seed)
    agents = 8 + draws.below(9)
    drawn = [(draws.below(3), draws.below(agents), 1 + draws.below(9)) for _ in range(agents)]
    lines = [f"temporal v{number} of A{number} on c{clock} = {number} depth 1;" for number, (clock, _, _) in enumerate(drawn)]
    return HEAD + "\n".join(lines + [agent(number, *numbers) for number, numbers in enumerate(drawn)]) + "\n"
