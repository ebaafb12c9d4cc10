"""Small programs that are drawn at random from a number, with inputs and a script: few cycles a tick, agents on one to three processors, looks, branches, stops
and orders."""
import random

from program import Parser
from rates import judged

UNTIL = 8


def agent(draw, number, agents, processors):
    clock, looked = draw.choice("cde"), [f"v{draw.randrange(agents)}" for _ in range(2)] + ["x"]
    steps = [f"n = n + past({draw.choice(looked)}, {draw.randrange(2)});" for _ in range(draw.randrange(3))]
    last = f"advance {draw.choice((1, 1, 2))} on {clock};"
    if draw.random() < 0.5:
        last = f"if (n & 1) {{ {last} }} else {{ advance {draw.choice((1, 2))} on {draw.choice('cde')}; }}"
    head = f"agent A{number} on {clock} processor {number % processors} budget {draw.choice((12, 18, 30, 50))}"
    return f"{head} {{ int n = {number}; body {{ {' '.join(steps)} v{number} = n; {last} }} }}"


def text(draw):
    agents, processors = draw.randrange(2, 5), draw.choice((1, 1, 2, 3))
    lines = [f"tick {draw.randrange(8, 40)};", "clock c = 1 * tick; clock d = 2 * tick + 1; clock e = 3 * tick;", "input x on d = 5 depth 2;"]
    lines += [f"temporal v{number} of A{number} on {draw.choice('cde')} = {number} depth 2;" for number in range(agents)]
    return "\n".join(lines + [agent(draw, number, agents, min(processors, agents)) for number in range(agents)]) + "\n"


def script(draw, agents, quantum):
    stalls = {(draw.randrange(agents), draw.randrange(8), draw.randrange(8)) for _ in range(draw.randrange(20))}
    lines = [f"stall A{agent} {action} {instruction} {draw.choice((1, 9, 25))}" for agent, action, instruction in sorted(stalls)]
    for cycle in draw.sample(range(UNTIL * quantum), draw.randrange(4)):
        lines.append(f"order {cycle} " + " ".join(f"A{agent}" for agent in draw.sample(range(agents), agents)))
    return "\n".join(lines) + "\n"


def small(seed):
    """A program whose demand is met, inputs and a script."""
    draw = random.Random(seed)
    while True:
        drawn = text(draw)
        program = Parser(drawn).read()
        if judged(program, UNTIL)[0]:
            return drawn, "x 7 -3 20\n", script(draw, len(program.agents), program.quantum)
