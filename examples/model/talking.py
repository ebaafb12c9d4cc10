"""Small programs that are drawn at random from a number, with inputs and a script: agents on one to three processors that send to each other, take what
there is or trap, look back, keep arrays and narrow values, go on from several points, begin late and are stopped."""
import os
import random

from program import Parser
from rates import judged

UNTIL = 24
CLOCKS = "cdefg"
TYPES = ("int8", "int16", "int", "int64")


def steps(draw, number, agents):
    """Statements of an agent, each of which costs few cycles."""
    yield f"n = n + past({draw.choice([f'v{draw.randrange(agents)}', 'x'])}, {draw.randrange(3)});"
    yield f"m[n & 1] = n * {draw.randrange(1, 9)};"
    yield f"n = n + m[{draw.choice((0, 1))}];"
    yield f"if (ready(s{number})) {{ n = n + take(s{number}); }}"
    yield f"n = n + ready(s{number});"
    yield f"while (ready(s{number})) max {draw.randrange(1, 4)} {{ n = n + take(s{number}); }}"
    send = f"send n to s{draw.randrange(agents)} after {draw.randrange(3)} on {draw.choice(CLOCKS)};"
    yield send
    yield f"if (n & {draw.choice((1, 2))}) {{ {send} }}"
    yield draw.choice((f"n = take(s{number});", f"n = {draw.randrange(90)} / (n & 7);")) if draw.random() < 0.2 else "n = n + 1;"


def advance(draw):
    return f"advance {draw.choice((1, 1, 2))} on {draw.choice(CLOCKS[:3])}{draw.choice(('', '', ' budget 70'))};"


def agent(draw, number, agents, processors):
    drawn = draw.sample(list(steps(draw, number, agents)), draw.randrange(1, 5))
    body = " ".join(drawn[:2] + [advance(draw)] * draw.randrange(2) + drawn[2:] + [f"v{number} = n;"])
    end = f"if (n & {draw.choice((1, 4))}) {{ {advance(draw)} }} else {{ {advance(draw)} }}" if draw.random() < 0.5 else advance(draw)
    head = f"agent A{number} on {draw.choice(CLOCKS)} processor {number % processors} budget {draw.choice((30, 50, 80))}"
    return f"{head} {{ {draw.choice(TYPES)} n = {number}; {draw.choice(TYPES)} m[2]; body {{ {body} {end} }} }}"


def text(draw):
    agents, processors = draw.randrange(1, 5), draw.choice((1, 1, 2, 3))
    lines = [f"tick {draw.randrange(60, 120)};", "clock c = 1 * tick; clock d = 2 * tick + 1; clock e = 3 * tick; clock f = 12 * tick + 7;"]
    lines += ["clock g = 6 * c + 5;", "input x on d = 5 depth 3;"]
    for number in range(agents):
        lines.append(f"temporal v{number} of A{number} on {draw.choice(CLOCKS[:3])} = {number} depth 3;")
        lines.append(f"stream s{number} to A{number} keep {draw.randrange(1, 4)} on {draw.choice(CLOCKS[:3])};")
    return "\n".join(lines + [agent(draw, number, agents, min(processors, agents)) for number in range(agents)]) + "\n"


def script(draw, agents, quantum):
    stalls = {(draw.randrange(agents), draw.randrange(UNTIL), draw.randrange(8)) for _ in range(draw.randrange(12))}
    lines = [f"stall A{agent} {action} {instruction} {draw.choice((1, 9, 25, 60))}" for agent, action, instruction in sorted(stalls)]
    for cycle in draw.sample(range(UNTIL * quantum), draw.randrange(4)):
        lines.append(f"order {cycle} " + " ".join(f"A{agent}" for agent in draw.sample(range(agents), agents)))
    return "\n".join(lines) + "\n"


def talking(seed):
    """A program whose demand is met, inputs and a script."""
    draw = random.Random(seed)
    while True:
        drawn = text(draw)
        program = Parser(drawn).read()
        if judged(program, UNTIL)[0]:
            return drawn, "x 7 -3 20\n", script(draw, len(program.agents), program.quantum)


def files_of(seed, folder):
    """The same as files in a folder: their paths."""
    paths = [os.path.join(folder, f"{seed}.{ending}") for ending in ("psy", "inputs", "script")]
    for path, told in zip(paths, talking(seed)):
        with open(path, "w") as file:
            file.write(told)
    return paths
