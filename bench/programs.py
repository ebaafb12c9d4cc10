"""Programs near the limits of graphs. Each keeps the rules, and each action's budget is one cycle where nothing else is said.

The nodes of a graph are the pairs of a point and a date modulo the least common multiple of the periods
of the clocks that the agent's advances name, as far as they can be reached; an edge leads to each point
that an action may end at.
"""

HEAD = "tick 1000;\nclock one = 1 * tick;\n"


def agent(number, clock, body):
    return f"agent a{number} on {clock} budget 1 {{ int n = 0; body {{ {body} }} }}\n"


def quick_or_slow(agents, nodes):
    """Agents of so many nodes: the head, each phase of a clock of one tick, and the one phase of a slow clock, whose
    period is the number of those phases. Two edges leave each node."""
    body = "if (n) { advance 1 on one; } else { advance 1 on slow; }"
    clocks = HEAD + f"clock slow = {nodes - 2} * tick;\n"
    return clocks + "".join(agent(number, "one", body) for number in range(agents))


def in_turn(dates):
    """An agent that advances by two clocks in turn, with periods of dates and dates + 1 ticks, which have no common
    factor. In a round of both come so many dates of the slow clock, each at a phase of its own, and behind each the
    next date of the fast one: with the head 2 * dates + 1 nodes, and one edge leaves each."""
    clocks = HEAD + f"clock fast = {dates} * tick;\nclock slow = {dates + 1} * tick;\n"
    return clocks + agent(0, "fast", "advance 1 on fast; advance 1 on slow;")


def choice(advances):
    """One of so many advances, by nested tests."""
    if advances == 1:
        return "advance 1 on one;"
    half = advances // 2
    return f"if (n) {{ {choice(half)} }} else {{ {choice(advances - half)} }}"


def each_to_each(points, agents=1):
    """Agents whose actions, of one phase, may end at any point but the head: points * (points - 1) edges each."""
    body = choice(points - 1)
    return HEAD + "".join(agent(number, "one", body) for number in range(agents))


def by_phases(points, phases, agents=1):
    """Agents of so many points of a clock of one tick, each with its own length and budget, and one of a slow clock, whose period is the
    number of phases: each may follow each, so that points + 1 edges leave each of points * phases + 2 nodes, or a few nodes fewer."""
    ways = [f"advance {1 + point} on one budget {100 + 37 * point};" for point in range(points)] + ["advance 1 on slow budget 500;"]

    def nested(ways):
        half = len(ways) // 2
        return ways[0] if len(ways) == 1 else f"if (n) {{ {nested(ways[:half])} }} else {{ {nested(ways[half:])} }}"

    clocks = f"tick 1000000;\nclock one = 1 * tick;\nclock slow = {phases} * tick;\n"
    return clocks + "".join(agent(number, "one", nested(ways)) for number in range(agents))


def without_horizon(text):
    """The program with budgets that together pass the processor, so that there is no length from which on it has enough."""
    return text.replace(" budget 1 ", " budget 1000000 ")


def in_a_row(points, size):
    """An agent with its points in a row, in a text of so many bytes: as many nodes as points, and as many edges."""
    statement, advance = "n=n+1;", "advance 1 on one;\n"
    bare = len(HEAD + agent(0, "one", advance * (points - 1)))
    between = (size - bare) // (points - 1) // len(statement)
    text = HEAD + agent(0, "one", (statement * between + advance) * (points - 1))
    return text + " " * (size - len(text))
