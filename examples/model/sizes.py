"""How many places each ring and each queue needs: from the points and phases at which actions may start, found by all starts over some periods of all clocks."""
from functools import lru_cache
from math import gcd

from meaning import next_points, pieces

AT_LEAST = 200  # dates that are looked at, where the clocks' periods are short


def looks_of(part):
    """The variables that an expression, or the parts of a statement that are expressions, look at."""
    if isinstance(part, tuple) and part[0] == "past":
        return {part[2]}
    if isinstance(part, (tuple, list)):
        return set().union(*[looks_of(inner) for inner in part])
    return set()


def may_look(statements):
    """The variables that some way through the statements looks at, up to its `advance`; and whether they may fall through."""
    found = set()
    for statement in statements:
        if statement[0] == "advance":
            return found, False
        if statement[0] == "if":
            one, falls = may_look(statement[2])
            other, passes = may_look(statement[3]) if statement[3] is not None else (set(), True)
            found |= looks_of(statement[1]) | one | other
            if not falls and not passes:
                return found, False
        elif statement[0] == "while":
            found |= looks_of(statement[1]) | may_look(statement[3])[0]
        else:
            found |= looks_of(statement)
    return found, True


def most_sends(statements, stream):
    """The most sends to a stream on a way, by the point that it goes to; and on a way that falls through, None where none does."""
    by_point, before = {}, 0

    def more(points):
        for point, sends in points.items():
            by_point[point] = max(by_point.get(point, 0), before + sends)

    for statement in statements:
        if statement[0] == "advance":
            more({statement[1]: 0})
            return by_point, None
        if statement[0] == "send" and statement[2] == stream:
            before += 1
        if statement[0] == "if":
            one, falls = most_sends(statement[2], stream)
            other, passes = most_sends(statement[3], stream) if statement[3] is not None else ({}, 0)
            more(one)
            more(other)
            through = [sends for sends in (falls, passes) if sends is not None]
            if not through:
                return by_point, None
            before += max(through)
        if statement[0] == "while":
            inner, falls = most_sends(statement[3], stream)
            more(inner)
            before += statement[2] * falls if statement[2] is not None else 0
    return by_point, before


def sends_in(statements):
    """All sends of a text."""
    for statement in statements:
        if statement[0] == "send":
            yield statement
        for part in statement:
            if isinstance(part, list):
                yield from sends_in(part)


def common(periods):
    shared = 1
    for period in periods:
        shared = shared * period // gcd(shared, period)
    return shared


@lru_cache(None)
def points_from(agent, point):
    return agent.ways.points(point) if agent.ways else next_points(pieces(agent, point))[0]


@lru_cache(None)
def looks_from(agent, point):
    return agent.ways.looks(point) if agent.ways else may_look(pieces(agent, point))[0]


@lru_cache(None)
def sends_from(agent, point, stream):
    return agent.ways.most_sends(point, stream) if agent.ways else most_sends(pieces(agent, point), stream)[0]


@lru_cache(None)
def steps(program, agent):
    """Each point and date at which an action of the agent may start, with the dates at which it may end, by point."""
    clocks = program.clocks.values()
    last = AT_LEAST + 2 * common(clock.period for clock in clocks) + max(clock.first for clock in clocks)
    found, open_ = {}, [(0, agent.clock.first)]
    while open_:
        point, date = open_.pop()
        if (point, date) in found or date > last:
            continue
        ends = {to: agent.points[to].clock.after(date, agent.points[to].count) for to in points_from(agent, point)}
        found[point, date] = ends
        open_ += ends.items()
    return found


def cycle_of(agent):
    """So many ticks later an action from one point is due and ends alike: by the clocks that the agent's `advance`s name, and no others."""
    return common(point.clock.period for point in agent.points[1:])


@lru_cache(None)
def dues(program, agent):
    """Each point and phase in the agent's cycle at which an action may start, with the ticks up to its deadline."""
    cycle = cycle_of(agent)
    return {(point, date % cycle): min(ends.values()) - date for (point, date), ends in steps(program, agent).items()}


def ring(program, name):
    """The depth, and the most dates between a start and the deadline of an action that may look; at each date of its phase one may start."""
    variable, most = program.variables[name], 0
    for agent in program.agents.values():
        cycle = cycle_of(agent)
        for (point, phase), due in dues(program, agent).items():
            if name in looks_from(agent, point):
                starts = range(phase, phase + common((cycle, variable.clock.period)), cycle)
                most = max([most] + [variable.clock.count(start + due - 1) - variable.clock.count(start) for start in starts])
    return variable.depth + most


def spread(program, agent, stream, window):
    """The most sends of a path whose actions end within so many dates."""
    cycle, edges = cycle_of(agent), {}
    for (point, date), ends in steps(program, agent).items():
        sends = sends_from(agent, point, stream)
        edges.setdefault((point, date % cycle), set()).update((to, end % cycle, end - date, sends.get(to, 0)) for to, end in ends.items())

    @lru_cache(None)
    def behind(node, left):
        return max([0] + [sends + behind((to, phase), left - length) for to, phase, length, sends in edges.get(node, ()) if length <= left])

    return max([0] + [sends + behind((to, phase), window - 1) for node in edges for to, phase, length, sends in edges[node]])


def queue(program, name):
    stream = program.streams[name]
    sends = [send for agent in program.agents.values() for send in (agent.ways.sends() if agent.ways else sends_in(agent.body)) if send[2] == name]
    if not sends:
        return 0
    receiver = program.agents[stream.receiver]
    delay = max((after + 1) * clock.period - 1 for _, _, _, after, clock in sends)
    lengths = [end - date for (point, date), ends in steps(program, receiver).items() for end in ends.values()]
    window = delay + stream.keep * stream.clock.period + max(lengths + [receiver.clock.first]) - 1
    return sum(spread(program, agent, name, window) for agent in program.agents.values())
