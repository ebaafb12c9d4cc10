"""The line above each agent's demand, the length from which on each processor is above the lines of its agents, and the demand itself, as they are defined."""
from functools import lru_cache

from sizes import common, points_from

SCALE = 1 << 20  # parts of a cycle, in which lines are told


def edges_of(program, agent):
    """The actions of an agent: where each begins and ends, how long it lasts, when it is due, and its budget. A place is a point, and a date within
    the common cycle of the clocks."""
    cycle = common(point.clock.period for point in agent.points[1:])
    found, seen, open_ = [], set(), [(0, agent.clock.first)]
    while open_:
        point, date = open_.pop()
        place = point, date % cycle
        if place in seen:
            continue
        seen.add(place)
        ends = {to: agent.points[to].clock.after(date, agent.points[to].count) for to in points_from(agent, point)}
        due = min(ends.values()) - date
        found += [(place, (to, end % cycle), end - date, due, agent.points[point].budget) for to, end in ends.items()]
        open_ += ends.items()
    return found


def excesses(edges, rate):
    """By place, the most by which a path to it weighs more than the rate by its length, 0 for the empty one; None where there is no most."""
    most = {place: 0 for edge in edges for place in edge[:2]}
    for _ in range(len(most) + 1):
        grown = dict(most)
        for start, to, length, _, budget in edges:
            grown[to] = max(grown[to], most[start] + SCALE * budget - rate * length)
        if grown == most:
            return most
        most = grown
    return None


def line(edges):
    """The least rate that no closed path passes, by halves; and the most by which a path weighs more than it up to the due of its last action."""
    low, high = 0, SCALE * 1_000_000
    while low < high:
        middle = (low + high) // 2
        low, high = (low, middle) if excesses(edges, middle) is not None else (middle + 1, high)
    most = excesses(edges, low)
    return low, max([0] + [most[start] + SCALE * budget - low * due for start, _, _, due, budget in edges])


def horizon(lines, quantum):
    """The least length from which on the supply of a processor is above the lines of its agents; None where there is none."""
    rate, intercept = sum(rate for rate, _ in lines), sum(intercept for _, intercept in lines)
    left = quantum * SCALE - rate
    if left < 0 or left == 0 < intercept:
        return None
    return -(-intercept // left) if intercept else 0


def demand(graphs, length):
    """The sum, over the agents of a processor, of the greatest budgets of paths of which the last action is due within the length."""
    def greatest(edges):
        @lru_cache(None)
        def behind(place, left):
            here = [edge for edge in edges if edge[0] == place]
            last = [budget for _, _, _, due, budget in here if due <= left]
            more = [budget + behind(to, left - lasts) for _, to, lasts, _, budget in here if lasts <= left]
            return max([0] + last + more)

        return max([0] + [behind(place, length) for place in {edge[0] for edge in edges}])

    return sum(map(greatest, graphs))


def judged(program, until):
    """The lines that a check writes of rates, and its verdict; or the one line that tells where the demand isn't supplied."""
    graphs = {name: edges_of(program, agent) for name, agent in program.agents.items()}
    lines = {name: line(edges) for name, edges in graphs.items()}
    ends = [horizon([lines[name] for name in names], program.quantum) for names in program.processors()]
    end = None if None in ends else max(ends)
    top = until if end is None or end > until else end
    for length in range(1, top + 1):
        for processor, names in enumerate(program.processors()):
            asked = demand([graphs[name] for name in names], length)
            if asked > program.quantum * length:
                told = f" on {processor}" if processor else ""
                return False, [f"infeasible {length} {asked} {program.quantum * length}{told}"]
    rates = [f"rate {name} {rate} {intercept}" for name, (rate, intercept) in lines.items()]
    return True, rates + ["feasible always" if end == top else f"feasible {until}"]
