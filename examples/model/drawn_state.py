"""States that are drawn at random and have no fault, though no run of the program may ever leave them."""
from meaning import Message
from sizes import cycle_of
from states import BEGINS, NOT_BEGUN, SILENT, AgentState, State, StreamState, VariableState, form_of, owned, signed

MOST_MESSAGES = 9
LATER = 20  # dates up to which messages are seen and expire
INT = signed(32)


def value(draw, among):
    """A number of a type: one of its ends, a small one or any."""
    return draw.choice((among.start, among.stop - 1, *range(-2, 3), draw.randrange(among.start, among.stop)))


def figures(draw):
    count = draw.choice((0, 0, 1, 7, (1 << 50) - 1))
    return {"count": count, "slack": draw.choice((0, 1, 100, (1 << 50) - 1)) if count else None}


def drawn_agent(draw, program, name, date):
    agent, form = program.agents[name], form_of(program)
    points = sorted(point for point, phase in form.places[name] if phase == date % cycle_of(agent))
    copies = [value(draw, INT) for _ in owned(program, name)]
    if agent.clock.first > date and draw.random() < 0.7:
        return AgentState(NOT_BEGUN, **figures(draw))
    if agent.clock.first > date or not points or draw.random() < 0.2:
        return AgentState(SILENT, copies=copies, **figures(draw))
    cells = [value(draw, among) for among in form.cells[name]]
    return AgentState(BEGINS, draw.choice((0, 1, 2, 9, 1_000_000)), draw.choice(points), cells, copies, **figures(draw))


def drawn_variable(draw, program, name, date):
    variable, size = program.variables[name], form_of(program).rings[name]
    published = min(variable.clock.count(date), size)
    values = [value(draw, INT) for _ in range(published)] + [variable.first] * (size - published)
    return VariableState(values, draw.choice((None, 0, size - 1)))


def drawn_stream(draw, program, name, date, has_begun):
    messages = {}
    for _ in range(draw.randrange(MOST_MESSAGES + 1)):
        entry = draw.randrange(date + 1)
        visible = draw.randrange(entry, date + LATER)
        expiry = draw.randrange(max(visible, date if has_begun else 0) + 1, date + LATER + 1)
        one = Message(visible, entry, draw.randrange(len(program.agents)), draw.choice((0, 1, (1 << 32) - 1)), expiry, value(draw, INT))
        messages[one.key()] = one
    return StreamState(draw.choice((0, form_of(program).queues[name])), [messages[key] for key in sorted(messages)])


def drawn_state(draw, program, until):
    date = draw.choice((draw.randrange(until + 1), max(until - draw.randrange(10), 0)))
    agents = {name: drawn_agent(draw, program, name, date) for name in program.agents}
    variables = [drawn_variable(draw, program, name, date) for name in program.variables]
    begun = {name for name, agent in agents.items() if agent.kind != NOT_BEGUN}
    streams = [drawn_stream(draw, program, name, date, stream.receiver in begun) for name, stream in program.streams.items()]
    return State(date, list(agents.values()), variables, streams)
