"""Which action each cycle of a processor goes to: of its pending ones that of the earliest deadline; and so slacks, and how old looks are."""


def in_force(changes, first, cycle):
    """What was told last up to a cycle, of what is told from a cycle on; else what comes first."""
    come = [told for start, told in changes if start <= cycle]
    return come[-1] if come else first


class Schedule:
    """The cycles of all processors up to the last date."""

    def __init__(self, history, orders, rounds):
        self.history, self.orders, self.rounds = history, orders, rounds
        self.quantum = history.program.quantum
        self.done = {id(action): 0 for action in history.actions}
        self.finish, self.reach = {}, {}
        self.run()

    def run(self):
        pending = [[] for _ in self.history.program.processors()]
        coming = list(self.history.actions)
        first = coming[0].start if coming else self.history.until
        for cycle in range(first * self.quantum, self.history.until * self.quantum):
            while coming and coming[0].start * self.quantum <= cycle:
                action = coming.pop(0)
                pending[self.history.program.agents[action.agent].processor].append(action)
            if any(pending):
                for processor in in_force(self.rounds, range(len(pending)), cycle):
                    self.unit(pending[processor], cycle)

    def unit(self, pending, cycle):
        """The part of a cycle that a processor does, by its pending actions."""
        if not pending:
            return
        order = in_force(self.orders, self.history.names, cycle)
        action = min(pending, key=lambda one: (one.deadline, order.index(one.agent)))
        self.look(action, cycle)
        self.done[id(action)] += 1
        if self.done[id(action)] == action.work:
            self.finish[id(action)] = cycle + 1
            pending.remove(action)

    def look(self, action, cycle):
        for instruction, name, back in action.looks:
            if self.place(action, instruction) == self.done[id(action)]:
                clock = self.history.program.variables[name].clock
                age = back + clock.count(cycle // self.quantum) - clock.count(action.start)
                self.reach[name] = max(self.reach.get(name, age), age)

    def place(self, action, instruction):
        """Which of its cycles an action spends on an instruction: behind the stalls up to it."""
        stalls = self.history.stalls.items()
        return instruction + sum(c for (who, number, at), c in stalls if (who, number) == (action.agent, action.number) and at <= instruction)

    def due(self, name):
        return [action for action in self.history.actions if action.agent == name and action.deadline <= self.history.until]

    def slack(self, name):
        slacks = [action.deadline * self.quantum - self.finish[id(action)] for action in self.due(name)]
        return min(slacks) if slacks else "-"
