"""The lines that a run writes."""
from schedule import Schedule
from sizes import queue, ring


def written(history, orders, rounds):
    program = history.program
    schedule = Schedule(history, orders, rounds)
    lines = history.lines + [f"end {history.until}"]
    lines += [f"agent {name} {len(schedule.due(name))} {schedule.slack(name)}" for name in history.names]
    lines += [f"variable {name} {ring(program, name)} {schedule.reach.get(name, '-')}" for name in program.variables]
    return lines + [f"stream {name} {queue(program, name)} {history.most_held[name]}" for name in program.streams]
