"""Which code is verified: all faults of an image, by the sets of heights that the definitions speak of. Written from docs/formats.md, apart from psyc's code."""
from functools import lru_cache

from image import NAMED

ENDLESS = float("inf")  # stands for heights that grow without end
AFTER = 1024
ASKING = ("LoadCopy", "StoreCopy", "Past", "Ready", "Take", "Send")


def goes_on(instruction, place):
    """Where a way may go on from an instruction; calls are passed over."""
    kind, *operands = instruction
    if kind == "Jump":
        return [operands[0]]
    if kind in ("JumpZero", "AndTest", "OrTest"):
        return [place + 1, operands[0]]
    return [] if kind in ("Return", "Advance") else [place + 1]


def reached(code, starts):
    """The places that a way from one of these comes to, in the code or behind it."""
    found, open_ = set(), list(starts)
    while open_:
        place = open_.pop()
        if place not in found:
            found.add(place)
            if place < len(code):
                open_ += goes_on(code[place], place)
    return found


class Verifier:
    def __init__(self, image):
        self.image, self.code = image, image.code
        self.owners = [("agent", number) for number in range(len(image.agents))] + [("function", number) for number in range(len(image.functions))]
        self.places = {owner: reached(self.code, self.starts(owner)) for owner in self.owners}
        self.ending = self.places_that_end()
        self.faults = set()
        self.heights, self.need, self.uses, self.is_counted = (lru_cache(None)(f) for f in (self.heights, self.need, self.uses, self.is_counted))

    def starts(self, owner):
        sort, number = owner
        return {point.place for point in self.image.agents[number].points} if sort == "agent" else {self.image.functions[number].entry}

    def places_that_end(self):
        """The places from which a way comes to some `Advance`."""
        before = {}
        for place, instruction in enumerate(self.code):
            for to in goes_on(instruction, place):
                before.setdefault(to, []).append(place)
        found, open_ = set(), [place for place, instruction in enumerate(self.code) if instruction[0] == "Advance"]
        while open_:
            place = open_.pop()
            if place not in found:
                found.add(place)
                open_ += before.get(place, [])
        return found

    # ---- heights

    def shifts(self, place):
        """By way on: where it goes, how many values are popped and how many pushed."""
        kind, *operands = self.code[place]
        if kind == "Call":
            function = self.function(operands[0])
            return [(place + 1, function.parameters, 1)] if function else []
        if kind in ("AndTest", "OrTest"):
            return [(place + 1, 1, 0), (operands[0], 1, 1)]
        return [(to, NAMED[kind].pops, NAMED[kind].pushes) for to in goes_on(self.code[place], place)]

    def function(self, number):
        return self.image.functions[number] if number < len(self.image.functions) else None

    def heights(self, owner):
        """By place, how many values may lie on the stack there. A way that holds more than there are instructions has gone round a loop in which it grew, so that
        there is no greatest height."""
        found, open_ = {}, [(place, 0) for place in self.starts(owner)]
        while open_:
            place, height = open_.pop()
            if height > len(self.code):
                height = ENDLESS
            if height in found.setdefault(place, set()):
                continue
            found[place].add(height)
            if place < len(self.code):
                open_ += [(to, height - pops + pushes) for to, pops, pushes in self.shifts(place) if pops <= height]
        return found

    def finds(self, place, height):
        """At this height the instruction finds what it wants."""
        kind = self.code[place][0]
        if kind in ("Return", "Advance"):
            return height == (1 if kind == "Return" else 0)
        return all(pops <= height for _, pops, _ in self.shifts(place))

    def is_balanced(self, owner, place):
        heights = self.heights(owner).get(place, set())
        return len(heights) <= 1 and all(self.finds(place, height) for height in heights)

    # ---- what functions need

    def is_counted(self, number):
        """There is the function, and its own ways find what they want, with one height at each place."""
        return self.function(number) is not None and all(self.is_balanced(("function", number), place) for place in range(len(self.code)))

    def calls(self, owner):
        """The calls that an owner reaches: place, and the number of a function that counts."""
        sort, number = owner
        for place in sorted(self.places[owner]):
            if place < len(self.code) and self.code[place][0] == "Call":
                callee = self.code[place][1]
                if (sort == "agent" or callee < number) and self.is_counted(callee):
                    yield place, callee

    def left_below(self, owner, place, callee):
        """What may lie below the arguments of a call."""
        parameters = self.function(callee).parameters
        return [height - parameters for height in self.heights(owner).get(place, ()) if parameters <= height]

    def need(self, number):
        """The most values that a function may hold, with those that it calls."""
        owner = ("function", number)
        own = max(height for heights in self.heights(owner).values() for height in heights)
        return max([own] + [left + self.need(callee) for place, callee in self.calls(owner) for left in self.left_below(owner, place, callee)])

    def uses(self, number):
        """The most cells and counters that a function may use, with those that it calls."""
        function = self.function(number)
        own = function.parameters + len(function.locals) + function.counters
        return own + max([0] + [self.uses(callee) for _, callee in self.calls(("function", number))])

    # ---- faults

    def judge_ways(self, owner):
        """Ways that leave the code, places of two owners, heights."""
        for place in self.starts(owner):
            if place >= len(self.code):
                self.faults.add((place, 1))
        for place in self.places[owner]:
            if place >= len(self.code):
                continue
            if any(to >= len(self.code) for to in goes_on(self.code[place], place)):
                self.faults.add((place, 1))
            if not self.is_balanced(owner, place):
                self.faults.add((place, 3))

    def judge_room(self, number):
        """What an agent holds, and the functions that it calls."""
        agent, owner = self.image.agents[number], ("agent", number)
        for place, heights in self.heights(owner).items():
            if place < len(self.code) and max(heights) > agent.stack:
                self.faults.add((place, 3))
        for place, callee in self.calls(owner):
            if any(left + self.need(callee) > agent.stack for left in self.left_below(owner, place, callee)):
                self.faults.add((place, 3))
            if self.uses(callee) > agent.frames:
                self.faults.add((place, 4))

    def frame(self, owner):
        """How many cells and counters the frame of an owner has."""
        sort, number = owner
        if sort == "agent":
            return len(self.image.agents[number].cells), self.image.agents[number].counters
        function = self.image.functions[number]
        return function.parameters + len(function.locals), function.counters

    def is_framed(self, owner, kind, operands):
        cells, counters = self.frame(owner)
        if kind in ("Load", "Store"):
            return operands[0] < cells
        if kind in ("LoadCell", "StoreCell"):
            return sum(operands) <= cells
        return kind not in ("Zero", "Guard") or operands[0] < counters

    def is_named(self, owner, kind, operands):
        sort, number = owner
        image = self.image
        if kind in ("LoadCopy", "StoreCopy"):
            return operands[0] < len(image.variables) and (sort == "function" or image.variables[operands[0]].owner == number)
        if kind == "Past":
            return operands[0] < len(image.variables) and operands[1] < image.variables[operands[0]].depth
        if kind in ("Ready", "Take"):
            return operands[0] < len(image.streams) and (sort == "function" or image.streams[operands[0]].receiver == number)
        if kind == "Send":
            return operands[0] < len(image.streams) and operands[1] <= AFTER and operands[2] < len(image.clocks)
        return kind != "Call" or self.function(operands[0]) is not None

    def is_ordered(self, owner, kind, operands):
        sort, number = owner
        return sort == "agent" or kind not in ASKING + ("Advance",) and (kind != "Call" or operands[0] < number)

    def is_led(self, owner, place, kind, operands):
        sort, number = owner
        if sort == "function":
            return True
        if kind != "Advance":
            return place in self.ending
        points = self.image.agents[number].points
        return 1 <= operands[0] < len(points) and points[operands[0]].place == place + 1

    def judge_instructions(self, owner):
        for place in self.places[owner]:
            if place < len(self.code):
                kind, *operands = self.code[place]
                kept = {
                    4: self.is_framed(owner, kind, operands),
                    5: self.is_named(owner, kind, operands),
                    6: self.is_ordered(owner, kind, operands),
                    7: self.is_led(owner, place, kind, operands),
                }
                self.faults.update((place, number) for number, keeps in kept.items() if not keeps)

    def judge(self):
        met = set()
        for owner in self.owners:
            self.faults.update((place, 2) for place in met & self.places[owner])
            met |= self.places[owner]
            self.judge_ways(owner)
            self.judge_instructions(owner)
        for number in range(len(self.image.agents)):
            self.judge_room(number)
        return self.faults


def faults(image):
    """All faults: place and number."""
    return Verifier(image).judge()


def verify(image):
    """The number and the place of the least fault by place, then number; None where there is none."""
    found = faults(image)
    return min(found)[::-1] if found else None
