"""A board worked out from the rules of plans alone, over the formula list with both rates 1.

Units are of kind 0 (adder, width 1-40), 1 (multiplier, width (p, q) with q 1-24 and p from q to 40) or 2 (register,
width 1-64). Every cell under a width costs 1. An adder takes 2 steps, a multiplier (p + q) / 8 rounded up.

A placing gives an operation a unit, a start and a register. The operation runs from its start up to but not including
its finish, which is the start plus the latency of the *unit's* width. Its value is alive from the finish through the
last start of a placed reader, through the limit if it is an output, and at least through the finish itself.

Runs and lives are sets of steps here, and two of them overlap when they share an element.
"""

import itertools

ADDER, MULTIPLIER, REGISTER = 0, 1, 2
KINDS = ["adder", "multiplier", "register"]
FIRST_SIDES = [range(1, 41), range(1, 41), range(1, 65)]
NUMBERS = range(64)


class Refused(Exception):
    def __init__(self, number, place):
        super().__init__(f"refused {number} {place}")


class Job:
    """What a plan asks of a sheet, which must be faultless."""

    def __init__(self, data):
        self.limit = data[1]
        self.kinds = []
        self.widths = []
        self.operands = []  # by operation, the operations that it reads
        self.outputs = set()
        at = 0
        while data[at] != 0x1F:
            if data[at] in (0x12, 0x13):
                kind = data[at] - 0x12
                self.kinds.append(kind)
                self.widths.append(tuple(data[at + 1 : at + 2 + kind]))
                sources = data[at + 2 + kind], data[at + 4 + kind]
                self.operands.append({source - 64 for source in sources if source >= 64})
            elif data[at] == 0x14:
                self.outputs.add(data[at + 1] - 64)
            at += {0x10: 2, 0x11: 2, 0x12: 6, 0x13: 7, 0x14: 2}[data[at]]
        self.operations = range(len(self.kinds))


def charge(width):
    """1 for each cell under the width."""
    return sum(1 for _ in itertools.product(*(range(side) for side in width)))


def latency(kind, width):
    return 2 if kind == ADDER else -(-sum(width) // 8)


def covers(width, other):
    return all(a >= b for a, b in zip(width, other))


class Board:
    def __init__(self, job):
        self.job = job
        self.hired = {}  # widths by kind and number
        self.placed = {}  # (unit, start, register) by operation

    # what is so with the placings as they are

    def finish(self, o):
        unit, start, _ = self.placed[o]
        kind = self.job.kinds[o]
        return start + latency(kind, self.hired[kind, unit])

    def run(self, o):
        return set(range(self.placed[o][1], self.finish(o)))

    def life(self, o):
        readers = {r for r in self.placed if o in self.job.operands[r]}
        ends = {self.finish(o)} | {self.placed[r][1] for r in readers}
        if o in self.job.outputs:
            ends.add(self.job.limit)
        return set(range(self.finish(o), max(ends) + 1))

    def on(self, kind, number):
        """The placed operations that a unit serves, in their order."""
        unit = 2 if kind == REGISTER else 0
        return [o for o in sorted(self.placed) if kind in (REGISTER, self.job.kinds[o]) and self.placed[o][unit] == number]

    # the calls

    def hire(self, kind, number, w, v):
        if kind > 2:
            raise Refused(8, 0)
        if number not in NUMBERS:
            raise Refused(8, 1)
        if w not in FIRST_SIDES[kind]:
            raise Refused(8, 2)
        if v not in (range(1, min(24, w) + 1) if kind == MULTIPLIER else [0]):
            raise Refused(8, 3)
        if (kind, number) in self.hired:
            raise Refused(9, 1)
        self.hired[kind, number] = (w, v) if kind == MULTIPLIER else (w,)

    def dismiss(self, kind, number):
        if kind > 2:
            raise Refused(8, 0)
        if number not in NUMBERS:
            raise Refused(8, 1)
        if (kind, number) not in self.hired:
            raise Refused(10, 1)
        if self.on(kind, number):
            raise Refused(11, self.on(kind, number)[0])
        del self.hired[kind, number]

    def place(self, o, unit, start, register):
        if o not in self.job.operations:
            raise Refused(8, 0)
        if unit not in NUMBERS:
            raise Refused(8, 1)
        if register not in NUMBERS:
            raise Refused(8, 3)
        if o in self.placed:
            raise Refused(9, 0)
        kind = self.job.kinds[o]
        if (kind, unit) not in self.hired:
            raise Refused(10, 1)
        if (REGISTER, register) not in self.hired:
            raise Refused(10, 3)
        if not covers(self.hired[kind, unit], self.job.widths[o]):
            raise Refused(12, 1)
        if not covers(self.hired[REGISTER, register], (sum(self.job.widths[o]),)):
            raise Refused(12, 3)
        self.placed[o] = unit, start, register
        try:
            self.judge(o)
        except Refused:
            del self.placed[o]
            raise

    def judge(self, o):
        """Rules 2 to 5 with the placing of o added."""
        if self.finish(o) > self.job.limit:
            raise Refused(13, self.finish(o))
        others = [e for e in sorted(self.placed) if e != o]
        for e in others:
            for reader, operand in ((o, e), (e, o)):
                if operand in self.job.operands[reader] and self.placed[reader][1] < self.finish(operand):
                    raise Refused(14, e)
        for e in self.on(self.job.kinds[o], self.placed[o][0]):
            if e != o and self.run(e) & self.run(o):
                raise Refused(15, e)
        for r in NUMBERS:
            if any(self.life(x) & self.life(y) for x, y in itertools.combinations(self.on(REGISTER, r), 2)):
                raise Refused(16, r)

    def lift(self, o):
        if o not in self.job.operations:
            raise Refused(8, 0)
        if o not in self.placed:
            raise Refused(10, 0)
        del self.placed[o]

    # questions

    def charge(self):
        """Of adders with multipliers, and of registers."""
        sums = [0, 0]
        for (kind, _), width in self.hired.items():
            sums[kind == REGISTER] += charge(width)
        return sums

    def complete(self):
        return all(o in self.placed for o in self.job.operations)
