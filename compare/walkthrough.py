"""Prints what the program `walkthrough` must print, worked out from the rules of job sheets alone.

Usage: python3 compare/walkthrough.py crates/walkthrough/data > crates/walkthrough/stdout

It reads the sheets byte by byte and computes in Python's unbounded integers. At its end it holds the results of
the filters against floating point, and fails if they lie apart; that prints nothing.

A sheet is a row of commands: a command byte and its operands, one byte each.
  0x10 STEPS     limit         1-64
  0x11 INPUT     width         1-40
  0x12 ADD       p, A, B       p 1-40
  0x13 MULTIPLY  p, q, A, B    q 1-24, p from q to 40
  0x14 OUTPUT    source        64-127
  0x1F END
A and B are two bytes each, a source and a drop of 0-63. The sources 0-15 are inputs and 64-127 are operations 0-63.
One STEPS comes first, then at most 16 INPUTs, 1 to 64 operations, 1 to 16 OUTPUTs and END, and nothing behind it.
"""

import itertools
import math
import os
import sys


class Refused(Exception):
    """The first faulty command: the number of the cause, and where the command begins."""

    def __init__(self, number, place):
        super().__init__(f"refused {number} {place}")


class Graph:
    def __init__(self):
        self.limit = None
        self.inputs = []  # widths
        self.operations = []  # (name, ports, operands), an operand being (kind, number, drop)
        self.outputs = []  # numbers of operations


NAMES = {0x10: "STEPS", 0x11: "INPUT", 0x12: "ADD", 0x13: "MULTIPLY", 0x14: "OUTPUT", 0x1F: "END"}
LENGTHS = {"STEPS": 1, "INPUT": 1, "ADD": 5, "MULTIPLY": 6, "OUTPUT": 1, "END": 0}

# the stage of the sheet that a command belongs to, and how many of it there may be
STAGES = {"STEPS": 0, "INPUT": 1, "ADD": 2, "MULTIPLY": 2, "OUTPUT": 3, "END": 4}
AT_MOST = [1, 16, 64, 16, 1]


def read_sheet(data):
    """The graph of a sheet. Of one command's causes the one with the lowest number counts."""
    graph = Graph()
    counts = [0] * 5  # commands read, by stage
    at = 0
    while at < len(data):
        if counts[4]:
            raise Refused(3, at)  # behind END
        name = NAMES.get(data[at])
        if name is None:
            raise Refused(1, at)
        operands = list(data[at + 1 : at + 1 + LENGTHS[name]])
        if len(operands) < LENGTHS[name]:
            raise Refused(2, at)
        stage = STAGES[name]
        if not in_order(counts, stage):
            raise Refused(3, at)
        if counts[stage] == AT_MOST[stage]:
            raise Refused(4, at)
        if not in_range(name, operands):
            raise Refused(5, at)
        sources = {"ADD": operands[1::2], "MULTIPLY": operands[2::2], "OUTPUT": operands}.get(name, [])
        for source in sources:
            if source >= 64 and source - 64 >= counts[2] or source < 64 and source >= counts[1]:
                raise Refused(6, at)
        keep(graph, name, operands)
        counts[stage] += 1
        at += 1 + len(operands)
    if not counts[4]:
        raise Refused(2, len(data))
    return graph


def in_order(counts, stage):
    """One STEPS before all else; no command of an earlier stage than one already read; and
    an operation before the first OUTPUT, an OUTPUT before END."""
    if stage == 0:
        return counts[0] == 0
    if counts[0] == 0 or any(counts[stage + 1 :]):
        return False
    return stage < 3 or counts[stage - 1] > 0


def in_range(name, operands):
    if name == "STEPS":
        return 1 <= operands[0] <= 64
    if name == "INPUT":
        return 1 <= operands[0] <= 40
    if name == "OUTPUT":
        return 64 <= operands[0] <= 127
    if name == "END":
        return True
    *ports, a, a_drop, b, b_drop = operands
    if name == "MULTIPLY" and not 1 <= ports[1] <= min(24, ports[0]):
        return False
    sources_fit = all(s <= 15 or 64 <= s <= 127 for s in (a, b))
    return 1 <= ports[0] <= 40 and sources_fit and a_drop <= 63 and b_drop <= 63


def keep(graph, name, operands):
    if name == "STEPS":
        graph.limit = operands[0]
    elif name == "INPUT":
        graph.inputs.append(operands[0])
    elif name == "OUTPUT":
        graph.outputs.append(operands[0] - 64)
    elif name != "END":
        *ports, a, a_drop, b, b_drop = operands
        graph.operations.append((name, ports, [operand(a, a_drop), operand(b, b_drop)]))


def operand(source, drop):
    return ("input", source, drop) if source < 64 else ("operation", source - 64, drop)


def cut(v, d, w):
    """v divided by 2^d, rounded toward minus infinity, and of that the number of w bits
    that differs from it by a multiple of 2^w."""
    low = (v // 2**d) % 2**w
    return low - 2**w if low >= 2 ** (w - 1) else low


class Values:
    """The values of a graph for a frame of samples."""

    def __init__(self, graph, samples):
        assert len(samples) == len(graph.inputs)
        self.inputs = [cut(v, 0, w) for v, w in zip(samples, graph.inputs)]
        self.operations = []
        self.wraps = []  # the additions whose sums were cut
        for number, (name, ports, operands) in enumerate(graph.operations):
            widths = ports if name == "MULTIPLY" else ports * 2
            a, b = (self.port(x, w) for x, w in zip(operands, widths))
            value = a * b if name == "MULTIPLY" else cut(a + b, 0, ports[0])
            if name == "ADD" and value != a + b:
                self.wraps.append(number)
            self.operations.append(value)
        self.outputs = [self.operations[o] for o in graph.outputs]
        self.cuts = self.inputs != samples

    def port(self, x, width):
        kind, number, drop = x
        return cut((self.inputs if kind == "input" else self.operations)[number], drop, width)


# --- price lists ---------------------------------------------------------------------------
# A list has a charge for each cell and a latency for each width of an adder or a multiplier. A width is a tuple of its
# sides, and so is a cell. The charge of a width is the sum over the cells under it, and nothing below takes a short cut.


class Formula:
    def __init__(self, adder, register):
        self.rates = {"adder": adder, "multiplier": 1, "register": register}

    def cell(self, kind, cell):
        return self.rates[kind]

    def steps(self, kind, width):
        return 2 if kind == "adder" else math.ceil(sum(width) / 8)


class Table:
    """The same charge for each adder cell, each cell (i, 1) and each register cell; latencies by the first side."""

    def __init__(self, adder, multiplier, register, adder_steps, multiplier_steps):
        self.charges = {"adder": adder, "multiplier": multiplier, "register": register}
        self.latencies = {"adder": adder_steps, "multiplier": multiplier_steps}

    def cell(self, kind, cell):
        return self.charges[kind] if len(cell) == 1 or cell[1] == 1 else 0

    def steps(self, kind, width):
        return self.latencies[kind][width[0] - 1]


class Grain:
    def __init__(self, below, grain):
        self.below, self.grain = below, grain

    def cell(self, kind, cell):
        if any((side - 1) % self.grain for side in cell):
            return 0
        block = itertools.product(*(range(side, side + self.grain) for side in cell))
        return sum(self.below.cell(kind, c) for c in block)

    def steps(self, kind, width):
        return self.below.steps(kind, width)


class Wait:
    def __init__(self, below, wait):
        self.below, self.wait = below, wait

    def cell(self, kind, cell):
        return self.below.cell(kind, cell)

    def steps(self, kind, width):
        return min(self.below.steps(kind, width) + self.wait, 255)


def charge(prices, kind, width):
    return sum(prices.cell(kind, cell) for cell in itertools.product(*(range(1, side + 1) for side in width)))


FORMULA = Formula(3, 1)
TABLE = Table(7, 96, 5, [1] * 16 + [2] * 16 + [3] * 8, [2] * 8 + [3] * 8 + [4] * 8 + [5] * 8 + [6] * 8)


# --- what is printed -----------------------------------------------------------------------


def show_graph(graph):
    print(f"  STEPS {graph.limit}")
    for i, width in enumerate(graph.inputs):
        print(f"  INPUT {i}: {width} bits")
    for o, (name, ports, operands) in enumerate(graph.operations):
        a, b = (f"{kind} {number} (drop {drop})" for kind, number, drop in operands)
        print(f"  operation {o}: {name} {' x '.join(map(str, ports))} of {a} and {b}")
    for k, o in enumerate(graph.outputs):
        print(f"  OUTPUT {k}: operation {o}")
    print("  END")


def show_prices(title, prices, graph):
    """What each operation's own width and the register of its value cost, and how many steps it takes."""
    print(f"  {title}")
    for o, (name, ports, _) in enumerate(graph.operations):
        kind = "multiplier" if name == "MULTIPLY" else "adder"
        unit = charge(prices, kind, tuple(ports))
        register = charge(prices, "register", (sum(ports),))
        print(f"    operation {o}: unit {unit} in {prices.steps(kind, tuple(ports))} steps, register {register}")


def show_frame(number, samples, values):
    print(f"  frame {number}: samples {' '.join(map(str, samples))}")
    for o, value in enumerate(values.operations):
        print(f"    operation {o} = {value}")
    print(f"    outputs {' '.join(map(str, values.outputs))}")


def walk(folder, name):
    """Prints a sheet and its frames, and answers the graph and each frame's samples with their values."""
    with open(os.path.join(folder, name + ".sheet"), "rb") as f:
        data = f.read()
    with open(os.path.join(folder, name + ".samples")) as f:
        frames = [[int(word) for word in line.split()] for line in f]
    print(f"{name}.sheet: {len(data)} bytes")
    graph = read_sheet(data)
    show_graph(graph)
    show_prices("on a formula list: 3 for an adder cell, 1 for a register cell", FORMULA, graph)
    show_prices("on a table list with grain 4 and wait 1", Wait(Grain(TABLE, 4), 1), graph)
    answers = []
    for number, samples in enumerate(frames):
        values = Values(graph, samples)
        show_frame(number, samples, values)
        answers.append((samples, values))
    return graph, answers


def show_damages(folder, name):
    """Prints how damaged copies of a sheet are refused: some cut off, some with one byte changed."""
    with open(os.path.join(folder, name + ".sheet"), "rb") as f:
        data = f.read()
    copies = [(f"cut to {n} bytes", data[:n]) for n in (99, 98, 0)]
    for at, byte in ((0, 32), (1, 65), (2, 20), (24, 18), (25, 11), (27, 64), (28, 64), (99, 20)):
        copies.append((f"byte {at} set to {byte}", data[:at] + bytes([byte]) + data[at + 1 :]))
    print(f"damaged copies of {name}.sheet")
    for damage, copy in copies:
        try:
            read_sheet(copy)
            answer = "read"
        except Refused as refusal:
            answer = str(refusal)
        print(f"  {damage}: {answer}")


# --- that the sheets are the filters that they are named for ----------------------------------


def check_biquad(answers):
    """Output 0 is the second-order Butterworth low-pass at a tenth of the sampling rate. Coefficients are rounded
    to 14 and 12 bits behind the point, and the result to 17, so a result that lies in range is within 2^-11."""
    k = math.tan(math.pi / 10)
    scale = 1 / (1 + math.sqrt(2) * k + k * k)
    b = [k * k * scale, 2 * k * k * scale, k * k * scale]
    a = [2 * (k * k - 1) * scale, (1 - math.sqrt(2) * k + k * k) * scale]
    close = 0
    for samples, values in answers:
        x = [v / 2**15 for v in samples[0:3]]
        y = [v / 2**17 for v in samples[3:5]]
        exact = sum(p * q for p, q in zip(b, x)) - sum(p * q for p, q in zip(a, y))
        if not values.cuts and abs(exact) < 1:
            assert abs(values.outputs[0] / 2**17 - exact) < 2**-11
            assert abs(values.outputs[1] / 2**23 - exact) < 2**-11
            close += 1
    assert close == 3


def check_transform(graph, answers):
    """Output k is the discrete cosine transform's, times 2 cos(k pi / 16) above 0. Products are rounded to
    integers and constants to 10 and 11 bits behind the point, so data from -1024 to 1016 give it within 4, and
    no sum wraps. The frames with such data are tried, and their constants with every choice of the two ends."""
    in_range = [samples for samples, values in answers if not values.cuts and -1024 <= min(samples[:8]) and max(samples[:8]) <= 1016]
    assert len(in_range) == 2
    ends = [list(x) + in_range[0][8:] for x in itertools.product((-1024, 1016), repeat=8)]
    for samples in in_range + ends:
        values = Values(graph, samples)
        assert not values.wraps
        for k, output in enumerate(values.outputs):
            exact = sum(samples[n] * math.cos((2 * n + 1) * k * math.pi / 16) for n in range(8))
            exact *= 2 * math.cos(k * math.pi / 16) if k else 1
            assert abs(output - exact) < 4


def main():
    folder = sys.argv[1]
    _, biquad = walk(folder, "biquad")
    graph, transform = walk(folder, "transform")
    show_damages(folder, "biquad")
    check_biquad(biquad)
    check_transform(graph, transform)
    for answers in (biquad, transform):
        assert any(values.cuts for _, values in answers)
        assert any(values.wraps for _, values in answers)


if __name__ == "__main__":
    main()
