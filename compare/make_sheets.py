"""Writes the job sheets of three filters, and samples for them.

Usage: python3 compare/make_sheets.py crates/walkthrough/data crates/planning/data

It writes biquad.sheet and transform.sheet into the first folder and nine.sheet into the second, each with its samples.
A sheet is bytes; a line of samples is one frame: a number for each input, in the
order of the inputs. A sheet has no constants, so coefficients are inputs too, and
stand in each frame. Nothing is drawn at random: every run writes the same files.

Fixed point: a number in Qn stands for itself divided by 2^n. Operands can only drop
low bits, so each sum below first brings both operands to the coarser of their scales.
"""

import math
import os
import sys

STEPS, INPUT, ADD, MULTIPLY, OUTPUT, END = 0x10, 0x11, 0x12, 0x13, 0x14, 0x1F


class Sheet:
    """Collects the bytes of a sheet. Inputs and operations are named by their source bytes."""

    def __init__(self, limit):
        self.bytes = [STEPS, limit]
        self.inputs = 0
        self.operations = 0

    def input(self, width):
        self.bytes += [INPUT, width]
        self.inputs += 1
        return self.inputs - 1

    def operation(self, head, a, b):
        """An operand is a source byte, or a pair of a source byte and a drop."""
        self.bytes += head
        for operand in (a, b):
            source, drop = operand if isinstance(operand, tuple) else (operand, 0)
            self.bytes += [source, drop]
        self.operations += 1
        return 64 + self.operations - 1

    def add(self, p, a, b):
        return self.operation([ADD, p], a, b)

    def multiply(self, p, q, a, b):
        return self.operation([MULTIPLY, p, q], a, b)

    def finish(self, outputs):
        for source in outputs:
            self.bytes += [OUTPUT, source]
        return bytes(self.bytes + [END])


def fixed(x, n):
    """The number in Qn that lies nearest to x."""
    return round(x * 2**n)


# --- biquad: y = b0 x0 + b1 x1 + b2 x2 - a1 y1 - a2 y2 ---------------------------------


def butterworth(ratio):
    """b0 b1 b2 a1 a2 of the second-order Butterworth low-pass whose corner is `ratio` of
    the sampling rate: H(s) = 1 / (s^2 + sqrt(2) s + 1) under the bilinear transform."""
    k = math.tan(math.pi * ratio)
    a0 = 1 + math.sqrt(2) * k + k * k
    b0 = k * k / a0
    return b0, 2 * b0, b0, 2 * (k * k - 1) / a0, (1 - math.sqrt(2) * k + k * k) / a0


def biquad_sheet():
    """Data x in Q15 (16 bits), earlier results y in Q17 (18 bits), b in Q14, -a in Q12: each product is in Q29.

    The sums are in Q23. The last two sums of products have 24 bits and so hold numbers from -1 to 1;
    where the inner one wraps round, the outer one wraps back as long as the result lies in that range.
    """
    s = Sheet(24)
    x0, x1, x2 = s.input(16), s.input(16), s.input(16)
    y1, y2 = s.input(18), s.input(18)
    b0, b1, b2 = s.input(12), s.input(13), s.input(12)
    na1, na2 = s.input(14), s.input(12)
    one = s.input(2)

    p0 = s.multiply(16, 12, x0, b0)
    p1 = s.multiply(16, 13, x1, b1)
    p2 = s.multiply(16, 12, x2, b2)
    r1 = s.multiply(18, 14, y1, na1)
    r2 = s.multiply(18, 12, y2, na2)

    outer = s.add(22, (p0, 6), (p2, 6))  # below 0.14: 22 bits
    ahead = s.add(23, outer, (p1, 6))  # below 0.27: 23 bits
    back = s.add(24, (r1, 6), (r2, 6))
    total = s.add(24, ahead, back)

    # To Q17, rounded to the nearest: one unit of Q18 more, then the low bit is dropped.
    # The constant 1 without its low bit is the 0 that the last sum needs.
    half = s.add(19, (total, 5), one)
    y = s.add(18, (half, 1), (one, 1))
    return s.finish([y, total])


def biquad_frames():
    b0, b1, b2, a1, a2 = butterworth(0.1)
    coefficients = [fixed(b0, 14), fixed(b1, 14), fixed(b2, 14), fixed(-a1, 12), fixed(-a2, 12), 1]

    # A slow wave, which passes, with a fast one on it, which does not; y by the filter itself.
    n = 32
    x = [0.6 * math.sin(2 * math.pi * 0.03 * t) + 0.2 * math.sin(2 * math.pi * 0.35 * t) for t in range(n)]
    y = [0.0] * n
    for t in range(2, n):
        y[t] = b0 * x[t] + b1 * x[t - 1] + b2 * x[t - 2] - a1 * y[t - 1] - a2 * y[t - 2]

    def at(t):
        return [fixed(x[t - i], 15) for i in range(3)] + [fixed(y[t - i], 17) for i in (1, 2)] + coefficients

    low = fixed(-1, 15)
    return [
        at(12),
        at(25),
        # The inner sum 1.143 * 0.8 + 0.413 * 0.5 passes 1 and wraps round; the outer one wraps back to 0.85.
        [low, low, low, fixed(0.8, 17), fixed(-0.5, 17)] + coefficients,
        # 40000 has no place in 16 bits, nor 5 in the 2 bits of the constant 1.
        [40000, -12000, 3000, fixed(0.25, 17), fixed(0.125, 17)] + coefficients[:-1] + [5],
        # The result 1.8 has no place in Q17 with 18 bits.
        [32767, 32767, 32767, fixed(0.99, 17), fixed(-0.99, 17)] + coefficients,
    ]


# --- transform: the 8-point discrete cosine transform -----------------------------------


def transform_sheet():
    """The fast form with five multiplications. Output k is 2 cos(k pi / 16) times the sum of
    x[n] cos((2n + 1) k pi / 16), and output 0 the sum of x.

    Inputs have 12 bits. The sums are sized for data from -1024 to 1016, pixels less 128 in eighths.
    There is no subtraction: `minus` is an input that holds -1, and a multiplication by it negates.
    """
    s = Sheet(40)
    x = [s.input(12) for _ in range(8)]
    minus = s.input(2)
    c4 = s.input(11)  # cos(4 pi / 16), Q10
    c6 = s.input(11)  # cos(6 pi / 16), Q11
    low = s.input(12)  # cos(2 pi / 16) - cos(6 pi / 16), Q11
    high = s.input(12)  # cos(2 pi / 16) + cos(6 pi / 16), Q10

    def negated(p, a):
        return s.multiply(p, 2, a, minus)

    sums = [s.add(12, x[i], x[7 - i]) for i in range(4)]
    differences = [s.add(12, x[i], negated(12, x[7 - i])) for i in range(4)]

    # even outputs
    e0 = s.add(13, sums[0], sums[3])
    e1 = s.add(13, sums[1], sums[2])
    e2 = s.add(13, sums[1], negated(12, sums[2]))
    e3 = s.add(13, sums[0], negated(12, sums[3]))
    f0 = s.add(14, e0, e1)
    f4 = s.add(14, e0, negated(13, e1))
    z1 = (s.multiply(14, 11, s.add(14, e2, e3), c4), 10)
    f2 = s.add(15, e3, z1)
    f6 = s.add(15, e3, negated(14, z1))

    # odd outputs
    o0 = s.add(13, differences[3], differences[2])
    o1 = s.add(13, differences[2], differences[1])
    o2 = s.add(13, differences[1], differences[0])
    z5 = (s.multiply(14, 11, s.add(14, o0, negated(13, o2)), c6), 11)
    z2 = s.add(14, (s.multiply(13, 12, o0, low), 11), z5)
    z4 = s.add(15, (s.multiply(13, 12, o2, high), 10), z5)
    z3 = (s.multiply(13, 11, o1, c4), 10)
    g0 = s.add(14, differences[0], z3)
    g1 = s.add(14, differences[0], negated(13, z3))
    f5 = s.add(15, g1, z2)
    f3 = s.add(15, g1, negated(14, z2))
    f1 = s.add(15, g0, z4)
    f7 = s.add(15, g0, negated(15, z4))
    return s.finish([f0, f1, f2, f3, f4, f5, f6, f7])


def transform_frames():
    def c(k):
        return math.cos(k * math.pi / 16)

    constants = [-1, fixed(c(4), 10), fixed(c(6), 11), fixed(c(2) - c(6), 11), fixed(c(2) + c(6), 10)]
    pixels = [52, 55, 61, 66, 70, 61, 64, 73]
    return [
        [8 * (p - 128) for p in pixels] + constants,
        # only the ends of the range
        [1016, -1024, -1024, 1016, 1016, -1024, 1016, -1024] + constants,
        # All 12 bits: the first sums wrap round. And 5000 and -3000 have no place in 12 bits, nor 7 in 2: all three are cut.
        [5000, -3000, 2047, 2047, 2047, 2047, 2047, -2048, 7] + constants[1:],
    ]


# --- nine: y = b (x0 + x1) + c y1, in nine operations -----------------------------------


def nine_sheet():
    """The first-order low-pass, written as (b - 1) (x0 + x1) and a rest that its results share, c y1 + (x0 + x1).

    Data x in Q23 (24 bits), the earlier result y1 in Q16 (19 bits). b - 1 is a product g k and c a product c1 c2:
    g in Q31, k in Q15 and again in Q11, c1 in Q12, c2 in Q16. `fine` is the result once more, in Q20 with 25 bits.
    Where `rest` wraps round, `y` wraps back as long as the result lies from -4 to 4; `fine` does not.

    Operations stand in the order in which a plan of 18 steps starts them.
    """
    s = Sheet(18)
    x0, x1 = s.input(24), s.input(24)
    y1 = s.input(19)
    g = s.input(33)
    k, k_short = s.input(16), s.input(12)
    c1, c2 = s.input(13), s.input(17)

    both = s.add(25, x0, x1)
    back = s.multiply(19, 13, y1, c1)  # Q28
    driven = s.multiply(33, 21, g, (both, 4))  # Q50
    fed = s.multiply(17, 17, (back, 14), c2)  # Q30
    coarse_part = s.multiply(22, 16, (driven, 32), k)  # Q33
    fine_part = s.multiply(40, 12, (driven, 14), k_short)  # Q47
    rest = s.add(23, (fed, 10), (both, 3))  # Q20
    fine = s.add(25, (fine_part, 27), rest)
    y = s.add(19, (coarse_part, 17), (rest, 4))  # Q16
    return s.finish([y, fine, rest])


def nine_frames():
    """The first-order Butterworth low-pass whose corner is a tenth of the sampling rate."""
    corner = math.tan(math.pi / 10)
    b, c = corner / (1 + corner), (1 - corner) / (1 + corner)
    coefficients = [fixed((b - 1) / 0.75, 31), fixed(0.75, 15), fixed(0.75, 11), fixed(0.75, 12), fixed(c / 0.75, 16)]

    n = 32
    x = [0.6 * math.sin(2 * math.pi * 0.03 * t) + 0.2 * math.sin(2 * math.pi * 0.35 * t) for t in range(n)]
    y = [0.0] * n
    for t in range(1, n):
        y[t] = b * (x[t] + x[t - 1]) + c * y[t - 1]

    def at(t):
        return [fixed(x[t], 23), fixed(x[t - 1], 23), fixed(y[t - 1], 16)] + coefficients

    top = 2**23 - 1
    return [
        at(9),
        at(25),
        # The largest x0 and x1, one of them with a bit too many, and the largest y1: `rest` passes 4 and wraps round.
        [2**24 + top, top, 2**18 - 1] + coefficients,
    ]


def write(folder, name, sheet, frames):
    with open(os.path.join(folder, name + ".sheet"), "wb") as f:
        f.write(sheet)
    with open(os.path.join(folder, name + ".samples"), "w", newline="\n") as f:
        for frame in frames:
            f.write(" ".join(str(v) for v in frame) + "\n")


def main():
    folder, planning = sys.argv[1:3]
    write(folder, "biquad", biquad_sheet(), biquad_frames())
    write(folder, "transform", transform_sheet(), transform_frames())
    write(planning, "nine", nine_sheet(), nine_frames())


if __name__ == "__main__":
    main()
