"""Prints what the program `planning` must print: a plan for nine.sheet.

Usage: python3 compare/plan.py folder, where the folder has nine.sheet.
"""

import os
import sys

from boards import ADDER, KINDS, MULTIPLIER, REGISTER, Board, Job, Refused

CALLS = [
    # the units, and registers that can be shared
    ("hire", ADDER, 0, 25, 0),
    ("hire", ADDER, 1, 19, 0),
    ("hire", MULTIPLIER, 0, 19, 17),
    ("hire", MULTIPLIER, 1, 33, 21),
    ("hire", MULTIPLIER, 2, 40, 12),
    ("hire", REGISTER, 0, 54, 0),
    ("hire", REGISTER, 1, 38, 0),
    ("hire", REGISTER, 2, 25, 0),
    # the longest chain first, which fills the 18 steps
    ("place", 0, 0, 0, 1),
    ("place", 2, 1, 2, 0),
    ("place", 5, 2, 9, 0),
    ("place", 7, 0, 16, 0),
    # its own width would take 5 steps and finish at 17, but the unit takes 7
    ("place", 4, 1, 12, 1),
    ("place", 4, 1, 9, 1),
    # operation 7 runs on the wide adder at the same steps
    ("place", 8, 0, 16, 1),
    ("place", 8, 1, 16, 1),
    ("place", 1, 0, 1, 1),
    ("place", 3, 0, 9, 1),
    # It reads operation 0, whose value then stays in register 1 through step 14, over those of 1 and 3.
    ("place", 6, 0, 14, 2),
    ("lift", 0),
    ("place", 6, 0, 14, 2),
    ("place", 0, 0, 0, 2),
]


def words(call):
    name, *operands = call
    if name == "hire":
        kind, number, w, v = operands
        return f"hire {KINDS[kind]} {number} of width {w}" + (f" x {v}" if kind == MULTIPLIER else "")
    if name == "dismiss":
        return f"dismiss {KINDS[operands[0]]} {operands[1]}"
    if name == "place":
        return "place operation {} on unit {} at step {} into register {}".format(*operands)
    return f"lift operation {operands[0]}"


def chart(board):
    """One row for each unit, one character for each step: the operation that runs, or whose value is alive."""
    steps = range(board.job.limit + 1)
    yield "step".ljust(13) + "".join(str(t % 10) for t in steps)
    for kind, number in sorted(board.hired):
        row = ["."] * len(steps)
        for o in board.on(kind, number):
            for t in board.life(o) if kind == REGISTER else board.run(o):
                row[t] = str(o)
        yield f"{KINDS[kind]} {number}".ljust(13) + "".join(row)


def lines(data):
    """The lines to be printed for the bytes of the sheet."""
    board = Board(Job(data))
    yield "plan for nine.sheet"
    for call in CALLS:
        try:
            getattr(board, call[0])(*call[1:])
            answer = "ok"
        except Refused as refusal:
            answer = str(refusal)
        yield f"  {words(call)}: {answer}"
    yield "  charge {} {}".format(*board.charge())
    yield f"  complete: {'yes' if board.complete() else 'no'}"
    for row in chart(board):
        yield f"  {row}"


def show(folder):
    with open(os.path.join(folder, "nine.sheet"), "rb") as f:
        data = f.read()
    for line in lines(data):
        print(line)


if __name__ == "__main__":
    show(sys.argv[1])
