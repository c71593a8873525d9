"""Prints the lines that answer an order, worked out from the rules of sheets, plans and orders alone.

Usage: python3 compare/orders.py file.hex, where the file has the order's bytes as pairs of hexadecimal digits.

Of an order the first 2,048 bytes count. It is a sheet's length in two bytes, high first, the sheet, and then requests,
each a byte and its operands, one byte each.
  20 hire     kind, number, w, v
  21 dismiss  kind, number
  22 place    operation, unit, start, register
  23 lift     operation
  25 charge
"""

import sys

import boards
import walkthrough

REQUESTS = {0x20: ("hire", 4), 0x21: ("dismiss", 2), 0x22: ("place", 4), 0x23: ("lift", 1), 0x25: ("charge", 0)}


def lines(order):
    order = order[:2048]
    length = int.from_bytes(order[:2], "big")
    if len(order) < 2 or len(order) < 2 + length:
        yield "refused 2 0"
        return
    sheet = order[2 : 2 + length]
    try:
        walkthrough.read_sheet(sheet)
    except walkthrough.Refused as refusal:
        yield str(refusal)
        return
    board = boards.Board(boards.Job(sheet))
    at = 2 + length
    while at < len(order):
        if order[at] not in REQUESTS:
            yield f"refused 1 {at}"
            return
        name, count = REQUESTS[order[at]]
        operands = order[at + 1 : at + 1 + count]
        if len(operands) < count:
            yield f"refused 2 {at}"
            return
        try:
            answer = getattr(board, name)(*operands)
            yield "charge {} {}".format(*answer) if name == "charge" else "ok"
        except boards.Refused as refusal:
            yield str(refusal)
        at += 1 + count


def main():
    with open(sys.argv[1]) as f:
        for line in lines(bytes.fromhex(f.read())):
            print(line)


if __name__ == "__main__":
    main()
