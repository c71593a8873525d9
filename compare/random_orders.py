"""Holds the order program against a calculation of its own on orders that are drawn at random, always the same ones.

Usage: python3 compare/random_orders.py crates/order/out/order

Sheets are small and mostly faultless, units and steps are few, so that calls are taken and refused for every cause.
Every other order comes in one packet, of which nothing may be lost.
It fails at the first order on which the two differ, and if some cause was never met.
"""

import os
import random
import subprocess
import sys

import orders

ORDERS = 400


def random_sheet(rng):
    inputs = rng.randint(1, 3)
    operations = rng.randint(1, 8)
    sheet = [0x10, rng.randint(4, 20)]
    for _ in range(inputs):
        sheet += [0x11, rng.randint(1, 12)]
    for o in range(operations):
        sources = [rng.choice([rng.randrange(inputs), 64 + rng.randrange(max(o, 1))]) if o else 0 for _ in range(2)]
        p = rng.randint(1, 12)
        sides = [0x12, p] if rng.random() < 0.6 else [0x13, p, rng.randint(1, p)]
        sheet += sides + [sources[0], rng.randint(0, 3), sources[1], 0]
    for _ in range(rng.randint(1, 2)):
        sheet += [0x14, 64 + rng.randrange(operations)]
    sheet.append(0x1F)
    if rng.random() < 0.03:
        sheet[rng.randrange(len(sheet))] = rng.randrange(256)
    return bytes(sheet), operations


def random_request(rng, operations):
    kind = rng.choice([0, 0, 1, 1, 2, 2, 2, 3]) if rng.random() < 0.2 else rng.randrange(3)
    number = rng.choice([0, 1, 2, 63, 64]) if rng.random() < 0.1 else rng.randrange(3)
    draw = rng.random()
    if draw < 0.3:
        w = rng.choice([0, 1, 6, 12, 24, 40, 41, 64, 65])
        v = rng.randint(1, 13) if kind == 1 else 0
        return [0x20, kind, number, w, rng.choice([v, v, v, 0, 25])]
    if draw < 0.36:
        return [0x21, kind, number]
    if draw < 0.86:
        return [0x22, rng.randrange(operations + 1), number, rng.randrange(20), rng.randrange(4)]
    if draw < 0.96:
        return [0x23, rng.randrange(operations + 1)]
    return [0x25] if draw < 0.998 else [rng.randrange(256)]


def random_order(rng):
    sheet, operations = random_sheet(rng)
    order = len(sheet).to_bytes(2, "big") + sheet
    for _ in range(rng.randint(0, 400)):
        order += bytes(random_request(rng, operations))
    return order[: rng.randrange(len(order))] if rng.random() < 0.05 else order


def answer(program, order, in_one_packet):
    source, sink = os.pipe2(os.O_DIRECT if in_one_packet else 0)
    os.write(sink, order)
    os.close(sink)
    with open(source, "rb") as source:
        answered = subprocess.run([program], stdin=source, capture_output=True, check=True)
    return answered.stdout.decode().splitlines()


def main():
    rng = random.Random(1)
    met = set()
    for n in range(ORDERS):
        order = random_order(rng)
        expected = list(orders.lines(order))
        if answer(sys.argv[1], order, n % 2 == 1) != expected:
            sys.exit(f"order {n} is answered otherwise: {order.hex(' ')}")
        met.update(line.split()[1] if line.startswith("refused") else line.split()[0] for line in expected)
    missing = {"ok", "charge", "1", "2", *map(str, range(8, 17))} - met
    if missing:
        sys.exit(f"never met: {' '.join(sorted(missing))}")


if __name__ == "__main__":
    main()
