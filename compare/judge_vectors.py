#!/usr/bin/env python3
"""Writes crates/vectors/data/verdicts.txt: plans to be judged, at the edges of what a crossing can be. Above each: what judging it gives, and why."""
import plans
import sheets

OUT = 'crates/vectors/data/verdicts.txt'

# A cart is its lane, its arrival and its route; a step is its zone, its passing and its travel time.


def case(gaps, carts, lists):
    sheet = sheets.written(sheets.fields_of(gaps, carts))
    return '%s | %s' % (sheet.hex(), plans.written(lists).hex())


def route(zones, passing=1000, travel=100):
    return [(zone, passing, travel if place + 1 < len(zones) else 0) for place, zone in enumerate(zones)]


def circle(size):
    """Carts in a circle: cart i goes from zone i to the next, which the cart after it holds and is to leave first."""
    carts = [(i, 0, route([i, (i + 1) % size])) for i in range(size)]
    return [(0, 0)] * size, carts, [[zone, (zone - 1) % size] for zone in range(size)]


def turned(size):
    """The same with one cart let through the last zone first: nobody waits in a circle."""
    gaps, carts, lists = circle(size)
    lists[0].reverse()
    return gaps, carts, lists


def crowd():
    """16 carts of 8 steps over 24 zones, by number everywhere."""
    carts = [(i % 5, 1000 * i, route([(7 * i + 5 * j) % 24 for j in range(8)], 500 + 10 * i, 40 * (i % 3))) for i in range(16)]
    return [(100 + z, 300 + z) for z in range(24)], carts, by_number(24, carts)


def by_number(zones, carts):
    return [[i for i, (_, _, way) in enumerate(carts) if zone in [step[0] for step in way]] for zone in range(zones)]


def late():
    """Every time as large as it may be, and each cart begins where the one before it ends: the finish that is never passed."""
    carts = [(i, 3600000, route([(7 * i + j) % 24 for j in range(8)], 60000, 60000)) for i in range(16)]
    return [(60000, 60000)] * 24, carts, by_number(24, carts)


def one_zone(times):
    passing, gap = times
    carts = [(i, 0, route([0], passing)) for i in range(3)]
    return [(gap, gap)], carts, [[2, 0, 1]]


def one_lane(routes, *others):
    """Carts of lane 0 with these routes over three zones, and others of lane 1."""
    carts = [(lane, 0, route(zones)) for lane, ways in enumerate([routes, others]) for zones in ways]
    return [(100, 300)] * 3, carts


CASES = [
    ('done', 'no carts: 0 moves, finish 0', ([(0, 0)], [], [[]])),
    ('done', 'one cart of one step', ([(5, 7)], [(3, 40, route([0], 9))], [[0]])),
    ('done', 'three carts of one step in one zone', one_zone((1000, 300))),
    ('done', 'gaps and times of 0: all enter at once, one after the other', one_zone((0, 0))),
    ('done', 'a cart waits in its zone for the next: it leaves when it enters there',
        ([(0, 0)] * 3, [(0, 0, route([0, 1], 1000, 0)), (1, 0, route([1, 2], 9000, 0)), (2, 0, route([0], 10))], [[0, 2], [1, 0], [1]])),
    ('22 at 0', 'a ring of 2', circle(2)),
    ('22 at 0', 'a ring of 3', circle(3)),
    ('22 at 0', 'a ring of 16', circle(16)),
    ('done', '16 carts, and no ring', turned(16)),
    ('22 at 0', 'a ring of 2 above the lowest cart that is stuck',
        ([(0, 0)] * 3, [(0, 0, route([0])), (1, 0, route([1, 2])), (2, 0, route([2, 1, 0]))], [[2, 0], [1, 2], [2, 1]])),
    ('done', '16 carts of 8 steps over 24 zones', crowd()),
    ('done', 'all times as large as they may be: finish 18,900,000', late()),
    ('done', 'three on a lane, no zone in common: the stop line lets them enter at once, and no gap is kept', (*one_lane([[0], [1], [2]]), [[0], [1], [2]])),
    ('done', 'the first of a lane waits for its zone, and the two behind it at the stop line', (*one_lane([[0], [1], [2]], [0]), [[3, 0], [1], [2]])),
    ('22 at 0', 'locked by the stop line alone: a ring over the lane', (*one_lane([[0], [1]], [1, 0]), [[2, 0], [1, 2], []])),
    ('22 at 0', 'a ring back along a lane of three', (*one_lane([[0], [1], [2]], [2, 0]), [[3, 0], [1], [2, 3]])),
    ('22 at 0', 'cart 1 is held by the lane and in its zone: it points to the front cart', (*one_lane([[0], [1, 2]], [2, 0], [1]), [[2, 0], [3, 1], [1, 2]])),
    ('done', 'the same carts, and no ring: cart 3 waits at the stop line for cart 2', (*one_lane([[0], [1, 2]], [2, 0], [1]), [[0, 2], [1, 3], [1, 2]])),
]


def main():
    lines = ['# Plans to be judged, one a line after its sheet. Above each: what judging it gives, and why.', '# Written by compare/judge_vectors.py.']
    for number, why, parts in CASES:
        lines += ['', '# %s: %s' % (number, why), case(*parts)]
    with open(OUT, 'w') as file:
        file.write('\n'.join(lines) + '\n')


main()
