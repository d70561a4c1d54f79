"""Says why a cart does not move, as #105 says, in the plainest form: follows whoever holds it down to a cart that may move. Makes random questions.

`printed` is what our program why_main prints for a sheet, a plan, a record and a cart; programs.py compares it with that.
"""
import random

import judging
import planning
import plans
import sheets
from judging import fronts_of, holding_lane, left_at, may_move
from sheets import Refused

SHORT = 'oblakosh: why_main takes a sheet, a plan, and 21 bytes of record and cart\n'


def is_reached(carts, lists, positions, made):
    """Whether a run reaches a record: every move made into a zone comes after the leavings that it waits for, every lane is left in order."""
    at = positions[:len(carts)]
    if any(positions[len(carts):]) or made != sum(at) or any(at[i] > len(cart['route']) + 1 for i, cart in enumerate(carts)):
        return False
    for number, cart in enumerate(carts):
        if any(at[number] > 0 and at[front] == 0 for front in fronts_of(carts, number)):
            return False
        for zone, _, _ in cart['route'][:at[number]]:
            if any(at[other] < left_at(carts[other], zone) for other in judging.ahead_of(lists, zone, number)):
                return False
    return True


def holder_of(carts, lists, at, number):
    """Who holds a cart that may not move: on the lane the front cart, else the first of the wanted zone's list that has not left it."""
    zone = carts[number]['route'][at[number]][0]
    return (holding_lane(carts, at, number) + [other for other in lists[zone] if at[other] < left_at(carts[other], zone)])[0]


def chain_of(sheet, plan, positions, made, number):
    """The carts of the chain, and the carts' routes and positions; or a refusal with 1 to 25."""
    carts, lists = plans.read_all(sheet, plan)
    _, end = judging.moves_of(carts, lists)
    if any(end[i] <= len(cart['route']) for i, cart in enumerate(carts)):
        raise Refused(22, 0)
    if not is_reached(carts, lists, positions, made):
        raise Refused(23, 0)
    if len(carts) <= number:
        raise Refused(24, 0)
    if positions[number] > len(carts[number]['route']):
        raise Refused(25, 0)
    chain = [number]
    while not may_move(carts, lists, positions, chain[-1]):
        chain.append(holder_of(carts, lists, positions, chain[-1]))
    return chain, [cart['route'] for cart in carts], positions


def shown(*asked):
    """What our program prints of a question, as a list of lines."""
    try:
        chain, routes, at = chain_of(*asked)
    except Refused as refusal:
        return [refusal.line()]
    wanted = [routes[cart][at[cart]][0] if at[cart] < len(routes[cart]) else None for cart in chain]
    lines = ['cart %d waits at zone %d for cart %d' % waits for waits in zip(chain, wanted, chain[1:])]
    last = 'out' if wanted[-1] is None else 'into zone %d' % wanted[-1]
    return lines + ['cart %d may move %s' % (chain[-1], last)]


def printed(given):
    """What our program prints for these bytes on standard input, on standard output and on standard error."""
    given = given[:2048]
    if len(given) < 21:
        return '', SHORT
    before, record = given[:-21], given[-21:]
    lines = shown(*judging.parted(before), list(record[:16]), int.from_bytes(record[16:20], 'big'), record[20])
    return '\n'.join(lines) + '\n', ''


# Questions to write: a sheet, a plan, and the record of a random run, which may then be spoilt.

def written(sheet, plan, positions, made, cart):
    return sheet + plan + bytes(positions) + made.to_bytes(4, 'big') + bytes([cart])


def run(rng, carts, lists):
    """The positions that a random run reaches, of all sixteen carts."""
    at = [0] * len(carts)
    for _ in range(rng.randint(0, sum(len(cart['route']) + 1 for cart in carts))):
        ready = [number for number in range(len(carts)) if may_move(carts, lists, at, number)]
        if not ready:
            break
        at[rng.choice(ready)] += 1
    return at + [0] * (16 - len(at))


def spoilt(rng, positions, made):
    """The record with another position, another count, or both."""
    positions, place = list(positions), rng.randrange(16)
    kind = rng.randrange(4)
    if kind < 3:
        positions[place] = rng.choice([(positions[place] + 1) % 256, (positions[place] - 1) % 256, 0, 9, 255])
    if kind == 0:
        made = sum(positions)
    if kind == 3:
        made = rng.choice([made + 1, abs(made - 1), made + 256, made + 65536, 0, 2 ** 32 - 1])
    return positions, made


def a_question(rng):
    """A sheet that document 01 takes with a plan by arrival, or with any; a record of a run or a spoilt one; any cart."""
    gaps, carts = sheets.a_sheet(rng)
    sheet = plans.sheet_of(gaps, carts)
    _, _, read = sheets.read(sheet)
    lists = planning.Crossing(gaps, read).by_arrival() if rng.randrange(4) else plans.lists_for(rng, gaps, carts)
    at = run(rng, read, lists)
    positions, made = spoilt(rng, at, sum(at)) if rng.randrange(4) == 0 else (at, sum(at))
    return sheet, plans.written(lists), positions, made, rng.choice([rng.randrange(16), rng.randrange(max(1, len(carts))), 255])


def a_line(rng, length):
    """A chain of so many carts, asked about at its begin. Cart i stands in zone i and wants the next zone, in which cart i + 1 stands; or
    it is behind cart i + 1 on the lane. The carts are numbered from the chain's end, so that a lower number is in front."""
    on_lane = [rng.randrange(3) == 0 for _ in range(length - 1)] + [False]
    held_on_lane = [a or b for a, b in zip(on_lane, [False] + on_lane)]
    carts, at, lists, lane = [], [], [[] for _ in range(length + 1)], 0
    for i in range(length):
        lane += not (i and on_lane[i - 1])
        zones = [i, i + 1] if not held_on_lane[i] else [i + 1, i] if not on_lane[i] and i + 1 < length else [i]
        carts.insert(0, [lane % 16, 0, [[zone, 1000, 0] for zone in zones]])
        at.insert(0, 0 if held_on_lane[i] else 1)
        for zone in zones:
            lists[zone].insert(0, length - 1 - i)
    return plans.sheet_of([(0, 0)] * (length + 1), carts), plans.written(lists), at + [0] * (16 - length), sum(at), length - 1


def random_questions():
    """What the program takes on standard input."""
    rng = random.Random(105)
    for _ in range(1500):
        yield written(*a_question(rng))
    for length in [*range(1, 17)] * 10:
        sheet, plan, *asked, last = a_line(rng, length)
        yield from (written(sheet, plan, *asked, cart) for cart in rng.sample(range(length), min(length, 3)) + [last])
    for count, make in plans.KINDS:
        for _ in range(count // 50):
            gaps, carts = sheets.a_sheet(rng)
            sheet, plan = make(rng, gaps, carts, plans.lists_for(rng, gaps, carts))
            yield written(sheet, plan, [0] * 16, 0, rng.randrange(16))
    for count, make in sheets.KINDS:
        for _ in range(count // 50):
            yield written(make(rng, *sheets.a_sheet(rng)), b'', [0] * 16, 0, 0)
