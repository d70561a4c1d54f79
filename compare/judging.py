"""Judges plans as document 01 and #102 say, in the plainest form: makes moves until none is left, and works the times out along them.

`shown` is what our judge program prints of a sheet and a plan; programs.py compares it with that.
"""
import plans
import sheets


def left_at(cart, zone):
    """The position at which a cart with this route has left a zone."""
    return [step[0] for step in cart['route']].index(zone) + 2


def ahead_of(lists, zone, number):
    return lists[zone][:lists[zone].index(number)]


def fronts_of(carts, number):
    """The next lower-numbered cart of a cart's lane, or nothing."""
    return [other for other in range(number) if carts[other]['lane'] == carts[number]['lane']][-1:]


def holding_lane(carts, at, number):
    """The front cart while it keeps this one behind the stop line, or nothing."""
    return [front for front in fronts_of(carts, number) if at[number] == 0 and at[front] == 0]


def may_move(carts, lists, at, number):
    route = carts[number]['route']
    if at[number] == len(route):
        return True
    if at[number] > len(route) or holding_lane(carts, at, number):
        return False
    zone = route[at[number]][0]
    return all(left_at(carts[other], zone) <= at[other] for other in ahead_of(lists, zone, number))


def moves_of(carts, lists):
    """The moves made until none is left, as the carts that make them, and where the carts then are."""
    at = [0] * len(carts)
    moves = []
    while True:
        ready = [number for number in range(len(carts)) if may_move(carts, lists, at, number)]
        if not ready:
            return moves, at
        moves.append(ready[-1])
        at[ready[-1]] += 1


def leaving(carts, entered, number, step):
    _, passing, travel = carts[number]['route'][step]
    if step + 1 == len(carts[number]['route']):
        return entered[number, step] + passing
    return entered[number, step + 1] - travel


def entering(gaps, carts, lists, entered, number, step):
    cart = carts[number]
    zone = cart['route'][step][0]
    if step == 0:
        times = [cart['arrival']] + [entered[front, 0] for front in fronts_of(carts, number)]
    else:
        _, passing, travel = cart['route'][step - 1]
        times = [entered[number, step - 1] + passing + travel]
    for other in ahead_of(lists, zone, number):
        gap = gaps[zone][0] if carts[other]['lane'] == cart['lane'] else gaps[zone][1]
        times.append(leaving(carts, entered, other, left_at(carts[other], zone) - 2) + gap)
    return max(times)


def times_of(gaps, carts, lists, moves):
    """The entering time of each step, worked out in the order of the moves."""
    entered, at = {}, [0] * len(carts)
    for number in moves:
        if at[number] < len(carts[number]['route']):
            entered[number, at[number]] = entering(gaps, carts, lists, entered, number, at[number])
        at[number] += 1
    return entered


def ring_of(carts, lists, at):
    """The repeating carts, begun at the lowest, each with the zone that it waits for."""
    stuck = [number for number, cart in enumerate(carts) if at[number] <= len(cart['route'])]

    def wanted(number):
        return carts[number]['route'][at[number]][0]

    def points_to(number):
        listed = [other for other in lists[wanted(number)] if at[other] < left_at(carts[other], wanted(number))]
        return (holding_lane(carts, at, number) + listed)[0]

    met = [stuck[0]]
    while points_to(met[-1]) not in met:
        met.append(points_to(met[-1]))
    ring = met[met.index(points_to(met[-1])):]
    first = ring.index(min(ring))
    return [(number, wanted(number)) for number in ring[first:] + ring[:first]]


def shown_locked(ring):
    return [sheets.Refused(22, 0).line()] + [
        'cart %d waits at zone %d for cart %d' % (number, zone, ring[(place + 1) % len(ring)][0])
        for place, (number, zone) in enumerate(ring)]


def shown_accepted(carts, entered, moves):
    steps = [(number, step) for number, cart in enumerate(carts) for step in range(len(cart['route']))]
    leavings = [leaving(carts, entered, *place) for place in steps]
    return ['ok moves %d finish %d' % (len(moves), max(leavings, default=0))] + [
        'cart %d zone %d enter %d leave %d' % (number, carts[number]['route'][step][0], entered[number, step], left)
        for (number, step), left in zip(steps, leavings)]


def shown(sheet, plan):
    """What our judge prints of a sheet and a plan, as a list of lines."""
    refusal, carts, lists = plans.read(sheet, plan)
    if refusal:
        return [refusal.line()]
    gaps, _ = sheets.read_all(sheet)
    moves, at = moves_of(carts, lists)
    if any(at[cart] <= len(carts[cart]['route']) for cart in range(len(carts))):
        return shown_locked(ring_of(carts, lists, at))
    return shown_accepted(carts, times_of(gaps, carts, lists, moves), moves)


def parted(given):
    """The sheet and the plan that the judge program takes its input for."""
    if len(given) < 3 or len(given) < int.from_bytes(given[1:3], 'big'):
        return given, b''
    length = int.from_bytes(given[1:3], 'big')
    return given[:length], given[length:]


def printed(given):
    """What the judge program prints for these bytes on standard input."""
    return '\n'.join(shown(*parted(given[:2048]))) + '\n'
