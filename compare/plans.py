"""Reads plans, lists their zones and writes them again as document 01 says, in the plainest form, and makes random ones.

`shown` is what our program prints of a plan for a sheet; programs.py compares it with that.
"""
import random

import sheets
from sheets import Fields, Refused, cut, extend, right_length, spoil_byte, spoil_field, with_length


def read_list(fields, visitors):
    count = fields.take_within(1, len(visitors), len(visitors), 19)
    passing = []
    for _ in range(count):
        cart = fields.take(1)
        if cart not in visitors or cart in passing:
            raise fields.refused(19)
        passing.append(cart)
    return passing


def visitors_of(zone, carts):
    return [number for number, cart in enumerate(carts) if zone in [step[0] for step in cart['route']]]


def check_lanes(lists, carts):
    place = 4
    for passing in lists:
        place += 1
        for index, cart in enumerate(passing):
            for ahead in passing[:index]:
                if cart < ahead and carts[ahead]['lane'] == carts[cart]['lane']:
                    raise Refused(21, place + index)
        place += len(passing)


def read_all(sheet, plan):
    gaps, carts = sheets.read_all(sheet)
    fields = Fields(plan, 15)
    fields.take_within(1, 1, 1, 16)
    fields.take_within(2, len(plan), len(plan), 17)
    fields.take_within(1, len(gaps), len(gaps), 18)
    lists = [read_list(fields, visitors_of(zone, carts)) for zone in range(len(gaps))]
    if fields.next < len(plan):
        raise Refused(20, fields.next)
    check_lanes(lists, carts)
    return carts, lists


def read(sheet, plan):
    """The refusal, or None, and the values: the carts and the list of each zone, both empty on refusal."""
    try:
        return None, *read_all(sheet, plan)
    except Refused as refusal:
        return refusal, [], []


def written(lists):
    """The plan with these lists."""
    return with_length(bytes([len(lists)]) + b''.join(bytes([len(passing)] + passing) for passing in lists))


def list_of(reading, zone):
    """The list operation on a plan with what reading it gave: the refusal, or None, and the zone's list."""
    refusal, _, lists = reading
    if refusal:
        return refusal, []
    if len(lists) <= zone:
        return Refused(27, 0), []
    return None, lists[zone]


def write_again(reading, room):
    """Writing a plan again, with what reading it gave: the refusal, or None, the length, and what the room then holds."""
    refusal, _, lists = reading
    if refusal:
        return refusal, 0, room
    plan = written(lists)
    if len(room) < len(plan):
        return Refused(28, 0), 0, room
    return None, len(plan), plan + room[len(plan):]


def numbers(values):
    return ''.join(' %d' % value for value in values)


def shown_reading(reading):
    refusal, carts, lists = reading
    if refusal:
        return [refusal.line()]
    lines = ['ok zones %d' % len(lists)]
    for number, cart in enumerate(carts):
        for step, (zone, _, _) in enumerate(cart['route']):
            ahead = lists[zone][:lists[zone].index(number)]
            lines.append('cart %d step %d zone %d ahead%s' % (number, step, zone, numbers(sorted(ahead))))
    return lines


def shown_list(reading, zone):
    refusal, passing = list_of(reading, zone)
    if refusal:
        return 'zone %d refused %d at %d length %d' % (zone, refusal.number, refusal.place, len(passing))
    return 'zone %d list%s' % (zone, numbers(passing))


def shown_room(reading, size):
    refusal, length, room = write_again(reading, b'\xEE' * size)
    said = 'refused %d at %d length' % (refusal.number, refusal.place) if refusal else 'written'
    return 'room %d %s %d holds%s' % (size, said, length, ''.join(' %02x' % byte for byte in room))


def shown(sheet, plan):
    """What our program prints of a plan for a sheet, as a list of lines: zone 0 alone is listed of a plan that is refused."""
    reading = read(sheet, plan)
    _, _, lists = reading
    size = min(len(plan), 300)
    sizes = [size - 1, size, size + 2] if size else [size, size + 2]
    return (shown_reading(reading)
            + [shown_list(reading, zone) for zone in range(len(lists) + 1)]
            + [shown_room(reading, size) for size in sizes])


# Plans to write. The carts are those of sheets.a_sheet: lane, arrival and route.

def a_list(rng, zone, carts):
    """The carts that visit a zone, in any order that document 01 takes: the lanes in turn as they come, each by number."""
    left = [number for number, (_, _, route) in enumerate(carts) if zone in [step[0] for step in route]]
    lanes = [carts[number][0] for number in left]
    rng.shuffle(lanes)
    passing = []
    for lane in lanes:
        passing.append(next(number for number in left if carts[number][0] == lane))
        left.remove(passing[-1])
    return passing


def lists_for(rng, gaps, carts):
    return [a_list(rng, zone, carts) for zone in range(len(gaps))]


def with_carts(lists, least):
    """The lists with so many carts or more; all where there is none."""
    return [passing for passing in lists if least <= len(passing)] or lists


def permute_list(rng, lists):
    rng.shuffle(rng.choice(with_carts(lists, 2)))
    return lists


def exchange(one, i, other, j):
    one[i], other[j] = other[j], one[i]


def exchange_carts(rng, lists):
    """The lists with a cart of one zone and a cart of another exchanged."""
    filled = [passing for passing in lists if passing]
    if 2 <= len(filled):
        one, other = rng.sample(filled, 2)
        exchange(one, rng.randrange(len(one)), other, rng.randrange(len(other)))
    return lists


def break_lane(rng, carts, lists):
    """The lists with two carts of one lane exchanged in one of them."""
    pairs = [(passing, i, j) for passing in lists for j in range(len(passing)) for i in range(j)
             if carts[passing[i]][0] == carts[passing[j]][0]]
    if pairs:
        passing, i, j = rng.choice(pairs)
        exchange(passing, i, passing, j)
    return lists


def spoil_cart(rng, lists):
    """The lists with another cart in one place: near a bound, one of the same list, or any."""
    passing = rng.choice(with_carts(lists, 1))
    if passing:
        place = rng.randrange(len(passing))
        passing[place] = rng.choice([15, 16, 255, (passing[place] + 1) % 16, passing[place] + 16, rng.choice(passing), rng.randrange(16)])
    return lists


def change_count(rng, lists):
    """The lists with a cart more or fewer in one of them."""
    passing = rng.choice(lists)
    if passing and rng.randrange(2):
        passing.pop()
    else:
        passing.append(rng.randrange(16))
    return lists


def change_zones(rng, lists):
    """The lists with one more or fewer."""
    return rng.choice([lists + [[]], lists[:-1], lists[1:]])


def sheet_of(gaps, carts):
    return sheets.written(sheets.fields_of(gaps, carts))


def spoilt_sheet(rng, gaps, carts):
    return sheets.written(spoil_field(rng, sheets.fields_of(gaps, carts)))


# How many random plans of each kind: the sheet and the plan, made of the gaps g and the carts c of a sheet that document 01 takes,
# and of lists l that it takes for them.
KINDS = [
    (5000, lambda r, g, c, l: (sheet_of(g, c), written(l))),
    (2000, lambda r, g, c, l: (sheet_of(g, c), spoil_byte(r, written(l)))),
    (1000, lambda r, g, c, l: (sheet_of(g, c), spoil_byte(r, spoil_byte(r, written(l))))),
    (500, lambda r, g, c, l: (sheet_of(g, c), cut(r, written(l)))),
    (1500, lambda r, g, c, l: (sheet_of(g, c), right_length(cut(r, written(l))))),
    (500, lambda r, g, c, l: (sheet_of(g, c), right_length(cut(r, written(spoil_cart(r, l)))))),
    (500, lambda r, g, c, l: (sheet_of(g, c), extend(r, written(l)))),
    (1000, lambda r, g, c, l: (sheet_of(g, c), right_length(extend(r, written(l))))),
    (500, lambda r, g, c, l: (sheet_of(g, c), right_length(extend(r, written(break_lane(r, c, l)))))),
    (2000, lambda r, g, c, l: (sheet_of(g, c), written(permute_list(r, l)))),
    (2000, lambda r, g, c, l: (sheet_of(g, c), written(break_lane(r, c, l)))),
    (500, lambda r, g, c, l: (sheet_of(g, c), written(spoil_cart(r, break_lane(r, c, l))))),
    (1500, lambda r, g, c, l: (sheet_of(g, c), written(exchange_carts(r, l)))),
    (1500, lambda r, g, c, l: (sheet_of(g, c), written(spoil_cart(r, l)))),
    (1000, lambda r, g, c, l: (sheet_of(g, c), written(change_count(r, l)))),
    (500, lambda r, g, c, l: (sheet_of(g, c), written(change_zones(r, l)))),
    (500, lambda r, g, c, l: (sheet_of(g, c), with_length(bytes([len(g)]) + r.randbytes(r.randint(0, 40))))),
    (500, lambda r, g, c, l: (spoil_byte(r, sheet_of(g, c)), written(l))),
    (1500, lambda r, g, c, l: (spoilt_sheet(r, g, c), written(l))),
    (500, lambda r, g, c, l: (spoilt_sheet(r, g, c), spoil_byte(r, written(l)))),
    (300, lambda r, g, c, l: (sheet_of(g, sheets.exchange_arrivals(r, c)), written(break_lane(r, c, l)))),
    (200, lambda r, g, c, l: (extend(r, sheet_of(g, c)), extend(r, written(l)))),
    (200, lambda r, g, c, l: (right_length(extend(r, sheet_of(g, c))), cut(r, written(l)))),
    (300, lambda r, g, c, l: (right_length(cut(r, sheet_of(g, c))), written(l))),
]


def long_plans():
    """Lengths at the end of the length field's range, where a length that wraps would be taken for another."""
    sheet, plan = sheet_of([(0, 0)], []), written([[]])
    for length in [65535, 65536, 65536 + len(plan), 70000]:
        for said in [length % 65536, 65535]:
            yield sheet, b'\x01' + said.to_bytes(2, 'big') + plan[3:] + bytes(length - len(plan))


def random_plans():
    rng = random.Random(2)
    for count, make in KINDS:
        for _ in range(count):
            gaps, carts = sheets.a_sheet(rng)
            yield make(rng, gaps, carts, lists_for(rng, gaps, carts))
    yield from long_plans()
