"""Reads crossing sheets as document 01 and #104 say, in the plainest form, and makes random ones.

`shown` is what our programs print of a sheet; programs.py compares them with it.
"""
import random


class Refused(Exception):
    """A number of document 01's table, the place, and #104's cart and step: 0 outside a cart's part and outside a step."""

    def __init__(self, number, place, cart=0, step=0):
        super().__init__(number, place, cart, step)
        self.number, self.place, self.cart, self.step = number, place, cart, step

    def line(self):
        """The first line that our programs print of it."""
        told = ' cart %d step %d' % (self.cart, self.step) if self.cart else ''
        return 'refused %d at %d' % (self.number, self.place) + told


class Fields:
    """The fields of a sheet or a plan in byte order. `place` is the first byte of the field taken last, `cart` and `step` tell its part."""

    def __init__(self, lent, number_of_cut):
        self.lent, self.number_of_cut, self.place, self.next, self.cart, self.step = lent, number_of_cut, 0, 0, 0, 0

    def refused(self, number):
        return Refused(number, self.place, self.cart, self.step)

    def take(self, width):
        self.place, self.next = self.next, self.next + width
        if len(self.lent) < self.next:
            raise self.refused(self.number_of_cut)
        return int.from_bytes(self.lent[self.place:self.next], 'big')

    def take_within(self, width, low, high, number):
        value = self.take(width)
        if not low <= value <= high:
            raise self.refused(number)
        return value


def read_step(fields, zone_count, earlier, is_last):
    zone = fields.take_within(1, 0, zone_count - 1, 10)
    if zone in [step[0] for step in earlier]:
        raise fields.refused(11)
    passing = fields.take_within(2, 0, 60000, 12)
    travel = fields.take_within(2, 0, 0 if is_last else 60000, 12)
    return zone, passing, travel


def read_cart(fields, zone_count, number):
    fields.cart, fields.step = number + 1, 0
    lane = fields.take_within(1, 0, 15, 7)
    arrival = fields.take_within(4, 0, 3600000, 8)
    place = fields.place
    step_count = fields.take_within(1, 1, 8, 9)
    route = []
    for step in range(step_count):
        fields.step = step + 1
        route.append(read_step(fields, zone_count, route, step == step_count - 1))
    return {'lane': lane, 'arrival': arrival, 'place': place, 'route': route}


def read_gaps(fields):
    follow = fields.take_within(2, 0, 60000, 5)
    cross = fields.take_within(2, 0, 60000, 5)
    return follow, cross


def check_arrivals(carts):
    for number, cart in enumerate(carts):
        for lower in carts[:number]:
            if lower['lane'] == cart['lane'] and cart['arrival'] < lower['arrival']:
                raise Refused(14, cart['place'], number + 1)


def read_all(sheet):
    fields = Fields(sheet, 1)
    fields.take_within(1, 1, 1, 2)
    fields.take_within(2, len(sheet), len(sheet), 3)
    zone_count = fields.take_within(1, 1, 24, 4)
    gaps = [read_gaps(fields) for _ in range(zone_count)]
    cart_count = fields.take_within(1, 0, 16, 6)
    carts = [read_cart(fields, zone_count, number) for number in range(cart_count)]
    if fields.next < len(sheet):
        raise Refused(13, fields.next)
    check_arrivals(carts)
    return gaps, carts


def read(sheet):
    """The refusal, or None, and the values: the gaps of each zone and the carts, both empty on refusal."""
    try:
        return None, *read_all(sheet)
    except Refused as refusal:
        return refusal, [], []


def shown(sheet):
    """What our programs print of a sheet, as a list of lines."""
    refusal, gaps, carts = read(sheet)
    if refusal:
        return [refusal.line()]
    lines = ['ok zones %d carts %d' % (len(gaps), len(carts))]
    for zone, gap in enumerate(gaps):
        lines.append('zone %d follow %d cross %d' % (zone, *gap))
    for number, cart in enumerate(carts):
        route = cart['route']
        lines.append('cart %d lane %d arrival %d steps %d' % (number, cart['lane'], cart['arrival'], len(route)))
        for step, values in enumerate(route):
            lines.append('cart %d step %d zone %d passing %d travel %d' % (number, step, *values))
    return lines


# Sheets to write: bytes from fields, so that one field or one byte can be spoilt.

def fields_of(gaps, carts):
    """The fields of a sheet after the length field, each a value and a width."""
    fields = [(len(gaps), 1)]
    for follow, cross in gaps:
        fields += [(follow, 2), (cross, 2)]
    fields.append((len(carts), 1))
    for lane, arrival, route in carts:
        fields += [(lane, 1), (arrival, 4), (len(route), 1)]
        for zone, passing, travel in route:
            fields += [(zone, 1), (passing, 2), (travel, 2)]
    return fields


def with_length(body):
    """Version and the length that fits, before the rest of a sheet."""
    return b'\x01' + (3 + len(body)).to_bytes(2, 'big') + body


def written(fields):
    return with_length(b''.join(value.to_bytes(width, 'big') for value, width in fields))


def a_number(rng, high):
    """A number up to high, where the ends are not rare."""
    end = rng.choice([0, 1, high - 1, high, None, None])
    return rng.randint(0, high) if end is None else end


def a_route(rng, zone_count, step_count):
    zones = rng.sample(range(zone_count), min(step_count, zone_count))
    route = [[zone, a_number(rng, 60000), a_number(rng, 60000)] for zone in zones]
    route[-1][2] = 0
    return route


def a_sheet(rng):
    """The gaps and the carts of a sheet that document 01 takes; one in twenty is the longest."""
    if rng.randrange(20) == 0:
        zone_count, cart_count, step_counts = 24, 16, [8]
    else:
        zone_count = rng.choice([1, 2, 24, rng.randint(1, 24), rng.randint(1, 24)])
        cart_count = rng.choice([0, 1, 2, 16, rng.randint(0, 16), rng.randint(0, 16)])
        step_counts = range(1, 9)
    gaps = [(a_number(rng, 60000), a_number(rng, 60000)) for _ in range(zone_count)]
    latest = rng.choice([3, 3600000])
    carts = [[rng.randint(0, rng.choice([1, 15])), a_number(rng, latest), a_route(rng, zone_count, rng.choice(step_counts))]
             for _ in range(cart_count)]
    for lane in range(16):
        own = [cart for cart in carts if cart[0] == lane]
        for cart, arrival in zip(own, sorted(cart[1] for cart in own)):
            cart[1] = arrival
    return gaps, carts


def exchange_arrivals(rng, carts):
    """The carts with the arrivals of two exchanged."""
    if 2 <= len(carts):
        one, other = rng.sample(carts, 2)
        one[1], other[1] = other[1], one[1]
    return carts


def repeat_zone(rng, carts):
    """The carts with a zone of one route named a second time."""
    routes = [route for _, _, route in carts if 2 <= len(route)]
    if routes:
        one, other = rng.sample(rng.choice(routes), 2)
        one[0] = other[0]
    return carts


def spoil_field(rng, fields):
    """The fields with another value in one: near a bound of document 01, near its own, or any."""
    chosen = rng.randrange(len(fields))
    value, width = fields[chosen]
    near = rng.choice([0, 1, 9, 16, 17, 24, 25, 60001, 3600001, value + 1, value + 2, value - 1])
    other = rng.choice([near, near, rng.randrange(256 ** width)]) % 256 ** width
    return fields[:chosen] + [(other, width)] + fields[chosen + 1:]


def spoil_byte(rng, sheet):
    place = rng.randrange(len(sheet))
    return sheet[:place] + bytes([rng.choice([0, 1, 255, rng.randrange(256)])]) + sheet[place + 1:]


def cut(rng, sheet):
    return sheet[:rng.randrange(len(sheet))]


def extend(rng, sheet):
    return sheet + rng.randbytes(rng.choice([1, 2, 5, 40]))


def right_length(sheet):
    return with_length(sheet[3:])


# How many random sheets of each kind: one is made of the gaps g and the carts c of a sheet that document 01 takes.
KINDS = [
    (2000, lambda r, g, c: written(fields_of(g, c))),
    (3000, lambda r, g, c: spoil_byte(r, written(fields_of(g, c)))),
    (2000, lambda r, g, c: spoil_byte(r, spoil_byte(r, written(fields_of(g, c))))),
    (4000, lambda r, g, c: written(spoil_field(r, fields_of(g, c)))),
    (3000, lambda r, g, c: written(spoil_field(r, spoil_field(r, fields_of(g, c))))),
    (2000, lambda r, g, c: written(fields_of(g, exchange_arrivals(r, c)))),
    (2000, lambda r, g, c: written(fields_of(g, repeat_zone(r, c)))),
    (500, lambda r, g, c: cut(r, written(fields_of(g, c)))),
    (2000, lambda r, g, c: right_length(cut(r, written(fields_of(g, c))))),
    (2000, lambda r, g, c: right_length(cut(r, spoil_byte(r, written(fields_of(g, c)))))),
    (500, lambda r, g, c: extend(r, written(fields_of(g, c)))),
    (1000, lambda r, g, c: right_length(extend(r, written(fields_of(g, c))))),
    (1000, lambda r, g, c: right_length(extend(r, written(fields_of(g, exchange_arrivals(r, c)))))),
    (1000, lambda r, g, c: with_length(r.randbytes(r.randint(0, 40)))),
]


def long_sheets():
    """Lengths at the end of the length field's range, where a length that wraps would be taken for another."""
    shortest = written(fields_of([(0, 0)], []))
    for length in [65535, 65536, 65536 + len(shortest), 70000]:
        for said in [length % 65536, 65535]:
            yield b'\x01' + said.to_bytes(2, 'big') + shortest[3:] + bytes(length - len(shortest))


def random_sheets():
    rng = random.Random(1)
    for count, make in KINDS:
        for _ in range(count):
            yield make(rng, *a_sheet(rng))
    yield from long_sheets()
