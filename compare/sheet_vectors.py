#!/usr/bin/env python3
"""Prints crates/vectors/data/sheets.txt: sheets at the edges of document 01's ranges, each under what is given and why.

sheet_vectors.py > crates/vectors/data/sheets.txt

The numbers and places are written here by hand from document 01, the carts and steps told from #104; programs.py checks them by reading the sheets.
"""

GAP = '0000 0000'
S = ['02', '00C8 012C', '00C8 012C', '02',
     '00 00000000 02', '00 03E8 0064', '01 03E8 0000',
     '01 000001F4 02', '01 03E8 0064', '00 03E8 0000']


def byte_count(text):
    return len(bytes.fromhex(text))


def first_bytes(text, count):
    """The part of a text in hexadecimal that holds its first bytes."""
    ends = [end for end in range(len(text) + 1) if len(text[:end].replace(' ', '')) == 2 * count]
    return text[:ends[0]]


def sheet(*parts, cut=None, length=None):
    """Version, length and the parts; only the first `cut` bytes, under the length that is left or the one given."""
    text = '01 0000 ' + '  '.join(parts)
    if cut is not None:
        text = first_bytes(text, cut)
    return '01 %04X' % (byte_count(text) if length is None else length) + text[7:].rstrip()


def step(zone=0, passing=0, travel=0):
    return '%02X %04X %04X' % (zone, passing, travel)


def cart(lane=0, arrival=0, route=None, count=None):
    """A cart over the steps given, of which it says `count`; a lone step in zone 0 if none are given."""
    route = [step()] if route is None else route
    return '  '.join(['%02X %08X %02X' % (lane, arrival, len(route) if count is None else count)] + route)


BOTH = [step(0), step(1)]  # A route through zones 0 and 1.


def zones(n, gap=GAP):
    return '  '.join(['%02X' % n] + [gap] * n)


def one_zone(*carts):
    """A sheet of one zone with gaps 0, and these carts."""
    return sheet(zones(1), '%02X' % len(carts), *carts)


def one_cart(*route, n=2, count=None, cut=None):
    """A sheet of n zones with gaps 0 and one cart with these steps."""
    return sheet(zones(n), '01', cart(route=list(route), count=count), cut=cut)


def longest(*after, cut=None):
    """The longest sheet, every value as small as it can be."""
    return sheet(zones(24), '10', *[cart(route=[step(z) for z in range(8)])] * 16, *after, cut=cut)


def group(title):
    print('\n# ---- %s ----' % title)


def done(why, text):
    print('\n# done: %s\n%s' % (why, text))


def refused(number, place, why, text, told=None):
    """`told` are the cart and the step that #104 prints after the place."""
    print('\n# %d at %d%s: %s\n%s' % (number, place, ' cart %d step %d' % told if told else '', why, text))


def whole_sheets():
    group('0: taken')
    done('document 01\'s sheet S', sheet(*S))
    done('the shortest sheet, 9 bytes: one zone, no cart', sheet(zones(1), '00'))
    done('one cart with one step, every value 0', one_zone(cart()))
    done('the longest sheet, 837 bytes, with every value as small as it can be', longest())
    route = [step(z, 60000, 60000) for z in range(16, 23)] + [step(23, 60000, 0)]
    done('the longest sheet, 837 bytes, with every value as large as it can be',
         sheet(zones(24, 'EA60 EA60'), '10', *[cart(15, 3600000, route)] * 16))


def cuts():
    group('1: the sheet ends inside a field')
    refused(1, 0, 'the empty sheet (document 01, example 5): no version', '-')
    refused(1, 1, 'no length', '01')
    refused(1, 1, 'the first byte of the length alone', '01 00')
    whole = [zones(2), '03', cart(route=[step(0), step(1)]), cart(), cart(route=[step(1), step(0)])]
    fields = [(None, [(3, 1, 'zone count'),
                      (4, 2, 'follow gap of zone 0'), (6, 2, 'cross gap of zone 0'),
                      (8, 2, 'follow gap of zone 1'), (10, 2, 'cross gap of zone 1'),
                      (12, 1, 'cart count')]),
              ((1, 0), [(13, 1, 'lane of cart 0'), (14, 4, 'arrival of cart 0'), (18, 1, 'step count of cart 0')]),
              ((1, 1), [(19, 1, 'zone of step 0'), (20, 2, 'passing time of step 0'), (22, 2, 'travel time of step 0')]),
              ((1, 2), [(24, 1, 'zone of step 1'), (25, 2, 'passing time of step 1'), (27, 2, 'travel time of step 1')]),
              ((2, 0), [(29, 1, 'lane of cart 1'), (30, 4, 'arrival of cart 1'), (34, 1, 'step count of cart 1')]),
              ((2, 1), [(35, 1, 'zone of its step 0'), (36, 2, 'passing time of its step 0'), (38, 2, 'travel time of its step 0')]),
              ((3, 0), [(40, 1, 'lane of cart 2, the last'), (41, 4, 'arrival of cart 2'), (45, 1, 'step count of cart 2')]),
              ((3, 1), [(46, 1, 'zone of its step 0'), (47, 2, 'passing time of its step 0'), (49, 2, 'travel time of its step 0')]),
              ((3, 2), [(51, 1, 'zone of its step 1'), (52, 2, 'passing time of its step 1'), (54, 2, 'travel time of its step 1')])]
    for told, place, width, name in [(told, *field) for told, part in fields for field in part]:
        for there in range(width):
            why = '%d of %d bytes of the %s' % (there, width, name) if there else 'no %s' % name
            refused(1, place, why, sheet(*whole, cut=place + there), told)
    done('the sheet that was cut above, whole', sheet(*whole))
    refused(1, 43, 'S without its last byte', sheet(*S, cut=44), told=(2, 2))
    refused(1, 835, 'the longest sheet without its last byte', longest(cut=836), told=(16, 8))


def versions():
    group('2: version not 1')
    refused(2, 0, 'document 01, example 6', '02')
    refused(2, 0, 'version 0, alone', '00')
    refused(2, 0, 'version 0 before the shortest sheet', '00 0009 01 0000 0000 00')
    refused(2, 0, 'version 255 before the shortest sheet', 'FF 0009 01 0000 0000 00')


def lengths():
    group('3: length field differs from the bytes lent')
    shortest = [zones(1), '00']
    refused(3, 1, 'one less', sheet(*shortest, length=8))
    refused(3, 1, 'one more', sheet(*shortest, length=10))
    refused(3, 1, 'length 0', sheet(*shortest, length=0))
    refused(3, 1, 'length 65,535', sheet(*shortest, length=65535))
    refused(3, 1, 'the two bytes turned round', sheet(*shortest, length=0x0900))
    refused(3, 1, 'equal in the low byte alone', sheet(*shortest, length=0x0109))
    refused(3, 1, 'three bytes that say four', sheet(length=4))
    refused(3, 1, 'S without its last byte, under its own length', sheet(*S, cut=44, length=45))
    refused(3, 1, 'S and a byte, under its own length', sheet(*S, '00', length=45))


def zone_counts():
    group('4: zone count 0 or above 24')
    done('1 zone', sheet(zones(1), '00'))
    done('24 zones', sheet(zones(24), '00'))
    refused(4, 3, '0 zones, and nothing after', sheet('00'))
    refused(4, 3, '0 zones', sheet(zones(0), '00'))
    refused(4, 3, '25 zones', sheet(zones(25), '00'))
    refused(4, 3, '25 zones, and nothing after', sheet('19'))
    refused(4, 3, '255 zones, and nothing after', sheet('FF'))


def gap_ranges():
    group('5: gap above 60,000')
    done('follow gap 60,000', sheet(zones(1, 'EA60 0000'), '00'))
    done('cross gap 60,000', sheet(zones(1, '0000 EA60'), '00'))
    refused(5, 4, 'follow gap 60,001', sheet(zones(1, 'EA61 0000'), '00'))
    refused(5, 6, 'cross gap 60,001', sheet(zones(1, '0000 EA61'), '00'))
    refused(5, 4, 'follow gap 65,535', sheet(zones(1, 'FFFF 0000'), '00'))
    refused(5, 6, 'cross gap 65,535', sheet(zones(1, '0000 FFFF'), '00'))
    refused(5, 8, 'follow gap of zone 1', sheet('02', GAP, 'EA61 0000', '00'))
    refused(5, 10, 'cross gap of zone 1', sheet('02', GAP, '0000 EA61', '00'))
    refused(5, 96, 'follow gap of zone 23', sheet('18', *[GAP] * 23, 'EA61 0000', '00'))
    refused(5, 98, 'cross gap of zone 23', sheet('18', *[GAP] * 23, '0000 EA61', '00'))
    refused(5, 4, 'follow gap 60,001, and nothing after', sheet('01', 'EA61'))


def cart_counts():
    group('6: more than 16 carts')
    done('0 carts', sheet(zones(2), '00'))
    done('16 carts', one_zone(*[cart()] * 16))
    refused(6, 8, '17 carts', one_zone(*[cart()] * 17))
    refused(6, 8, '17 carts said, and nothing after', sheet(zones(1), '11'))
    refused(6, 8, '255 carts said, and nothing after', sheet(zones(1), 'FF'))
    refused(6, 100, '17 carts said, after 24 zones', sheet(zones(24), '11'))


def lanes():
    group('7: lane above 15')
    done('lane 15', one_zone(cart(15)))
    refused(7, 9, 'lane 16', one_zone(cart(16)), told=(1, 0))
    refused(7, 9, 'lane 255', one_zone(cart(255)), told=(1, 0))
    refused(7, 20, 'lane 16 of cart 1', one_zone(cart(15), cart(16)), told=(2, 0))
    refused(7, 174, 'lane 16 of cart 15', one_zone(*[cart(n) for n in range(15)], cart(16)), told=(16, 0))
    refused(7, 9, 'lane 16, and nothing after', sheet(zones(1), '01', '10'), told=(1, 0))


def arrivals():
    group('8: arrival above 3,600,000')
    done('3,600,000 (document 01, example 15)', one_zone(cart(0, 3600000)))
    refused(8, 10, '3,600,001 (document 01, example 15)', one_zone(cart(0, 3600001)), told=(1, 0))
    refused(8, 10, '4,294,967,295', one_zone(cart(0, 0xFFFFFFFF)), told=(1, 0))
    refused(8, 10, '16,777,216: 0 in the low three bytes', one_zone(cart(0, 0x01000000)), told=(1, 0))
    refused(8, 21, '3,600,001 of cart 1', one_zone(cart(), cart(1, 3600001)), told=(2, 0))
    refused(8, 10, '3,600,001, and nothing after', sheet(zones(1), '01', '00 0036EE81'), told=(1, 0))


def step_counts():
    group('9: step count 0 or above 8')
    done('1 step', one_cart(step(), n=1))
    done('8 steps', one_cart(*[step(z) for z in range(8)], n=8))
    refused(9, 14, '0 steps', one_cart(n=1), told=(1, 0))
    refused(9, 14, '0 steps said, and a step after', one_cart(step(), n=1, count=0), told=(1, 0))
    refused(9, 42, '9 steps', one_cart(*[step(z) for z in range(9)], n=8), told=(1, 0))
    refused(9, 18, '255 steps said, and nothing after', one_cart(count=255), told=(1, 0))
    refused(9, 25, '0 steps of cart 1', one_zone(cart(), cart(route=[])), told=(2, 0))


def zone_numbers():
    group('10: zone number n or more')
    done('zone 0 of 1', one_cart(step(0), n=1))
    done('zone 1 of 2', one_cart(step(1)))
    done('zone 23 of 24', one_cart(step(23), n=24))
    refused(10, 15, 'zone 1 of 1', one_cart(step(1), n=1), told=(1, 1))
    refused(10, 19, 'zone 2 of 2', one_cart(step(2)), told=(1, 1))
    refused(10, 107, 'zone 24 of 24', one_cart(step(24), n=24), told=(1, 1))
    refused(10, 19, 'zone 255', one_cart(step(255)), told=(1, 1))
    refused(10, 24, 'zone 2 of 2, on step 1', one_cart(step(0), step(2)), told=(1, 2))
    refused(10, 78, 'zone 8 of 8, on step 7', one_cart(*[step(z) for z in range(7)], step(8), n=8), told=(1, 8))
    refused(10, 19, 'zone 2 of 2, and nothing after', one_cart('02'), told=(1, 1))


def repeats():
    group('11: zone already in this route')
    done('a zone in the routes of two carts', one_zone(cart(), cart()))
    refused(11, 24, 'step 0\'s zone on step 1', one_cart(step(0), step(0)), told=(1, 2))
    refused(11, 29, 'step 0\'s zone on step 2', one_cart(step(1), step(0), step(1)), told=(1, 3))
    for j in range(1, 8):
        refused(11, 43 + 5 * j, 'step 0\'s zone on step %d of eight' % j,
                one_cart(*[step(0 if z == j else z) for z in range(8)], n=8), told=(1, j + 1))
    refused(11, 78, 'step 6\'s zone on step 7', one_cart(*[step(z) for z in range(7)], step(6), n=8), told=(1, 8))
    refused(11, 112, 'zone 23, the highest, on steps 0 and 1', one_cart(step(23), step(23), n=24), told=(1, 2))
    refused(11, 24, 'step 0\'s zone on step 1, and nothing after', one_cart(step(1), '01'), told=(1, 2))
    refused(11, 35, 'in cart 1 alone', sheet(zones(2), '02', cart(route=[step(0)]), cart(route=[step(1), step(1)])), told=(2, 2))
    refused(11, 35, 'a zone of cart 0\'s, twice in cart 1', sheet(zones(2), '02', cart(route=[step(0)]), cart(route=[step(0), step(0)])),
            told=(2, 2))


def step_times():
    group('12: passing or travel time above 60,000, or travel not 0 on the last step')
    done('passing time 60,000', one_cart(step(0, 60000)))
    refused(12, 20, 'passing time 60,001', one_cart(step(0, 60001)), told=(1, 1))
    refused(12, 20, 'passing time 65,535', one_cart(step(0, 65535)), told=(1, 1))
    refused(12, 25, 'passing time 60,001 on step 1', one_cart(step(0), step(1, 60001)), told=(1, 2))
    done('travel time 60,000 before the last step', one_cart(step(0, 0, 60000), step(1)))
    refused(12, 22, 'travel time 60,001 before the last step', one_cart(step(0, 0, 60001), step(1)), told=(1, 1))
    refused(12, 22, 'travel time 1 on the only step', one_cart(step(0, 0, 1)), told=(1, 1))
    refused(12, 22, 'travel time 256 on the only step: 0 in the low byte', one_cart(step(0, 0, 256)), told=(1, 1))
    refused(12, 27, 'travel time 1 on the last of two steps', one_cart(step(0, 0, 1), step(1, 0, 1)), told=(1, 2))
    refused(12, 81, 'travel time 1 on the last of eight steps', one_cart(*[step(z, 0, 1) for z in range(8)], n=8), told=(1, 8))
    refused(12, 22, 'travel time 60,001 on the last step', one_cart(step(0, 0, 60001)), told=(1, 1))
    refused(12, 20, 'passing time 60,001, and nothing after', one_cart('00 EA61'), told=(1, 1))


def bytes_after():
    group('13: bytes after the last cart')
    refused(13, 9, 'a byte after the shortest sheet', sheet(zones(1), '00', '00'))
    refused(13, 20, 'a byte after a cart', sheet(zones(1), '01', cart(), '00'))
    refused(13, 45, 'a byte after S', sheet(*S, '01'))
    refused(13, 9, 'a whole cart after 0 carts: the first of its bytes', sheet(zones(1), '00', cart()))
    refused(13, 20, 'a second cart where one is said', sheet(zones(1), '01', cart(), cart()))
    refused(13, 837, 'a byte after the longest sheet', longest('00'))


def arrival_orders():
    group('14: a cart arrives before a lower-numbered one of its lane')
    done('equal arrivals on a lane', one_zone(cart(3, 500), cart(3, 500)))
    done('earlier, on another lane', one_zone(cart(3, 500), cart(4, 499)))
    refused(14, 21, 'earlier by 1', one_zone(cart(3, 500), cart(3, 499)), told=(2, 0))
    refused(14, 21, '0 after 3,600,000, on lane 15', one_zone(cart(15, 3600000), cart(15, 0)), told=(2, 0))
    refused(14, 21, '255 after 256', one_zone(cart(0, 0x100), cart(0, 0xFF)), told=(2, 0))
    refused(14, 32, 'before cart 0, with a cart of another lane between', one_zone(cart(1, 9), cart(2, 0), cart(1, 8)), told=(3, 0))
    refused(14, 32, 'cart 2 is early, and so is cart 3: the lowest', one_zone(cart(1, 9), cart(1, 9), cart(1, 8), cart(1, 7)), told=(3, 0))
    refused(14, 32, 'cart 2 is early on lane 5, cart 3 on lane 0', one_zone(cart(0, 9), cart(5, 9), cart(5, 8), cart(0, 8)), told=(3, 0))
    refused(14, 21, 'cart 2 is early too, though not before cart 1', one_zone(cart(1, 9), cart(1, 7), cart(1, 8)), told=(2, 0))
    refused(14, 175, 'cart 15 before cart 0', one_zone(cart(15, 1), *[cart(n, 0) for n in range(14)], cart(15, 0)), told=(16, 0))
    two = cart(6, 500, [step(0), step(1)])
    refused(14, 30, 'after a route of two steps', sheet(zones(2), '02', two, cart(6, 499)), told=(2, 0))


def orders():
    group('two rules broken: the first in byte order, then 13, then 14')
    refused(2, 0, '2 before 3: the length differs too', '02 0000 01 0000 0000 00')
    refused(3, 1, '3 before 1: three bytes that say nine', '01 0009')
    refused(3, 1, '3 before 4: 0 zones too', sheet('00', length=9))
    refused(4, 3, '4 before 5: a gap is too large too', sheet(zones(25, 'FFFF FFFF'), '00'))
    refused(5, 4, '5, the first of two gaps', sheet(zones(1, 'EA61 EA61'), '00'))
    refused(1, 4, '1 before 5: a byte of a gap that would be too large', sheet('01', 'EA'))
    refused(5, 6, '5 before 6: 17 carts too', sheet(zones(1, '0000 EA61'), '11'))
    refused(6, 8, '6 before 7: lane 16 too', sheet(zones(1), '11', cart(16)))
    refused(7, 9, '7 before 8: arrival 3,600,001 too', one_zone(cart(16, 3600001)), told=(1, 0))
    refused(8, 10, '8 before 9: 0 steps too', one_zone(cart(0, 3600001, [])), told=(1, 0))
    refused(1, 10, '1 before 8: three bytes of an arrival that would be too large', sheet(zones(1), '01', '00 FFFFFF'), told=(1, 0))
    refused(9, 18, '9 before 10: zone 2 of 2 too', one_cart(step(2), count=9), told=(1, 0))
    refused(10, 19, '10 before 11: zone 2 of 2, named twice', one_cart(step(2), step(2)), told=(1, 1))
    refused(10, 19, '10 before 12: passing time 60,001 too', one_cart(step(2, 60001)), told=(1, 1))
    refused(11, 24, '11 before 12: passing time 60,001 too', one_cart(step(0), step(0, 60001)), told=(1, 2))
    refused(12, 20, '12, the first of two times', one_cart(step(0, 60001, 1)), told=(1, 1))
    refused(12, 22, '12 before 11: the travel time to a repeated zone', one_cart(step(0, 0, 60001), step(0)), told=(1, 1))
    refused(12, 22, '12 before 10: the travel time to zone 2 of 2', one_cart(step(0, 0, 60001), step(2)), told=(1, 1))
    refused(12, 18, '12 of cart 0 before 7 of cart 1', one_zone(cart(route=[step(0, 0, 1)]), cart(16)), told=(1, 1))
    refused(12, 18, '12 before 13: a byte after the last cart too', sheet(zones(1), '01', cart(route=[step(0, 0, 1)]), '00'), told=(1, 1))
    refused(12, 29, '12 before 14: cart 1 is early too', one_zone(cart(0, 1), cart(0, 0, [step(0, 0, 1)])), told=(2, 1))
    refused(1, 31, '1 before 14: cart 1 is early, cart 2 is missing', sheet(zones(1), '03', cart(0, 1), cart(0, 0)), told=(3, 0))
    refused(13, 31, '13 before 14: cart 1 is early too', sheet(zones(1), '02', cart(0, 1), cart(0, 0), '00'))
    refused(14, 21, '14, and 13 no more: the same without the byte', one_zone(cart(0, 1), cart(0, 0)), told=(2, 0))


def three(*arrivals, after=()):
    """A sheet of two zones with gaps 0, and three carts of one lane and two steps, from 13, 29 and 45 to 61, with these arrivals."""
    return sheet(zones(2), '03', *[cart(0, arrival, BOTH) for arrival in arrivals], *after)


def in_three(number, *values, **others):
    """The same with arrivals 0, and one cart with these values."""
    carts = [cart(route=BOTH)] * 3
    carts[number] = cart(*values, **others)
    return sheet(zones(2), '03', *carts)


def parts():
    group('#104: the cart and the step told, both counted from 1; step 0 outside the steps')
    for number, place, name in [(0, 13, 'the first cart'), (1, 29, 'a cart between'), (2, 45, 'the last cart')]:
        head, first, last = (number + 1, 0), (number + 1, 1), (number + 1, 2)
        refused(7, place, 'lane 16 of ' + name, in_three(number, 16, 0, BOTH), told=head)
        refused(8, place + 1, 'arrival 3,600,001 of ' + name, in_three(number, 0, 3600001, BOTH), told=head)
        refused(9, place + 5, '0 steps of ' + name, in_three(number, 0, 0, BOTH, 0), told=head)
        refused(9, place + 5, '9 steps of ' + name, in_three(number, 0, 0, BOTH, 9), told=head)
        refused(10, place + 6, 'zone 2 of 2 on the first step of ' + name, in_three(number, route=[step(2), step(1)]), told=first)
        refused(12, place + 7, 'passing time 60,001 on the first step of ' + name, in_three(number, route=[step(0, 60001), step(1)]), told=first)
        refused(12, place + 9, 'travel time 60,001 on the first step of ' + name, in_three(number, route=[step(0, 0, 60001), step(1)]), told=first)
        refused(10, place + 11, 'zone 2 of 2 on the last step of ' + name, in_three(number, route=[step(0), step(2)]), told=last)
        refused(11, place + 11, 'its first zone on the last step of ' + name, in_three(number, route=[step(0), step(0)]), told=last)
        refused(12, place + 12, 'passing time 60,001 on the last step of ' + name, in_three(number, route=[step(0), step(1, 60001)]), told=last)
        refused(12, place + 14, 'travel time 1 on the last step of ' + name, in_three(number, route=[step(0), step(1, 0, 1)]), told=last)
    refused(5, 10, 'none with the last gap before the carts', sheet('02', GAP, '0000 EA61', '01', cart()))
    refused(6, 12, 'none with the cart count before the carts', sheet(zones(2), '11', *[cart()] * 17))
    refused(13, 61, 'none with a byte after the last cart', three(0, 0, 0, after=['00']))
    refused(13, 61, 'none with a cart after the last cart', three(0, 0, 0, after=[cart(16)]))
    refused(14, 30, 'a cart between is early', three(9, 8, 9), told=(2, 0))
    refused(14, 46, 'the last cart is early', three(9, 9, 8), told=(3, 0))
    refused(14, 30, 'both are early, the last the more: the lowest', three(9, 8, 7), told=(2, 0))
    refused(1, 9, 'one cart is said and nothing after: the cut is the first cart\'s', sheet(zones(1), '01'), told=(1, 0))
    refused(1, 20, 'a second cart is said and nothing after the first: the cut is the second\'s', sheet(zones(1), '02', cart()), told=(2, 0))
    refused(1, 20, 'a second step is said and nothing after the first: the cut is the second\'s', sheet(zones(1), '01', cart(count=2)), told=(1, 2))
    refused(1, 791, 'the longest sheet without its last cart', longest(cut=791), told=(16, 0))
    refused(1, 832, 'the longest sheet without its last step', longest(cut=832), told=(16, 8))
    routes = [[step(z) for z in range(8)]] * 15 + [[step(z) for z in [*range(7), 24]]]
    refused(10, 832, 'zone 24 on the last step of the longest sheet', sheet(zones(24), '10', *[cart(route=route) for route in routes]), told=(16, 8))


def main():
    print('# Crossing sheets at the edges of document 01\'s ranges, one a line. Above each: what is given, and why.')
    print('# Written by compare/sheet_vectors.py.')
    for part in [whole_sheets, cuts, versions, lengths, zone_counts, gap_ranges, cart_counts, lanes, arrivals, step_counts,
                 zone_numbers, repeats, step_times, bytes_after, arrival_orders, orders, parts]:
        part()


if __name__ == '__main__':
    main()
