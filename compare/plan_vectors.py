#!/usr/bin/env python3
"""Prints crates/vectors/data/plans.txt: plans at the edges of document 01's rules, each under what is given and why.

plan_vectors.py > crates/vectors/data/plans.txt

The numbers and places are written here by hand from document 01, the carts and steps told from #104; programs.py checks them by reading the plans.
"""
from sheet_vectors import S, cart, done, group, one_zone, refused, sheet, step, zones

plan = sheet  # Both have the same head.

S_SHEET = sheet(*S)
A = ['02', '02 00 01', '02 00 01']
B = ['02', '02 00 01', '02 01 00']
ONE_LANE = sheet(*S[:7], '00 000001F4 02', *S[8:])  # S with cart 1 on lane 0.
SHORTEST = sheet(zones(1), '00')
NO_CART = sheet(zones(24), '00')
ZONE_1_ALONE = sheet(zones(3), '01', cart(route=[step(1)]))
APART = sheet(zones(2), '02', cart(route=[step(0)]), cart(route=[step(1)]))
SIXTEEN = range(16)
OWN_LANES = one_zone(*[cart(n) for n in SIXTEEN])
LANE_0 = one_zone(*[cart() for _ in SIXTEEN])


def on(sheet_text, *parts, cut=None, length=None):
    """A sheet and a plan for it."""
    return '%s | %s' % (sheet_text, plan(*parts, cut=cut, length=length))


def passing(carts):
    """A zone's count and its carts."""
    return ' '.join('%02X' % n for n in [len(carts), *carts])


def lanes(*lane_numbers):
    """A sheet of one zone, and a cart of one step on each of these lanes."""
    return one_zone(*[cart(lane) for lane in lane_numbers])


def spread(lane_numbers):
    """The longest sheet: 24 zones, and 16 carts with the eight zones from zone 3 times their number on, round and round."""
    carts = [cart(lane, route=[step((3 * n + j) % 24) for j in range(8)]) for n, lane in enumerate(lane_numbers)]
    return sheet(zones(24), '10', *carts)


def spread_lists(order):
    """The zone count and the lists for it, in a rising or falling order."""
    return ['18'] + [passing([n for n in order if (z - 3 * n) % 24 < 8]) for z in range(24)]


def whole_plans():
    group('0: taken')
    done('document 01\'s sheet S and plan A', on(S_SHEET, *A))
    done('document 01\'s sheet S and plan B: it is locked, and 22 is the judge\'s', on(S_SHEET, *B))
    done('document 01, example 8: S with cart 1 on lane 0, and A', on(ONE_LANE, *A))
    done('document 01, example 4: the shortest sheet and plan', on(SHORTEST, '01', '00'))
    done('24 zones and no cart: every list is empty', on(NO_CART, '18', *['00'] * 24))
    done('the first and the last zone are empty', on(ZONE_1_ALONE, '03', '00', '01 00', '00'))
    done('two carts that share no zone', on(APART, '02', '01 00', '01 01'))
    all_zones = sheet(zones(8), '01', cart(route=[step(z) for z in reversed(range(8))]))
    done('one cart in all zones, the last first', on(all_zones, '08', *['01 00'] * 8))
    done('16 carts of one lane in one zone: by number', on(LANE_0, '01', passing(SIXTEEN)))
    done('16 carts of 16 lanes in one zone: the last first', on(OWN_LANES, '01', passing(SIXTEEN[::-1])))
    done('two lanes that alternate, the higher-numbered first', on(lanes(1, 2, 1, 2), '01', '04 01 00 03 02'))
    done('two lanes, one whole before the other', on(lanes(1, 2, 1, 2), '01', '04 01 03 00 02'))
    done('the longest plan, 156 bytes, by number', on(spread([0] * 16), *spread_lists(SIXTEEN)))
    done('the longest plan, 156 bytes, the last first', on(spread(SIXTEEN), *spread_lists(SIXTEEN[::-1])))


def refused_sheets():
    group('1 to 14: the sheet comes fully before the plan')
    refused(1, 0, 'no sheet and no plan', '- | -')
    refused(1, 0, 'no sheet, and plan A', on('-', *A))
    refused(1, 43, 'S without its last byte, and plan A', on(sheet(*S, cut=44), *A), told=(2, 2))
    refused(2, 0, 'both versions are 2', '02 | 02')
    refused(3, 1, 'S under a length one less, and no plan', '%s | -' % sheet(*S, length=44))
    refused(4, 3, '0 zones, and a plan of 0 zones', on(sheet('00', '00'), '00'))
    refused(5, 6, 'cross gap 60,001, and the plan for it', on(sheet(zones(1, '0000 EA61'), '00'), '01', '00'))
    refused(6, 8, '17 carts, and a plan that lists 16', on(one_zone(*[cart(0)] * 17), '01', passing(SIXTEEN)))
    refused(7, 174, 'lane 16 of cart 15, and the plan for it', on(one_zone(*[cart(n) for n in range(15)], cart(16)), '01', passing(SIXTEEN)), told=(16, 0))
    refused(8, 21, 'arrival 3,600,001 of cart 1, and no plan', '%s | -' % one_zone(cart(), cart(1, 3600001), cart(2)), told=(2, 0))
    refused(9, 14, '0 steps, and a plan with an empty list', on(one_zone(cart(route=[])), '01', '00'), told=(1, 0))
    refused(10, 15, 'zone 1 of 1, and a plan that lists it', on(one_zone(cart(route=[step(1)])), '01', '01 00'), told=(1, 1))
    twice, last_step = sheet(zones(2), '01', cart(route=[step(0), step(0)])), one_zone(cart(route=[step(0, 0, 1)]))
    refused(11, 24, 'a zone twice, and a plan that lists the cart twice', on(twice, '02', '02 00 00', '00'), told=(1, 2))
    refused(12, 18, 'travel time 1 on the last step, and a plan that ends in its length', '%s | 01 00' % last_step, told=(1, 1))
    refused(13, 45, 'a byte after S, and a byte after A', on(sheet(*S, '00'), *A, '00'))
    refused(14, 21, 'cart 1 is early, and the lane is turned round in the list', on(one_zone(cart(0, 1), cart(0, 0)), '01', '02 01 00'), told=(2, 0))


def cuts():
    group('15: the plan ends inside a field')
    refused(15, 0, 'the empty plan: no version', '%s | -' % S_SHEET)
    refused(15, 1, 'no length', '%s | 01' % S_SHEET)
    refused(15, 1, 'the first byte of the length alone', '%s | 01 00' % S_SHEET)
    fields = [(3, 'zone count'), (4, 'count of zone 0'), (5, 'first cart of zone 0'), (6, 'second cart of zone 0'),
              (7, 'count of zone 1'), (8, 'first cart of zone 1'), (9, 'second cart of zone 1')]
    for place, name in fields:
        refused(15, place, 'no %s' % name, on(S_SHEET, *A, cut=place))
    refused(15, 4, 'no count of the only zone', on(SHORTEST, '01'))
    refused(15, 27, 'no count of zone 23, where every list is empty', on(NO_CART, '18', *['00'] * 23))
    refused(15, 20, 'no sixteenth cart', on(LANE_0, '01', passing(SIXTEEN), cut=20))
    refused(15, 155, 'the longest plan without its last byte', on(spread([0] * 16), *spread_lists(SIXTEEN), cut=155))


def versions():
    group('16: version not 1')
    refused(16, 0, 'version 0, alone', '%s | 00' % S_SHEET)
    refused(16, 0, 'version 2, alone', '%s | 02' % S_SHEET)
    for version in [0, 2, 255]:
        refused(16, 0, 'version %d before plan A' % version, '%s | %02X%s' % (S_SHEET, version, plan(*A)[2:]))


def lengths():
    group('17: length differs from the bytes lent')
    refused(17, 1, 'one less', on(S_SHEET, *A, length=9))
    refused(17, 1, 'one more', on(S_SHEET, *A, length=11))
    refused(17, 1, 'length 0', on(S_SHEET, *A, length=0))
    refused(17, 1, 'length 65,535', on(S_SHEET, *A, length=65535))
    refused(17, 1, 'the two bytes turned round', on(S_SHEET, *A, length=0x0A00))
    refused(17, 1, 'equal in the low byte alone', on(S_SHEET, *A, length=0x010A))
    refused(17, 1, 'three bytes that say four', on(S_SHEET, length=4))
    refused(17, 1, 'A without its last byte, under its own length', on(S_SHEET, *A, cut=9, length=10))
    refused(17, 1, 'A and a byte, under its own length', on(S_SHEET, *A, '00', length=10))
    refused(17, 1, 'the sheet\'s length', on(S_SHEET, *A, length=45))


def zone_counts():
    group('18: zone count not n')
    refused(18, 3, 'n - 1, with a list for each', on(S_SHEET, '01', *A[1:2]))
    refused(18, 3, 'n + 1, with a list for each', on(S_SHEET, '03', *A[1:], '00'))
    refused(18, 3, 'n - 1, with n lists', on(S_SHEET, '01', *A[1:]))
    refused(18, 3, 'n + 1, with n lists', on(S_SHEET, '03', *A[1:]))
    refused(18, 3, 'n - 1 is 0, and nothing after', on(SHORTEST, '00'))
    refused(18, 3, 'n + 1 is 2', on(SHORTEST, '02', '00', '00'))
    refused(18, 3, '23 where n is 24', on(NO_CART, '17', *['00'] * 23))
    refused(18, 3, '25 where n is 24', on(NO_CART, '19', *['00'] * 25))
    refused(18, 3, '255', on(S_SHEET, 'FF', *A[1:]))
    refused(18, 3, '18: n and 16 more', on(S_SHEET, '12', *A[1:]))


def counts():
    group('19: a zone\'s count isn\'t the number of carts that visit it')
    refused(19, 4, 'one less in zone 0', on(S_SHEET, '02', '01 00', A[2]))
    refused(19, 4, 'one more in zone 0', on(S_SHEET, '02', '03 00 01 00', A[2]))
    refused(19, 4, 'one less said in zone 0, and both carts there', on(S_SHEET, '02', '01 00 01', A[2]))
    refused(19, 4, 'one more said in zone 0, and two carts there', on(S_SHEET, '02', '03 00 01', A[2]))
    refused(19, 4, '0 in zone 0', on(S_SHEET, '02', '00', A[2]))
    refused(19, 4, '255 in zone 0', on(S_SHEET, '02', 'FF 00 01', A[2]))
    refused(19, 7, 'one less in zone 1', on(S_SHEET, *A[:2], '01 00'))
    refused(19, 7, 'one more in zone 1', on(S_SHEET, *A[:2], '03 00 01 00'))
    refused(19, 7, '0 in zone 1', on(S_SHEET, *A[:2], '00'))
    refused(19, 4, '1 in the only zone, without carts', on(SHORTEST, '01', '01 00'))
    refused(19, 4, '1 in zone 0, which no route names', on(ZONE_1_ALONE, '03', '01 00', '01 00', '00'))
    refused(19, 7, '1 in zone 2, which no route names', on(ZONE_1_ALONE, '03', '00', '01 00', '01 00'))
    refused(19, 27, '1 in zone 23, without carts', on(NO_CART, '18', *['00'] * 23, '01 00'))
    refused(19, 4, '15 of 16 carts', on(LANE_0, '01', passing(SIXTEEN[:15])))
    refused(19, 4, '17 where 16 carts visit', on(LANE_0, '01', passing([*SIXTEEN, 0])))
    refused(19, 4, '0 where 16 carts visit', on(LANE_0, '01', '00'))


def listed_carts():
    group('19: a listed cart doesn\'t visit the zone')
    refused(19, 5, 'cart 1 in zone 0, when it visits zone 1 alone', on(APART, '02', '01 01', '01 00'))
    refused(19, 7, 'cart 0 in zone 1, when it visits zone 0 alone', on(APART, '02', '01 00', '01 00'))
    refused(19, 5, 'cart 2 of 2, first in zone 0', on(S_SHEET, '02', '02 02 00', A[2]))
    refused(19, 6, 'cart 2 of 2, second in zone 0', on(S_SHEET, '02', '02 00 02', A[2]))
    refused(19, 8, 'cart 2 of 2, first in zone 1', on(S_SHEET, *A[:2], '02 02 00'))
    refused(19, 9, 'cart 2 of 2, second in zone 1', on(S_SHEET, *A[:2], '02 00 02'))
    refused(19, 5, 'cart 15 of 2', on(S_SHEET, '02', '02 0F 01', A[2]))
    for number in [16, 32, 64, 128]:
        refused(19, 5, 'cart %d, which is cart 0 in the low bits' % number, on(S_SHEET, '02', '02 %02X 01' % number, A[2]))
    refused(19, 6, 'cart 17, which is cart 1 in the low bits', on(S_SHEET, '02', '02 00 11', A[2]))
    refused(19, 6, 'cart 255', on(S_SHEET, '02', '02 00 FF', A[2]))
    refused(19, 5, 'cart 16 of 16', on(OWN_LANES, '01', passing([16, *SIXTEEN[1:]])))
    refused(19, 20, 'cart 16 of 16, last', on(OWN_LANES, '01', passing([*SIXTEEN[:15], 16])))
    refused(19, 20, 'cart 31, which is cart 15 in the low bits, last', on(OWN_LANES, '01', passing([*SIXTEEN[:15], 31])))


def listed_twice():
    group('19: a listed cart is listed twice there')
    refused(19, 6, 'cart 0 in zone 0', on(S_SHEET, '02', '02 00 00', A[2]))
    refused(19, 6, 'cart 1 in zone 0', on(S_SHEET, '02', '02 01 01', A[2]))
    refused(19, 9, 'cart 0 in zone 1', on(S_SHEET, *A[:2], '02 00 00'))
    refused(19, 7, 'cart 0, with a cart between', on(lanes(0, 1, 2), '01', '03 00 01 00'))
    refused(19, 20, 'cart 0, first and last of 16', on(OWN_LANES, '01', passing([*SIXTEEN[:15], 0])))
    refused(19, 20, 'cart 15, first and last of 16', on(OWN_LANES, '01', passing([15, *SIXTEEN[:14], 15])))


def bytes_after():
    group('20: bytes after the last list')
    refused(20, 10, 'a byte after A', on(S_SHEET, *A, '00'))
    refused(20, 10, 'a third list after two zones: the first of its bytes', on(S_SHEET, *A, '02 00 01'))
    refused(20, 5, 'a byte after the shortest plan', on(SHORTEST, '01', '00', '00'))
    refused(20, 28, 'a byte after 24 empty lists', on(NO_CART, '18', *['00'] * 24, '00'))
    refused(20, 156, 'a byte after the longest plan', on(spread([0] * 16), *spread_lists(SIXTEEN), '00'))
    refused(20, 156, '200 bytes after the longest plan', on(spread([0] * 16), *spread_lists(SIXTEEN), *['00'] * 200))


def lane_orders():
    group('21: a listed cart has a higher-numbered one of its lane ahead')
    refused(21, 9, 'document 01, example 7: S with cart 1 on lane 0, and B', on(ONE_LANE, *B))
    refused(21, 6, 'in zone 0 alone', on(ONE_LANE, '02', '02 01 00', A[2]))
    refused(21, 6, 'in both zones: the first', on(ONE_LANE, '02', '02 01 00', '02 01 00'))
    refused(21, 6, 'on lane 15', on(lanes(15, 15), '01', '02 01 00'))
    refused(21, 7, 'with a cart of another lane between', on(lanes(3, 4, 3), '01', '03 02 01 00'))
    refused(21, 6, 'cart 2 before both others of its lane: the first of them', on(lanes(3, 3, 3), '01', '03 02 00 01'))
    refused(21, 7, 'cart 0 behind both others of its lane', on(lanes(3, 3, 3), '01', '03 01 02 00'))
    refused(21, 7, 'cart 1 behind cart 2, of three on one lane', on(lanes(3, 3, 3), '01', '03 00 02 01'))
    refused(21, 7, 'two lanes turned round: cart 0 comes first in the plan', on(lanes(1, 2, 1, 2), '01', '04 02 03 00 01'))
    refused(21, 7, 'two lanes turned round: cart 1 comes first in the plan', on(lanes(1, 2, 1, 2), '01', '04 02 03 01 00'))
    refused(21, 20, 'cart 0 last of 16 on one lane', on(LANE_0, '01', passing([*SIXTEEN[1:], 0])))
    refused(21, 6, 'cart 15 first of 16 on one lane', on(LANE_0, '01', passing([15, *SIXTEEN[:15]])))
    ends = lanes(7, *SIXTEEN[8:], *SIXTEEN[1:7], 7)
    refused(21, 20, 'cart 15 first and cart 0 last, alone on their lane', on(ends, '01', passing([15, *SIXTEEN[1:15], 0])))
    refused(21, 155, 'in the last list of the longest plan', on(spread([0] * 16), *spread_lists(SIXTEEN)[:-1], '04 06 07 0F 0E'))


def orders():
    group('two rules broken: the first in byte order, then 20, then 21')
    refused(16, 0, '16 before 17: the length differs too', '%s | 02 0000 02' % S_SHEET)
    refused(15, 1, '15 before 17: one byte of a length that would differ', '%s | 01 FF' % S_SHEET)
    refused(17, 1, '17 before 15: three bytes that say ten', '%s | 01 000A' % S_SHEET)
    refused(17, 1, '17 before 18: 3 zones too', on(S_SHEET, '03', *A[1:], length=9))
    refused(18, 3, '18 before 15: 3 zones, and nothing after', on(S_SHEET, '03'))
    refused(18, 3, '18 before 19: 3 zones, and 3 carts in zone 0', on(S_SHEET, '03', '03 00 01 00', A[2]))
    refused(19, 4, '19 before 15: 3 carts in zone 0, and nothing after', on(S_SHEET, '02', '03'))
    refused(19, 5, '19 before 15: cart 2, and nothing after', on(S_SHEET, '02', '02 02'))
    refused(19, 4, '19, the count before the carts', on(S_SHEET, '02', '03 02 02 02', A[2]))
    refused(19, 5, '19, zone 0 before zone 1', on(S_SHEET, '02', '02 02 01', '03 00 01 00'))
    refused(19, 5, '19, the first of two carts', on(S_SHEET, '02', '02 02 02', A[2]))
    refused(19, 9, '19 before 20: a byte after the last list too', on(S_SHEET, *A[:2], '02 00 02', '00'))
    refused(19, 9, '19 of zone 1 before 21 of zone 0', on(ONE_LANE, '02', '02 01 00', '02 00 00'))
    refused(19, 7, '19 before 21, in one list', on(lanes(3, 3, 3), '01', '03 02 00 00'))
    refused(15, 9, '15 of zone 1 before 21 of zone 0', on(ONE_LANE, '02', '02 01 00', '02 00'))
    refused(20, 10, '20 before 21: example 7 and a byte', on(ONE_LANE, *B, '00'))
    refused(21, 9, '21, and 20 no more: the same without the byte', on(ONE_LANE, *B))


def main():
    print('# Plans at the edges of document 01\'s rules, one a line after its sheet. Above each: what reading it gives, and why.')
    print('# Of each plan that is taken, zone n gives 27, and a room that is a byte too short gives 28.')
    print('# Written by compare/plan_vectors.py.')
    for part in [whole_plans, refused_sheets, cuts, versions, lengths, zone_counts, counts, listed_carts, listed_twice,
                 bytes_after, lane_orders, orders]:
        part()


if __name__ == '__main__':
    main()
