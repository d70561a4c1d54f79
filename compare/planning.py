"""Plans sheets by document 01's removal rule with #102's stop line, in the plainest form: pairs, orders present, times, spare times,
costs, groups; and by #101's two other rules.

`printed` is what our planner program writes for a sheet; programs.py compares it with that.
"""
import itertools

import plans
import sheets


class Crossing:
    """A sheet's gaps and carts, with ranks and pairs, the carts next in front and behind on the lane, if any, and the orders decided so far."""

    def __init__(self, gaps, carts):
        self.gaps, self.carts = gaps, carts
        by_rank = sorted(range(len(carts)), key=lambda cart: (carts[cart]['arrival'], cart))
        self.rank = [by_rank.index(cart) for cart in range(len(carts))]
        self.step = [{step[0]: place for place, step in enumerate(cart['route'])} for cart in carts]
        lanes = [[other for other in range(len(carts)) if self.same_lane(cart, other)] for cart in range(len(carts))]
        self.front = [[other for other in lanes[cart] if other < cart][-1:] for cart in range(len(carts))]
        self.rear = [[other for other in lanes[cart] if cart < other][:1] for cart in range(len(carts))]
        shared = [(zone, a, b) for zone in range(len(gaps)) for b in range(len(carts)) for a in range(b)
                  if zone in self.step[a] and zone in self.step[b]]
        self.pairs = [pair for pair in shared if not self.same_lane(*pair[1:])]
        self.lane_orders = [pair for pair in shared if self.same_lane(*pair[1:])]
        self.decided = {}

    def same_lane(self, a, b):
        return self.carts[a]['lane'] == self.carts[b]['lane']

    def gap(self, zone, a, b):
        return self.gaps[zone][0] if self.same_lane(a, b) else self.gaps[zone][1]

    def order_of(self, low, high, trial, pair):
        """The pair's order while the group of ranks is solved, or none."""
        zone, a, b = pair
        ranks = [self.rank[a], self.rank[b]]
        lower_first = (a, b) if ranks[0] < ranks[1] else (b, a)
        if max(ranks) < low:
            return self.decided.get(pair, lower_first)
        if low <= min(ranks) and max(ranks) < high:
            return trial.get(pair)
        if high <= min(ranks):
            return None
        return lower_first

    def present(self, low, high, trial):
        """Zone, first and second of each order present."""
        found = [(pair[0], self.order_of(low, high, trial, pair)) for pair in self.pairs]
        return self.lane_orders + [(zone, *order) for zone, order in found if order]

    def moves(self, orders):
        """The carts and positions of the moves made until none is left, or none where the moves have a cycle."""
        ahead = ahead_in(orders)
        at, made = [0] * len(self.carts), []
        while True:
            ready = [cart for cart in range(len(self.carts)) if self.may_move(ahead, at, cart)]
            if not ready:
                break
            made.append((ready[0], at[ready[0]]))
            at[ready[0]] += 1
        out = all(at[cart] == len(self.carts[cart]['route']) + 1 for cart in range(len(self.carts)))
        return made if out else None

    def may_move(self, ahead, at, cart):
        route = self.carts[cart]['route']
        if at[cart] >= len(route):
            return at[cart] == len(route)
        if at[cart] == 0 and any(at[front] == 0 for front in self.front[cart]):
            return False
        zone = route[at[cart]][0]
        return all(self.step[other][zone] + 2 <= at[other] for other in ahead.get((zone, cart), []))

    def ready(self, enter, cart, place):
        """When a cart could enter a step if no zone were taken."""
        if place == 0:
            return max([self.carts[cart]['arrival']] + [enter[front, 0] for front in self.front[cart]])
        _, passing, travel = self.carts[cart]['route'][place - 1]
        return enter[cart, place - 1] + passing + travel

    def times(self, orders):
        """Entering and leaving times of each step, the finish, and the spare times."""
        made, ahead = self.moves(orders), ahead_in(orders)
        behind = ahead_in([(zone, second, first) for zone, first, second in orders])
        enter, leave = {}, {}
        for cart, place in made:
            route = self.carts[cart]['route']
            if place < len(route):
                zone = route[place][0]
                clear = [leave[other, self.step[other][zone]] + self.gap(zone, other, cart) for other in ahead.get((zone, cart), [])]
                enter[cart, place] = max([self.ready(enter, cart, place)] + clear)
            if place > 0:
                leave[cart, place - 1] = enter[cart, place] - route[place - 1][2] if place < len(route) else enter[cart, place - 1] + route[place - 1][1]
        finish, spare = max(leave.values(), default=0), {}
        for cart, place in reversed(made):
            route = self.carts[cart]['route']
            if place < len(route):
                zone = route[place][0]
                own = spare[cart, place + 1] if place + 1 < len(route) else finish - leave[cart, place]
                steps_behind = [(other, self.step[other][zone]) for other in behind.get((zone, cart), [])]
                if place == 0:
                    steps_behind += [(rear, 0) for rear in self.rear[cart]]
                spare[cart, place] = min([own] + [spare[step] for step in steps_behind])
        return enter, finish, spare

    def candidates(self, low, high, trial):
        """Each direction of each undecided pair of the group: what it is compared by, the pair, and its carts."""
        enter, _, spare = self.times(self.present(low, high, trial))
        for pair in self.pairs:
            if pair in trial or not all(low <= self.rank[cart] < high for cart in pair[1:]):
                continue
            zone = pair[0]
            for a, b in [pair[1:], pair[:0:-1]]:
                i, j = self.step[a][zone], self.step[b][zone]
                cost = enter[a, i] + self.carts[a]['route'][i][1] + self.gap(zone, a, b) - enter[b, j] - spare[b, j]
                yield (-cost, zone, self.rank[a], self.rank[b]), pair, a, b

    def trial(self, low, high):
        """The orders that the group's trial decides, or none where it fails."""
        trial = {}
        while True:
            found = list(self.candidates(low, high, trial))
            if not found:
                return trial
            _, pair, a, b = min(found)
            for order in [(b, a), (a, b)]:
                trial[pair] = order
                if self.moves(self.present(low, high, trial)) is not None:
                    break
            else:
                return None

    def solve(self, low, high):
        trial = self.trial(low, high)
        if trial is None:
            middle = low + (high - low) // 2
            self.solve(low, middle)
            self.solve(middle, high)
        else:
            self.decided.update(trial)

    def listed(self, key):
        """Each zone's visitors in the order of a key of zone and cart."""
        return [sorted(plans.visitors_of(zone, self.carts), key=lambda cart: key(zone, cart)) for zone in range(len(self.gaps))]

    def by_removal(self):
        self.solve(0, len(self.carts))
        ahead = ahead_in(self.present(len(self.carts), len(self.carts), {}))
        return self.listed(lambda zone, cart: len(ahead.get((zone, cart), [])))

    def by_arrival(self):
        return self.listed(lambda zone, cart: self.rank[cart])

    def by_the_better(self):
        """The lists that finish earlier, the removal rule's if equal."""
        return min([self.by_removal(), self.by_arrival()], key=self.finish)

    def finish(self, lists):
        return self.times([(zone, *pair) for zone, passing in enumerate(lists) for pair in itertools.combinations(passing, 2)])[1]


def ahead_in(orders):
    """For each zone and cart the carts ahead of it there."""
    ahead = {}
    for zone, first, second in orders:
        ahead.setdefault((zone, second), []).append(first)
    return ahead


RULES = {'': Crossing.by_removal, 'first': Crossing.by_arrival, 'better': Crossing.by_the_better}


def printed(sheet, word=''):
    """What our planner program writes for a sheet with this word: the plan on standard output, or the refusal on standard error."""
    refusal, gaps, carts = sheets.read(sheet)
    if refusal:
        return b'', refusal.line().encode() + b'\n'
    return plans.written(RULES[word](Crossing(gaps, carts))), b''
