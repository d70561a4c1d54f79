"""The Petri net of #106 as docs/NET.md says, in the plainest form: sets of places, transitions and arcs under their names, fired until none can fire.

`printed` is what our program net_main prints for a sheet and a plan; programs.py compares it with that.
"""
import random

import judging
import plans
import sheets

WORDS = 'oblakosh: net_main takes no word, or dot\n'


def name(form, *numbers):
    """A name as the Graphviz form has it: the numbers in two digits each."""
    return form % tuple('%02d' % number for number in numbers)


def at(cart, position):
    return name('%s at %s', cart, position)


def move(cart, position):
    return name('%s from %s', cart, position)


class Net:
    """Places with their tokens, transitions, and arcs; each with the line that tells it, under what the lines are ordered by."""

    def __init__(self, carts, lists):
        self.marking, self.transitions, self.arcs, self.lines = {}, [], [], []
        self.carts, self.lists = carts, lists
        for cart, values in enumerate(carts):
            self.add_cart(cart, len(values['route']) + 1)
        for zone, passing in enumerate(lists):
            for place, rear in enumerate(passing):
                for front in passing[:place]:
                    self.add_pair(zone, front, rear)
        for cart in range(len(carts)):
            for front in judging.fronts_of(carts, cart):
                self.add_between('line', name('line %s %s', front, cart), (front, 0), (cart, 0))

    def tell(self, word, cart, position, other=None, other_position=None, dot=''):
        """A line of 23 bytes. A cart comes before its other carts; with another cart the stop line comes before the pair, else as told."""
        numbers = ['--' if number is None else '%02d' % number for number in (cart, position, other, other_position)]
        order = (cart, position, -1 if other is None else other, 'pair' in word, len(self.lines))
        self.lines.append((order, ' '.join([word] + numbers), dot))

    def add_place(self, place, tokens):
        self.marking[place] = tokens
        return '"%s" [shape=circle label="%s" xlabel="%s"]' % (place, '&bull;' if tokens else '', place)

    def add_arc(self, source, target):
        self.arcs.append((source, target))
        return '"%s" -> "%s"' % (source, target)

    def add_cart(self, cart, last):
        for position in range(last + 1):
            here = at(cart, position)
            self.tell('place cart', cart, position, dot=self.add_place(here, int(position == 0)))
            if position == last:
                break
            self.transitions.append(move(cart, position))
            self.tell('transition', cart, position, dot='"%s" [shape=box]' % move(cart, position))
            self.tell('arc cart >', cart, position, dot=self.add_arc(here, move(cart, position)))
            self.tell('arc > cart', cart, position, dot=self.add_arc(move(cart, position), at(cart, position + 1)))

    def add_pair(self, zone, front, rear):
        into = [step[0] for step in self.carts[rear]['route']].index(zone)
        out_of = judging.left_at(self.carts[front], zone) - 1
        self.add_between('pair', name('pair %s %s at %s', front, rear, into), (front, out_of), (rear, into))

    def add_between(self, kind, place, front, rear):
        """A place that the front cart's move fills and the rear cart's move empties."""
        self.tell('place ' + kind, *rear, front[0], dot=self.add_place(place, 0))
        self.tell('arc > ' + kind, *rear, *front, dot=self.add_arc(move(*front), place))
        self.tell('arc %s >' % kind, *rear, front[0], dot=self.add_arc(place, move(*rear)))

    def text(self):
        return ''.join(line + '\n' for _, line, _ in sorted(self.lines))

    def dot(self):
        return 'digraph net {\n%s}\n' % ''.join(dot + '\n' for _, _, dot in sorted(self.lines))

    def fired(self):
        """The places that have a token when no transition can fire."""
        marking = dict(self.marking)
        sources = {t: [source for source, target in self.arcs if target == t] for t in self.transitions}
        targets = {t: [target for source, target in self.arcs if source == t] for t in self.transitions}
        while True:
            ready = [t for t in self.transitions if all(marking[place] for place in sources[t])]
            if not ready:
                return {place for place, tokens in marking.items() if tokens}
            for place in sources[ready[-1]]:
                marking[place] -= 1
            for place in targets[ready[-1]]:
                marking[place] += 1

    def check_end(self):
        """The marking left tells each cart's position, which is that of the moves made until none is left."""
        _, end = judging.moves_of(self.carts, self.lists)
        marked = self.fired()
        for cart, values in enumerate(self.carts):
            positions = [position for position in range(len(values['route']) + 2) if at(cart, position) in marked]
            assert positions == [end[cart]], (cart, positions, end)


def printed(given, word=''):
    """What our program prints for these bytes on standard input with this word, on standard output and on standard error."""
    refusal, carts, lists = plans.read(*judging.parted(given[:2048]))
    if refusal:
        return '', refusal.line() + '\n'
    net = Net(carts, lists)
    return net.dot() if word == 'dot' else net.text(), ''


def longest():
    """16 carts of 8 steps in 8 zones, all on one lane."""
    carts = [(9, 0, [(zone, 10, 0) for zone in range(8)]) for _ in range(16)]
    return plans.sheet_of([(0, 0)] * 8, carts) + plans.written([list(range(16))] * 8)


def random_inputs():
    """Sheets with plans that are readable, locked or not, and with plans and sheets of every other kind."""
    rng = random.Random(106)
    for count, make in plans.KINDS:
        for _ in range(count // 50):
            gaps, carts = sheets.a_sheet(rng)
            yield b''.join(make(rng, gaps, carts, plans.lists_for(rng, gaps, carts)))
    for count, make in sheets.KINDS:
        for _ in range(count // 100):
            yield make(rng, *sheets.a_sheet(rng))
