"""Lays out what `bench count` and `bench clock` measured: a table a series, with a column for each operation; first the proved
code's figures, then the yardstick's, then their ratio. A column `why : move` has the ratio of the two by the same maker.
  tables.py count DUMPS PHASES   callgrind's dumps, one for each line of the phases that `bench count` printed
  tables.py clock TIMES          the lines that `bench clock` printed"""
import re
import sys

TITLES = {
    'sizes': 'Sizes: instructions of a call',
    'carts': 'Growth with carts: instructions of a call, 8 steps a cart, 24 zones',
    'zones': 'Growth with zones: instructions of a call, 16 carts of 8 steps',
    'clock': 'Clock: nanoseconds of a call (processor time, the median), on this machine as it is loaded now',
}
GROWTH = ('carts', 'zones')
SHARES = {'why': 'move'}  # an operation, and the one that it is laid beside


def put(table, size, maker, operation, figure):
    """Puts a figure into a table, and beside it the ratio to another operation's, if it has one."""
    table[size, maker, operation] = figure
    if operation in SHARES:
        table[size, maker, f'{operation} : {SHARES[operation]}'] = quotient(figure, table[size, maker, SHARES[operation]])


def is_share(operation):
    return ' : ' in operation


def counted(dumps, phases):
    """The instructions of a call, by series, size, maker and operation; of a plan also those of a turn of the removal rule."""
    figures = {}
    for number, line in enumerate(open(phases), 1):
        series, size, maker, operation, calls, turns = line.rstrip('\n').split('\t')
        total = int(re.search(r'^totals: (\d+)', open(f'{dumps}.{number}').read(), re.M).group(1))
        table = figures.setdefault(series, {})
        put(table, size, maker, operation, total / int(calls))
        if int(turns):
            table[size, maker, 'a turn'] = total / int(turns)
    return figures


def timed(times):
    figures = {}
    for line in open(times):
        series, size, maker, operation, nanoseconds = line.rstrip('\n').split('\t')
        put(figures.setdefault(series, {}), size, maker, operation, float(nanoseconds))
    return figures


def quotient(above, below):
    return above / below if above and below else None


def add_ratios(table):
    for size, maker, operation in list(table):
        if maker == 'proved' and not is_share(operation):
            table[size, 'ratio', operation] = quotient(table[size, maker, operation], table[size, 'yardstick', operation])


def print_row(name, cells):
    print(name + ''.join(f'{cell:>12}' for cell in cells))


def shown(figure, form):
    return form.format(figure) if figure else ''


def print_table(series, table):
    add_ratios(table)
    sizes = list(dict.fromkeys(size for size, _, _ in table))
    operations = list(dict.fromkeys(operation for _, _, operation in table))
    width = max(9, *map(len, sizes))
    print(f'\n{TITLES[series]}')
    print_row(f"{'':11}{series if series in GROWTH else '':{width}}", operations)
    for maker in ('proved', 'yardstick', 'ratio'):
        for size in sizes:
            name = f"{maker if size == sizes[0] else '':11}{size:{width}}"
            print_row(name, [shown(table.get((size, maker, operation)), '{:.2f}' if maker == 'ratio' or is_share(operation) else '{:,.0f}')
                             for operation in operations])
        if series in GROWTH and maker != 'ratio':
            first, last = ([None if is_share(operation) else table.get((size, maker, operation)) for operation in operations]
                           for size in (sizes[0], sizes[-1]))
            print_row(f"{'':11}{sizes[-1] + ' : ' + sizes[0]:{width}}", [shown(figure, '{:,.2f}') for figure in map(quotient, last, first)])


if __name__ == '__main__':
    figures = counted(*sys.argv[2:]) if sys.argv[1] == 'count' else timed(*sys.argv[2:])
    for series, table in figures.items():
        print_table(series, table)
