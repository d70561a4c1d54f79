#!/usr/bin/env python3
"""Compares our proved programs with sheets.py, plans.py, judging.py, planning.py, moving.py and nets.py, which follow documents 01 and 02 in a
form of their own.

programs.py sheet FILE     prints what the program sheet_main must print for the sheet in FILE
programs.py judge FILE     prints what the program judge_main must print for the sheet and plan in FILE
programs.py why FILE       prints what the program why_main must print for the sheet, plan, record and cart in FILE
programs.py net FILE       prints what the program net_main must print for the sheet and plan in FILE, and with the word dot after it
programs.py lines FILE..   prints what the program vectors must print for these texts, with a sheet or a sheet and a plan a line
programs.py check VECTORS JUDGE PLANNER WHY NET   compares the stored output of all, then runs these programs on random sheets and plans and odd
                           inputs; the net's Graphviz form is drawn by the command dot
"""
import itertools
import os
import random
import re
import subprocess
import sys
import tempfile

import judging
import moving
import nets
import planning
import plans
import sheets

ROOT = os.path.dirname(os.path.dirname(os.path.abspath(__file__)))
DATA = ['crates/vectors/data/sheets.txt', 'crates/vectors/data/plans.txt', 'crates/vectors/data/verdicts.txt']


def read_text(path):
    with open(path) as file:
        return file.read()


def read_bytes(path):
    with open(path, 'rb') as file:
        return file.read()


# A case is a sheet alone, or a sheet and a plan for it. A line of a text holds one in hexadecimal.

def shown(case):
    return sheets.shown(*case) if len(case) == 1 else plans.shown(*case) + judging.shown(*case)


def line_of(case):
    return ' | '.join(lent.hex() or '-' for lent in case)


def bytes_of(digits):
    return b'' if digits.strip() == '-' else bytes.fromhex(digits)


def cases_of(text):
    """Line number and case, for each line that holds one."""
    for number, line in enumerate(text.split('\n'), 1):
        digits = line.split('#')[0].strip()
        if digits:
            yield number, [bytes_of(lent) for lent in digits.split('|')]


def blocks_of(cases):
    """What the program vectors must print for each case, under its line number."""
    return ['line %d:\n%s\n' % (number, '\n'.join(shown(case))) for number, case in cases]


def output_of(files):
    """What it must print for files with these blocks."""
    return ''.join('file %d:\n%s' % (number, ''.join(blocks)) for number, blocks in enumerate(files, 1))


def output_of_texts(paths):
    return output_of(blocks_of(cases_of(read_text(path))) for path in paths)


# Comparing.

def compare(wanted, text, what, files=()):
    """Ends the program where a text is not the one wanted, with the case it is in if the files' cases are given."""
    if wanted == text:
        return
    at = {'file': 0, 'line': 0}
    for want, have in zip(wanted.split('\n') + ['no more'], text.split('\n') + ['no more']):
        if want != have:
            break
        heading = re.fullmatch(r'(file|line) (\d+):', want)
        if heading:
            at[heading[1]] = int(heading[2])
    case = line_of(files[at['file'] - 1][at['line'] - 1]) if files else ''
    sys.exit('%s: file %d line %d: expected %r, got %r\n%s' % (what, at['file'], at['line'], want, have, case))


def given(case, verdict):
    """What a case gives when it is read, or judged: done, or the number and the place, and the cart and step if they are told."""
    first = (judging.shown(*case) if verdict else shown(case))[0]
    return 'done' if first.startswith('ok ') else first.removeprefix('refused ')


def check_comments(path, verdict):
    """The comment above a stored case says what was expected of it by hand."""
    text = read_text(path)
    lines = text.split('\n')
    cases = list(cases_of(text))
    for number, case in cases:
        above = lines[number - 2]
        wanted = given(case, verdict)
        if not above.startswith('# %s: ' % wanted):
            sys.exit('%s, line %d: document 01 gives %s, the line above is %r' % (path, number, wanted, above))
    print('%s: %d cases as expected by hand' % (path, len(cases)))


def check_stored():
    sheet = read_bytes('examples/S.sheet')
    if sheet != read_bytes('crates/sheet_main/stdin'):
        sys.exit('crates/sheet_main/stdin is not examples/S.sheet')
    compare('\n'.join(sheets.shown(sheet)) + '\n', read_text('crates/sheet_main/stdout'), 'crates/sheet_main/stdout')
    both = sheet + read_bytes('examples/A.plan')
    if both != read_bytes('crates/judge_main/stdin'):
        sys.exit('crates/judge_main/stdin is not examples/S.sheet and A.plan')
    compare(judging.printed(both), read_text('crates/judge_main/stdout'), 'crates/judge_main/stdout')
    for path in DATA:
        check_comments(path, path.endswith('verdicts.txt'))
    compare(output_of_texts(DATA), read_text('crates/vectors/stdout'), 'crates/vectors/stdout')


def run(program, files):
    """What the program vectors prints for files with these cases, one a line."""
    with tempfile.TemporaryDirectory() as room:
        paths = [os.path.join(room, '%d.txt' % number) for number in range(len(files))]
        for path, cases in zip(paths, files):
            with open(path, 'w') as file:
                file.writelines(line_of(case) + '\n' for case in cases)
        with open(os.path.join(room, 'stdout'), 'w+') as out:
            subprocess.run([program] + paths, stdout=out, check=True)
            out.seek(0)
            return out.read()


def count_numbers(kind, numbers, blocks):
    """Prints how many random cases gave each number, and ends the program where one of them was never given."""
    seen = [number for block in blocks for number in set(re.findall(r'^(?:ok|.*refused (\d+)) ', block, re.M))]
    print('random %s: %d as expected' % (kind, len(blocks)))
    for number in numbers:
        count = seen.count(str(number or ''))
        print('number %2d: %5d' % (number, count))
        if not count:
            sys.exit('number %d was never seen' % number)


def check_told(blocks):
    """Ends the program where the random cases told some cart or some step never."""
    told = [re.findall(r'^refused \d+ at \d+ cart (\d+) step (\d+)$', block, re.M) for block in blocks]
    for place, (what, numbers) in enumerate([('cart', range(1, 17)), ('step', range(9))]):
        missing = set(map(str, numbers)) - {pair[place] for pairs in told for pair in pairs}
        if missing:
            sys.exit('%s %s was never told' % (what, ', '.join(sorted(missing))))
    print('told a cart: %5d' % sum(map(bool, told)))


def refused_sheets():
    """The stored sheets that are refused."""
    return [case[0] for _, case in cases_of(read_text(DATA[0])) if sheets.read(case[0])[0]]


def check_inputs(program):
    """The judge program on standard input: cut after every byte, with a plan that is locked, more than it reads, and every stored sheet that is refused."""
    sheet = read_bytes('examples/S.sheet')
    accepted, locked = read_bytes('examples/A.plan'), read_bytes('examples/B.plan')
    inputs = [(sheet + accepted)[:size] for size in range(len(sheet + accepted) + 1)]
    inputs += [sheet + locked, sheet + accepted + b'\0', b'\1\0\0' + accepted, b'\1\0\2' + sheet, bytes(2048), bytes(5000)]
    inputs += [sheet[:1] + size.to_bytes(2, 'big') + sheet[3:] + accepted + bytes(2500) for size in [46, 2047, 2048, 2049, 65535]]
    inputs += [refused + accepted for refused in refused_sheets()]
    for given in inputs:
        ran = subprocess.run([program], input=given, stdout=subprocess.PIPE, check=True)
        compare(judging.printed(given), ran.stdout.decode(), '%s on %s' % (program, given[:100].hex()))
    print('judge program: %d inputs as expected' % len(inputs))


def run_planner(program, sheet, *words):
    ran = subprocess.run([program, *words], input=sheet, stdout=subprocess.PIPE, stderr=subprocess.PIPE, check=True)
    return ran.stdout, ran.stderr


def check_planner(program):
    """The planner program on the stored sheets; with each of its words on random ones, and on every kind of sheet that is refused."""
    stored = [line.split() for line in read_text('compare/planned.txt').split('\n') if line and not line.startswith('#')]
    for sheet, plan in stored:
        compare(plan, run_planner(program, bytes.fromhex(sheet))[0].hex(), '%s on %s' % (program, sheet))
    rng = random.Random(3)
    small = [sheet for sheet in (sheets.a_sheet(rng) for _ in range(400)) if sum(len(cart[2]) for cart in sheet[1]) <= 20]
    cases = [sheets.written(sheets.fields_of(*sheet)) for sheet in small]
    cases += refused_sheets()
    for sheet, word in itertools.product(cases, planning.RULES):
        wanted, got = planning.printed(sheet, word), run_planner(program, sheet, *word.split())
        compare(repr(wanted), repr(got), '%s %s on %s' % (program, word, sheet[:100].hex()))
    print('planner program: %d stored and %d other sheets as expected' % (len(stored), len(cases)))


def run_on(given, *command, check=True):
    """What a program prints on these bytes, and how many of them it leaves."""
    with tempfile.TemporaryFile() as file:
        file.write(given)
        file.seek(0)
        ran = subprocess.run(command, stdin=file, stdout=subprocess.PIPE, stderr=subprocess.PIPE, check=check)
        return ran.stdout.decode(), ran.stderr.decode(), len(given) - os.lseek(file.fileno(), 0, os.SEEK_CUR)


def check_why(program):
    """The program that says why: document 01's S cut after every byte and made longer than is read, and random questions with each number and length."""
    asked = moving.written(read_bytes('examples/S.sheet'), read_bytes('examples/A.plan'), [0] * 16, 0, 1)
    inputs = [asked[:size] for size in range(len(asked) + 1)] + [asked[-size:] for size in range(1, 30)]
    inputs += [asked[:-21] + bytes(size) + asked[-21:] for size in [1, 2048 - len(asked), 2049 - len(asked), 3000]]
    inputs += [asked[:1] + size.to_bytes(2, 'big') + asked[3:] + bytes(2500) for size in [46, 2027, 2028, 2048, 65535]]
    inputs += moving.random_questions()
    blocks = []
    for given in inputs:
        wanted = (*moving.printed(given), max(0, len(given) - 2048))
        compare(repr(wanted), repr(run_on(given, program, check=len(given) >= 21)), '%s on %s' % (program, given.hex()))
        blocks.append(wanted[0])
    count_numbers('questions', range(26), [re.sub(r'^cart .*\n(?s:.*)', 'ok ', block) for block in blocks])
    check_told(blocks)
    for length in range(1, 17):
        count = sum(block.startswith('cart ') and block.count('\n') == length for block in blocks)
        print('chains of %2d: %5d' % (length, count))
        if not count:
            sys.exit('a chain of %d was never seen' % length)


def check_drawn(program, given):
    """The command dot takes the net's Graphviz form and draws each of its places, transitions and arcs."""
    net = nets.Net(*plans.read_all(*judging.parted(given)))
    form, _, _ = run_on(given, program, 'dot')
    drawn, errors, _ = run_on(form.encode(), 'dot', '-Tsvg')
    count = [drawn.count('<g id="%s' % part) for part in ('node', 'edge')]
    if errors or count != [len(net.marking) + len(net.transitions), len(net.arcs)]:
        sys.exit('%s dot on %s: drawn %r, and said %r' % (program, given.hex(), count, errors))


def check_net(program):
    """The program that prints the net: S cut after every byte and made longer than is read, S on one lane, no carts, the longest net, random inputs."""
    sheet, accepted, locked = (read_bytes('examples/' + part) for part in ['S.sheet', 'A.plan', 'B.plan'])
    one_lane = sheet[:29] + b'\0' + sheet[30:]
    no_carts = plans.sheet_of([(0, 0)], []) + plans.written([[]])
    inputs = [(sheet + accepted)[:size] for size in range(len(sheet + accepted) + 1)]
    inputs += [sheet + locked, one_lane + accepted, one_lane + locked, no_carts, nets.longest(), sheet + accepted + bytes(3000)]
    if len(nets.printed(nets.longest())[0]) != 80891:
        sys.exit('the longest net has not the length that docs/NET.md says')
    inputs += nets.random_inputs()
    blocks, ends, drawn = [], [0, 0], 0
    for given in inputs:
        for words in [(), ('dot',)]:
            wanted = (*nets.printed(given, *words), max(0, len(given) - 2048))
            compare(repr(wanted), repr(run_on(given, program, *words)), ' '.join([program, *words, 'on', given.hex()]))
        blocks.append(wanted[1] or 'ok ')
        refusal, carts, lists = plans.read(*judging.parted(given[:2048]))
        if not refusal:
            net = nets.Net(carts, lists)
            net.check_end()
            ends[judging.shown(*judging.parted(given[:2048]))[0].startswith('refused 22')] += 1
            if len(net.lines) < 70 and drawn < 40:
                check_drawn(program, given)
                drawn += 1
    for words in [('dots',), ('Dot',), ('',), ('dot', 'dot'), ('x', 'dot')]:
        compare(repr(('', nets.WORDS)), repr(run_on(b'', program, *words, check=False)[:2]), ' '.join([program, *words]))
    count_numbers('nets', range(22), blocks)
    check_told(blocks)
    print('nets accepted: %d, locked: %d, drawn by dot: %d' % (*ends, drawn))
    if not all(ends) or not drawn:
        sys.exit('nets: accepted, locked and drawn ones are to be seen')


def check_random(program):
    files = [[[sheet] for sheet in sheets.random_sheets()], list(plans.random_plans())]
    blocks = [blocks_of(enumerate(cases, 1)) for cases in files]
    compare(output_of(blocks), run(program, files), program, files)
    count_numbers('sheets', range(15), blocks[0])
    check_told(blocks[0])
    count_numbers('plans', [*range(23), 27, 28], blocks[1])
    check_told(blocks[1])


def main(words):
    if words[:1] == ['sheet'] and len(words) == 2:
        print('\n'.join(sheets.shown(read_bytes(words[1]))))
    elif words[:1] == ['judge'] and len(words) == 2:
        print(judging.printed(read_bytes(words[1])), end='')
    elif words[:1] == ['why'] and len(words) == 2:
        print(moving.printed(read_bytes(words[1]))[0], end='')
    elif words[:1] == ['net'] and (len(words) == 2 or words[2:] == ['dot']):
        print(nets.printed(read_bytes(words[1]), *words[2:])[0], end='')
    elif words[:1] == ['lines']:
        print(output_of_texts(words[1:]), end='')
    elif words[:1] == ['check'] and len(words) == 6:
        vectors, judge, planner, why, net = map(os.path.abspath, words[1:])
        os.chdir(ROOT)
        check_stored()
        check_inputs(judge)
        check_planner(planner)
        check_why(why)
        check_net(net)
        check_random(vectors)
    else:
        sys.exit(__doc__)


if __name__ == '__main__':
    main(sys.argv[1:])
