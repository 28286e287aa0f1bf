#!/usr/bin/env python3
"""An independent model of the program `tree` (docs/RULES.md, section 13).

  tests/tree/model.py            print the cases: a line each, INPUT|OUTPUT, as `printf %b` reads them
  tests/tree/model.py --check    say whether tests/tree/cases is what this prints

The model shares nothing with the library, which has the rule of the parent: here a tree is grown as Figure 5 of the paper
grows it, pass by pass, and each server's parent is the one that the growing gave it.
"""
import os
import random
import sys

sys.dont_write_bytecode = True
sys.path.insert(0, os.path.join(os.path.dirname(os.path.abspath(__file__)), '..', 'lines'))
from lines import damaged, digits, main, read  # noqa: E402


def refusal(n, k, m, a, l):
    if not 2 <= n <= 64:
        return 1
    if k > 3:
        return 2
    if not 2 <= m <= n:
        return 26
    if m * n ** k > 4096:
        return 3
    if a >= m * n ** k:
        return 4
    if l > k:
        return 20
    return 0


def moved(bounds, x, level, by):
    """The digits x with one of them moved on, round its bound."""
    y = list(x)
    y[level] = (y[level] + by) % bounds[level]
    return tuple(y)


def grown(n, k, m, a, l):
    """The parent of each server but the source, all as digits: the root, the passes, and the servers with the source's digit."""
    bounds = [n] * k + [m]
    source = tuple(digits(n, k, a))
    root = moved(bounds, source, l, 1)
    parent = {root: source}
    for i in range(k + 1):
        level = (l + i) % (k + 1)
        for start in list(parent):
            here = start
            for _ in range(bounds[level] - (2 if i == 0 else 1)):
                there = moved(bounds, here, level, 1)
                assert there not in parent and there != source
                parent[there] = here
                here = there
    for x in range(m * n ** k):
        there = tuple(digits(n, k, x))
        if there != source and there[l] == source[l]:
            assert there not in parent
            parent[there] = moved(bounds, there, l, -1)
    return parent


def words(n, x):
    """The number that digits write, and the digits, the highest first."""
    return '%d %s' % (sum(d * n ** i for i, d in enumerate(x)), '.'.join(str(d) for d in reversed(x)))


def answer(data):
    numbers = read(data, 5)
    if numbers is None:
        return b'input\n'
    n, k, m, a, l = numbers
    r = refusal(n, k, m, a, l)
    if r:
        return b'refused %d\n' % r
    parent = grown(n, k, m, a, l)
    assert len(parent) == m * n ** k - 1
    text = ''
    for x in range(m * n ** k):
        own = tuple(digits(n, k, x))
        text += '%s %s\n' % (words(n, own), words(n, parent[own]) if own in parent else '- -')
    return text.encode()


SHAPES = [(2, 0, 2), (3, 0, 2), (64, 0, 64), (64, 0, 3), (2, 1, 2), (3, 1, 2), (4, 1, 4), (4, 1, 2), (11, 1, 11), (64, 1, 2), (2, 2, 2), (3, 2, 2), (5, 2, 3), (2, 3, 2), (3, 3, 3), (3, 3, 2)]
LARGE = [(64, 1, 64), (16, 2, 16), (8, 3, 8), (8, 3, 4), (12, 3, 2), (45, 2, 2), (11, 3, 3), (64, 1, 63)]


def line(*numbers):
    return b'%d %d %d %d %d\n' % numbers


def groups():
    yield from damaged(b'4 1 4 0 0')
    yield 'four numbers are the line of another program', [b'4 1 0 0\n', b'8 3 1 521\n']
    yield 'zeros with zeros before them', [b'3 0000 3 00 000\n', b'2 1 2 0000 1\n']
    yield 'refusal 1', [line(1, 0, 1, 0, 0), line(0, 0, 0, 0, 0), line(65, 0, 65, 0, 0), line(65, 4, 66, 9999, 9), line(1, 4, 9, 9, 9), b'1 0 1 0 0']
    yield 'refusal 2', [line(2, 4, 2, 0, 0), line(2, 4, 1, 9999, 9), line(64, 65535, 65, 0, 0)]
    yield 'refusal 26', [line(4, 1, 1, 0, 0), line(4, 1, 0, 0, 0), line(4, 1, 5, 0, 0), line(64, 3, 65, 0, 0), line(64, 3, 1, 65535, 4), line(4, 1, 1, 16, 2)]
    yield 'refusal 3', [line(9, 3, 9, 0, 0), line(17, 2, 17, 0, 0), line(64, 2, 2, 0, 0), line(64, 3, 64, 65535, 4), line(12, 3, 3, 0, 0)]
    yield 'refusal 4', [line(4, 1, 4, 16, 0), line(4, 1, 4, 16, 2), line(4, 1, 2, 8, 0), line(2, 0, 2, 2, 0), line(8, 3, 8, 4096, 0), line(64, 0, 3, 3, 1)]
    yield 'refusal 20', [line(4, 1, 4, 3, 2), line(4, 1, 4, 15, 65535), line(2, 0, 2, 1, 1), line(8, 3, 8, 4095, 4)]
    yield 'and no refusal beside each', [line(64, 0, 64, 0, 0), line(4, 1, 4, 15, 1), line(4, 1, 2, 7, 1), line(2, 3, 2, 15, 3)]
    yield 'small rooms whole, from their first and their last server', [
        line(n, k, m, a, l) for n, k, m in SHAPES for a in (0, m * n ** k - 1) for l in range(k + 1)]
    yield 'large rooms', [line(n, k, m, a, l) for n, k, m in LARGE for a, l in ((0, 0), (m * n ** k - 1, k))]
    pick = random.Random(1)
    lines = []
    for _ in range(40):
        n, k, m = pick.choice(SHAPES)
        lines.append(line(n, k, m, pick.randrange(m * n ** k), pick.randrange(k + 1)))
    yield 'forty more', lines


if __name__ == '__main__':
    main(__file__, groups(), answer)
