#!/usr/bin/env python3
"""An independent model of the desk program (docs/RULES.md, sections 4 and 9).

  tests/desk/model.py            print the cases: a line each, INPUT|OUTPUT, as `printf %b` reads them
  tests/desk/model.py --check    say whether tests/desk/cases is what this prints

The model shares nothing with the library: the line is matched by a regular expression, digits are lists, and the hops of a
route are counted by walking its bytes from the source to the first arrival.
"""
import os
import random
import sys

sys.dont_write_bytecode = True
sys.path.insert(0, os.path.join(os.path.dirname(os.path.abspath(__file__)), '..', 'lines'))
from lines import damaged, digits, main, read  # noqa: E402


def refusal(n, k, a, d):
    if not 2 <= n <= 64:
        return 1
    if k > 3:
        return 2
    if n ** (k + 1) > 4096:
        return 3
    if a >= n ** (k + 1) or d >= n ** (k + 1):
        return 4
    if a == d:
        return 5
    return 0


def built(n, k, a, d, i):
    """The bytes of route i."""
    x, y = digits(n, k, a), digits(n, k, d)
    if x[i] != y[i]:
        hops, order = [], list(range(i, -1, -1)) + list(range(k, i, -1))
    else:
        x[i] = (x[i] + 1) % n
        hops, order = [64 * i + x[i]], list(range(i - 1, -1, -1)) + list(range(k, i - 1, -1))
    for l in order:
        if x[l] != y[l]:
            x[l] = y[l]
            hops.append(64 * l + y[l])
    return hops + [0] * (8 - len(hops))


def count_hops(n, k, a, d, route):
    """How many bytes are read until the destination is first reached."""
    x = digits(n, k, a)
    for h, byte in enumerate(route):
        x[byte // 64] = byte % 64
        if x == digits(n, k, d):
            return h + 1
    raise AssertionError('a built route that does not arrive')


def answer(data):
    numbers = read(data, 4)
    if numbers is None:
        return b'input\n'
    n, k, a, d = numbers
    r = refusal(n, k, a, d)
    if r:
        return b'refused %d\n' % r
    text = ''
    for i in range(k, -1, -1):
        route = built(n, k, a, d, i)
        text += '%s %d\n' % (bytes(route).hex(), count_hops(n, k, a, d, route))
    return text.encode()


SHAPES = [(2, 0), (64, 0), (2, 1), (4, 1), (64, 1), (2, 2), (16, 2), (2, 3), (3, 3), (8, 3)]


def groups():
    yield from damaged(b'8 3 1 521')
    yield 'zeros with zeros before them', [b'8 0000 1 3\n', b'8 3 00000 00001\n']
    yield 'refusal 1', [b'1 0 0 1\n', b'0 0 0 0\n', b'65 0 0 1\n', b'65 4 0 0\n', b'1 4 9 9\n', b'1 0 0 1']
    yield 'refusal 2', [b'2 4 0 1\n', b'64 4 0 0\n', b'8 4 1 521\n', b'2 4 65535 65535\n']
    yield 'refusal 3', [b'9 3 0 1\n', b'17 2 0 1\n', b'64 2 0 0\n', b'64 3 5000 5000\n']
    yield 'full rooms alone: no half-filled one takes the place of a room that is too large, and five numbers are no line', [
        b'12 3 0 1\n', b'45 2 0 1\n', b'9 3 3644 0\n', b'8 3 2048 4095\n', b'8 3 4 1537 1545\n', b'8 3 8 1 521\n']
    yield 'refusal 4', [b'8 3 4096 0\n', b'8 3 0 4096\n', b'8 3 4096 4096\n', b'2 0 2 0\n', b'2 0 0 2\n', b'4 1 16 15\n']
    yield 'refusal 5', [b'8 3 1 1\n', b'2 0 0 0\n', b'8 3 4095 4095\n', b'2 0 0 00\n']
    yield 'the ends of every kind of room', [b'%d %d %d %d\n' % (n, k, a, d) for n, k in SHAPES for a, d in ((0, n ** (k + 1) - 1), (n ** (k + 1) - 1, 0), (0, 1))]
    pick = random.Random(1)
    lines = []
    for _ in range(40):
        n, k = pick.choice(SHAPES)
        a, d = pick.sample(range(n ** (k + 1)), 2)
        lines.append(b'%d %d %d %d\n' % (n, k, a, d))
    yield 'forty more', lines


if __name__ == '__main__':
    main(__file__, groups(), answer)
