#!/usr/bin/env python3
"""An independent model of the rules (docs/RULES.md), for the stored output of the programs `worked_..`.

  tests/worked/model.py            recompute every row of crates/worked_*/stdout and say which differ
  tests/worked/model.py FILE..     the same for other files of rows

Either first grows all spanning trees of small rooms, and ends with status 1 where one is not what rules 13.1 to 13.4 say.

A row is a question, ' = ' and an answer. A question names its room by (n,k) where the room is full, and by (n,k,m) where it is
not. A step names the bytes of its neighbour table and the one entry that is filled, or says 'all': the entry of each byte then
has the byte as its MAC, the byte's level as its OutPort, and flag 1. The model shares nothing with the library: digits are
lists, switches are counted one by one, neighbours are found by comparing digits, the level and the old value of a hop by comparing
its two servers, an alternate is found by trying all routes in order, failed links are counted by going through all
servers of the room, where two routes first meet is the least of all their meetings, and a spanning tree is grown from its
root, pass by pass, as the paper's Figure 5 does it.
"""
import collections
import functools
import glob
import itertools
import math
import os
import re
import sys

# n ports a switch, levels 0 to k, and m values of digit k
Shape = collections.namedtuple('Shape', 'n k m')


class Refused(Exception):
    """A refusal with its place; beside it the earlier hop that 28 and 29 name, and the earlier route and hop of 15."""

    def __init__(self, number, route=0, hop=0, earlier=''):
        super().__init__(number)
        self.place = (number, route, hop, earlier)

    def __str__(self):
        n, r, h, earlier = self.place
        return f'refused {n}' + (f' route {r} hop {h}' if r else '') + (f' earlier {earlier}' if earlier else '')


def bounds(s):
    """What each digit is below, digit 0 first."""
    return [s.n] * s.k + [s.m]


def room(s):
    """All servers: as many as there are ways to choose the digits."""
    return range(math.prod(bounds(s)))


def digits(s, a):
    return [a // s.n ** i % s.n for i in range(s.k + 1)]


def address(s, ds):
    return sum(d * s.n ** i for i, d in enumerate(ds))


def test_shape(s):
    if not 2 <= s.n <= 64:
        raise Refused(1)
    if s.k > 3:
        raise Refused(2)
    if not 2 <= s.m <= s.n:
        raise Refused(26)
    if len(room(s)) > 4096:
        raise Refused(3)


def test_server(s, *servers):
    test_shape(s)
    for a in servers:
        if a not in room(s):
            raise Refused(4)


def test_level(s, level):
    if level > s.k:
        raise Refused(20)


def test_value(s, level, value):
    if value >= bounds(s)[level]:
        raise Refused(21)


def test_ends(s, a, d):
    test_server(s, a, d)
    if a == d:
        raise Refused(5)


def test_table(s, table):
    if len(table) != len(room(s)) or any(x >= 2 ** (s.k + 1) for x in table):
        raise Refused(6)


def switch(s, a, level):
    ds = digits(s, a)
    return level, address(s, ds[:level] + ds[level + 1:])


@functools.lru_cache
def hung(s):
    """Every switch with its servers, lower level first and then lower number."""
    servers = collections.defaultdict(list)
    for a in room(s):
        for level in range(s.k + 1):
            servers[switch(s, a, level)].append(a)
    return dict(sorted(servers.items()))


def is_failed(table, a, level):
    return table[a] >> level & 1 == 1


def counts(s, table):
    """The summary of a table: for each switch, how many of all servers hang on it by a failed link."""
    found = dict.fromkeys(hung(s), 0)
    for a in room(s):
        for level in range(s.k + 1):
            if is_failed(table, a, level):
                found[switch(s, a, level)] += 1
    return list(found.values())


def place(s, a, level):
    """The place of the entry of a link's switch: how many switches come before it."""
    return list(hung(s)).index(switch(s, a, level))


def test_length(s, summary):
    if len(summary) != len(hung(s)):
        raise Refused(30)


def test_entries(s, table, summary, places):
    want = counts(s, table)
    if any(summary[i] != want[i] for i in places):
        raise Refused(30)


def change(s, table, summary, a, levels, mark):
    """Marks the links of a server at some levels, or clears them; the entries of its switches there follow."""
    test_table(s, table)
    test_length(s, summary)
    touched = [place(s, a, level) for level in levels]
    test_entries(s, table, summary, touched)
    table = list(table)
    for level in levels:
        if is_failed(table, a, level) != mark:
            table[a] ^= 1 << level
    afresh = counts(s, table)
    return table, [afresh[i] if i in touched else x for i, x in enumerate(summary)]


def dead(s, table, summary):
    """The first switch all of whose servers' links there are failed."""
    test_shape(s)
    test_table(s, table)
    test_length(s, summary)
    test_entries(s, table, summary, range(len(summary)))
    for (level, number), servers in hung(s).items():
        if all(is_failed(table, a, level) for a in servers):
            return f'level {level} number {number}'
    return 'none'


def fresh(s, table, summary):
    test_shape(s)
    test_table(s, table)
    test_length(s, summary)
    return counts(s, table)


def live(table, level, a, b):
    return not table or not (is_failed(table, a, level) or is_failed(table, b, level))


def differing(s, a, b):
    return [i for i, (x, y) in enumerate(zip(digits(s, a), digits(s, b))) if x != y]


def parts(s, byte, route, hop):
    """The level and the value that a path byte names."""
    level, value = divmod(byte, 64)
    if level > s.k:
        raise Refused(8, route, hop)
    if value >= bounds(s)[level]:
        raise Refused(9, route, hop)
    return level, value


def land(s, a, byte, route, hop):
    """The server to which a path byte leads."""
    level, value = parts(s, byte, route, hop)
    ds = digits(s, a)
    if ds[level] == value:
        raise Refused(10, route, hop)
    ds[level] = value
    return address(s, ds)


def left(s, a, b):
    """What the hop from a to b left behind: the one digit in which they differ, and its value in a."""
    level, = differing(s, a, b)
    return level, digits(s, a)[level]


def back(s, a, b):
    """The path byte of the way back, from b to a."""
    level, old = left(s, a, b)
    return 64 * level + old


def hop(s, a, byte):
    test_server(s, a)
    return land(s, a, byte, 1, 1)


def hop_with(x, pairs):
    """The hop that a set of hops with what they meet or use has for x, which is one hop at most; None where it has none."""
    hops = [h for h, y in pairs if y == x]
    if len(hops) > 1:
        raise SystemExit(f'{x} has the hops {hops}')
    return hops[0] if hops else None


def test_again(met, used, there, sw, route, h):
    """Whether the route already has the server that hop h leads to, or else the switch that it uses."""
    for number, earlier in (28, hop_with(there, met)), (29, hop_with(sw, used)):
        if earlier is not None:
            raise Refused(number, route, h, f'hop {earlier}')


def walk(s, table, a, d, path, route=1):
    """The servers met, each with the hop that leads to it, and the switches used, each with its hop. The source has hop 0."""
    met, used, here = {(0, a)}, set(), a
    for h, byte in enumerate(path, 1):
        there = land(s, here, byte, route, h)
        level, = differing(s, here, there)
        if not live(table, level, here, there):
            raise Refused(11, route, h)
        sw = switch(s, here, level)
        test_again(met, used, there, sw, route, h)
        met.add((h, there))
        used.add((h, sw))
        here = there
        if here == d:
            for j in range(h, 8):
                if path[j]:
                    raise Refused(14, route, j + 1)
            return met, used
    raise Refused(13, route, 8)


def encode(s, servers):
    out = []
    for a, b in zip(servers, servers[1:]):
        level = differing(s, a, b)[0]
        out.append(64 * level + digits(s, b)[level])
    return out + [0] * (8 - len(out))


def write(s, servers):
    test_shape(s)
    if not 2 <= len(servers) <= 9:
        raise Refused(22)
    test_server(s, *servers)
    if servers[0] == servers[-1]:
        raise Refused(5)
    met, used = {(0, servers[0])}, set()
    for h, (a, b) in enumerate(zip(servers, servers[1:]), 1):
        apart = differing(s, a, b)
        if len(apart) != 1:
            raise Refused(23, 1, h)
        sw = switch(s, a, apart[0])
        test_again(met, used, b, sw, 1, h)
        met.add((h, b))
        used.add((h, sw))
    return encode(s, servers)


def read(s, a, d, path):
    test_ends(s, a, d)
    if len(path) != 8:
        raise Refused(7)
    return [server for _, server in sorted(walk(s, [], a, d, path)[0])]


def reverse(s, a, d, path):
    """The array of the servers backwards; the bytes of the way back, the last first, have to be the same."""
    met = read(s, a, d, path)
    turned = encode(s, met[::-1])
    trace = [back(s, x, y) for x, y in zip(met, met[1:])]
    if turned != trace[::-1] + [0] * (8 - len(trace)):
        raise SystemExit(f'the trace read backwards is not the reversed array: {bytes(path).hex()}')
    return turned


def meetings(one, other, ends):
    """Every hop of one route with every hop of another that uses its switch, or leads to its server, the ends left out."""
    return {(g, h) for mine, yours in zip(one, other) for g, x in mine for h, y in yours if x == y and x not in ends}


def arrays(data):
    return [data[i:i + 8] for i in range(0, len(data), 8)]


def check(s, table, a, d, data):
    test_ends(s, a, d)
    test_table(s, table)
    if len(data) % 8 or not data or len(data) > 8 * (s.k + 1):
        raise Refused(7)
    routes = [walk(s, table, a, d, x, i) for i, x in enumerate(arrays(data), 1)]
    for i, j in itertools.combinations(range(len(routes)), 2):
        met = meetings(routes[i], routes[j], (a, d))
        if met:
            earlier, later = min(met)
            raise Refused(15, j + 1, later, f'route {i + 1} hop {earlier}')


def pick(s, table, a, d, fresh, kept):
    test_ends(s, a, d)
    test_table(s, table)
    for data in (fresh, kept):
        if len(data) % 8 or len(data) > 8 * (s.k + 1):
            raise Refused(7)
    for data in (fresh, kept):
        for x in arrays(data):
            try:
                check(s, table, a, d, x)
                return bytes(x).hex()
            except Refused:
                pass
    raise Refused(16)


def built(s, a, d, i):
    """The servers of built route i."""
    here, want, out = digits(s, a), digits(s, d), [a]
    if here[i] != want[i]:
        order = list(range(i, -1, -1)) + list(range(s.k, i, -1))
    else:
        here[i] = (here[i] + 1) % bounds(s)[i]
        out.append(address(s, here))
        order = list(range(i - 1, -1, -1)) + list(range(s.k, i - 1, -1))
    for level in order:
        if here[level] != want[level]:
            here[level] = want[level]
            out.append(address(s, here))
    return out


def build(s, a, d):
    test_ends(s, a, d)
    return [built(s, a, d, i) for i in range(s.k, -1, -1)]


def switches(s, servers):
    return [switch(s, a, differing(s, a, b)[0]) for a, b in zip(servers, servers[1:])]


def alternate(s, table, a, d, routes):
    """The least route that shares no switch and no middle server with the given ones."""
    shut = {x for r in routes for x in r[1:-1]}
    off = {x for r in routes for x in switches(s, r)}

    def go(met, used, left):
        here = met[-1]
        if here == d:
            return met if left == 0 else None
        if left == 0 or len(differing(s, here, d)) > left:
            return None
        for level in range(s.k, -1, -1):
            sw = switch(s, here, level)
            if sw in used or sw in off or is_failed(table, here, level):
                continue
            ds = digits(s, here)
            for value in range(bounds(s)[level]):
                if value == ds[level]:
                    continue
                there = address(s, ds[:level] + [value] + ds[level + 1:])
                if there in met or there in shut or is_failed(table, there, level):
                    continue
                found = go(met + [there], used + [sw], left - 1)
                if found:
                    return found
        return None

    for hops in range(1, 9):
        found = go([a], [], hops)
        if found:
            return found
    return None


def whole(s, table, servers):
    return all(live(table, differing(s, a, b)[0], a, b) for a, b in zip(servers, servers[1:]))


def select(s, table, a, d):
    test_ends(s, a, d)
    test_table(s, table)
    settled = []
    for i in range(s.k, -1, -1):
        route = built(s, a, d, i)
        if not whole(s, table, route):
            route = alternate(s, table, a, d, settled + [built(s, a, d, j) for j in range(i)])
        if route:
            settled.append(route)
    if not settled:
        raise Refused(16)
    return settled


def step(s, here, d, index, path, table):
    test_server(s, here, d)
    if len(table) != 2048:
        raise Refused(17)
    if len(path) != 8:
        raise Refused(7)
    if here == d:
        return None
    if index >= 8:
        raise Refused(18)
    byte = path[index]
    there = land(s, here, byte, 1, index + 1)
    entry = table[8 * byte:8 * byte + 8]
    if entry[7] != 1:
        raise Refused(19, 1, index + 1)
    return there, index + 1, entry[:6], entry[6]


def every_entry():
    """A neighbour table in which each byte has an entry."""
    return [x for byte in range(256) for x in (0, 0, 0, 0, 0, byte, byte // 64, 1)]


def accepted_from(s, a):
    """How many destinations have a built list that a check in a healthy room takes."""
    count = 0
    for d in room(s):
        if d != a:
            data = [x for r in build(s, a, d) for x in encode(s, r)]
            check(s, [0] * len(room(s)), a, d, data)
            count += 1
    return count


# ---- spanning trees

def shifted(s, a, level, by):
    """The server with one digit raised by a number, mod its bound."""
    ds = digits(s, a)
    ds[level] = (ds[level] + by) % bounds(s)[level]
    return address(s, ds)


def hops_of(s, source, tree):
    """The hops of a tree, each a parent and its child, in the order in which Figure 5 adds them."""
    root = shifted(s, source, tree, 1)
    has, hops = [root], [(source, root)]
    for i in range(s.k + 1):
        level = (tree + i) % (s.k + 1)
        grown = []
        for a in has:
            # a chain is as long as its level has values; the first pass stops a step sooner, before the source
            for _ in range(bounds(s)[level] - (1 if i else 2)):
                b = shifted(s, a, level, 1)
                hops.append((a, b))
                grown.append(b)
                a = b
        has += grown
    own = digits(s, source)[tree]
    return hops + [(shifted(s, x, tree, -1), x) for x in room(s) if x != source and digits(s, x)[tree] == own]


@functools.lru_cache
def tree_of(s, source, tree):
    """The parent of each server but the source, which is added once."""
    hops = hops_of(s, source, tree)
    if sorted(x for _, x in hops) != [x for x in room(s) if x != source]:
        raise SystemExit(f'{s} source {source} tree {tree}: not each server once')
    return {x: p for p, x in hops}


def way(parents, x):
    """From parent to parent, up to the source, which has none."""
    out = []
    while x in parents:
        if len(out) > len(parents):
            raise SystemExit(f'the way of server {x} has no end')
        x = parents[x]
        out.append(x)
    return out


def parent_by_rule(s, source, tree, x):
    """The parent in the words of rules 13.2 and 13.3."""
    apart = differing(s, source, x)
    if tree not in apart:
        return shifted(s, x, tree, -1)
    order = [level % (s.k + 1) for level in range(tree, tree + s.k + 1)]
    return shifted(s, x, [level for level in order if level in apart][-1], -1)


def steps_by_rule(s, source, tree, x):
    """The steps to the source in the words of rule 13.4."""
    if x == source:
        return 0
    gaps = [(a - b) % most for a, b, most in zip(digits(s, x), digits(s, source), bounds(s))]
    return sum(gaps) + (0 if gaps[tree] else bounds(s)[tree])


def hold(told, s, source):
    if not told:
        raise SystemExit(f'{s} source {source}: the trees are not as the rules say')


def trees_from(s, source):
    """All trees of a source are the rules', no directed hop is in two of them, and each has a way of the most steps."""
    trees = [tree_of(s, source, tree) for tree in range(s.k + 1)]
    for tree, parents in enumerate(trees):
        steps = {x: len(way(parents, x)) for x in room(s)}
        hold(all(way(parents, x)[-1] == source for x in parents), s, source)
        hold(all(p == parent_by_rule(s, source, tree, x) for x, p in parents.items()), s, source)
        hold(all(len(differing(s, p, x)) == 1 for x, p in parents.items()), s, source)
        hold(steps == {x: steps_by_rule(s, source, tree, x) for x in room(s)}, s, source)
        hold(max(steps.values()) == (s.k * (s.n - 1) + s.m if s.k else s.m - 1), s, source)
    hops = [(p, x) for parents in trees for x, p in parents.items()]
    hold(len(set(hops)) == len(hops), s, source)
    return len(trees)


def small_trees():
    """All trees of every room of at most five ports and 81 servers, and of two larger switches; how many they are."""
    shapes = [Shape(n, k, m) for n in range(2, 6) for k in range(4) for m in range(2, n + 1)]
    shapes = [s for s in shapes if len(room(s)) <= 81] + [Shape(64, 0, 3), Shape(64, 0, 64)]
    return sum(trees_from(s, source) for s in shapes for source in room(s))


# ---- the rows

def hexed(word):
    return [] if word == '-' else list(bytes.fromhex(word))


def buffers(lent):
    return ' '.join(bytes(x).hex() for x in lent)


def hop_shown(refused, a, level, old):
    return f'{refused}next {a} level {level} old {old}'


def step_shown(before, a, index, mac, port, level, old):
    return f'{before}next {a} index {index} mac {bytes(mac).hex()} port {port} level {level} old {old}'


def hopped(s, a, byte):
    try:
        there = hop(s, a, byte)
    except Refused as r:
        return hop_shown(f'{r} ', 0, 0, 0)
    return hop_shown('', there, *left(s, a, there))


def there_and_back(s, a, byte):
    b = hop(s, a, byte)
    c = hop(s, b, back(s, a, b))
    return f'next {b} byte {back(s, a, b)} next {c} byte {back(s, b, c)}'


def stepped(s, here, d, index, path, table):
    try:
        forward = step(s, here, d, index, path, table)
    except Refused as r:
        return step_shown(f'{r} ', 0, 0, [0] * 6, 0, 0, 0)
    if not forward:
        return step_shown('delivered ', 0, 0, [0] * 6, 0, 0, 0)
    return step_shown('', *forward, *left(s, here, forward[0]))


def traced(s, a, d, path):
    """Step after step, each with its byte of the way back, and the reversed array."""
    here, index, out, trace = a, 0, [], []
    try:
        while forward := step(s, here, d, index, path, every_entry()):
            trace.append(back(s, here, forward[0]))
            out.append(f'next {forward[0]} back {trace[-1]:02x}')
            here, index = forward[:2]
        out.append('delivered')
    except Refused as r:
        out.append(str(r))
    try:
        turned = reverse(s, a, d, path)
        if turned[:len(trace)] != trace[::-1]:
            raise SystemExit(f'the steps have another trace: {bytes(path).hex()}')
        out.append('reversed ' + bytes(turned).hex())
    except Refused as r:
        out.append(f'reversed {r}')
    return ' '.join(out)


def test_child(s, source, tree, x):
    test_server(s, source, x)
    test_level(s, tree)
    if source == x:
        raise Refused(5)


def written(s, source, tree, first, end):
    """Some of the 4,096 numbers of a whole tree, and the zeros past the last server; refused, they are kept."""
    try:
        test_server(s, source)
        test_level(s, tree)
    except Refused as r:
        return f'{r} kept 4096'
    numbers = [tree_of(s, source, tree).get(x, 4294967295) for x in room(s)]
    numbers += [0] * (4096 - len(numbers))
    return f'{len(room(s))} numbers {" ".join(map(str, numbers[first:end]))} zeros {numbers[len(room(s)):].count(0)}'


def climbed(s, source, tree, x):
    up = way(tree_of(s, source, tree), x)
    return ' '.join(map(str, up + ['steps', len(up)]))


def most_steps(s, source):
    """The most steps of any server, in each tree of a source."""
    trees = [tree_of(s, source, tree) for tree in range(s.k + 1)]
    return ' '.join(str(max(len(way(parents, x)) for x in room(s))) for parents in trees)


def shown(s, routes):
    return ' '.join(bytes(encode(s, r)).hex() for r in routes)


# questions whose words are not all numbers
MIXED = 'failed mark clear mark_server clear_server dead fresh read reverse check picked select step trace'.split()


def answer(name, s, words):
    num = [int(w) for w in words if w.isdigit()] if name not in MIXED else []
    if name == 'servers':
        test_shape(s)
        return len(room(s))
    if name == 'bound':
        test_shape(s)
        test_level(s, num[0])
        return bounds(s)[num[0]]
    if name == 'digits':
        test_server(s, num[0])
        return ' '.join(map(str, (digits(s, num[0]) + [0] * 4)[:4]))
    if name == 'digit':
        test_server(s, num[0])
        test_level(s, num[1])
        return digits(s, num[0])[num[1]]
    if name == 'address':
        test_shape(s)
        if any(x >= most for x, most in zip(num, bounds(s) + [1] * 3)):
            raise Refused(21)
        return address(s, num)
    if name == 'switch':
        test_server(s, num[0])
        test_level(s, num[1])
        return 'level %d number %d' % switch(s, num[0], num[1])
    if name == 'switches':
        test_shape(s)
        test_level(s, num[0])
        return len({switch(s, a, num[0]) for a in room(s)})
    if name == 'server':
        test_shape(s)
        test_level(s, num[0])
        for a in room(s):
            if switch(s, a, num[0]) == (num[0], num[1]) and digits(s, a)[num[0]] == num[2]:
                return a
        raise Refused(21)
    if name == 'neighbour':
        test_server(s, num[0])
        test_level(s, num[1])
        test_value(s, num[1], num[2])
        ds = digits(s, num[0])
        ds[num[1]] = num[2]
        return address(s, ds)
    if name == 'between':
        test_server(s, num[0], num[1])
        apart = differing(s, num[0], num[1])
        return f'level {apart[0]}' if len(apart) == 1 else 'no neighbours'
    if name == 'failed':
        table, a, level = hexed(words[0]), int(words[1]), int(words[2])
        test_server(s, a)
        test_level(s, level)
        test_table(s, table)
        return 'yes' if is_failed(table, a, level) else 'no'
    if name in ('mark', 'clear'):
        table, summary, a, level = hexed(words[0]), hexed(words[1]), int(words[2]), int(words[3])
        test_server(s, a)
        test_level(s, level)
        return buffers(change(s, table, summary, a, [level], name == 'mark'))
    if name in ('mark_server', 'clear_server'):
        table, summary, a = hexed(words[0]), hexed(words[1]), int(words[2])
        test_server(s, a)
        return buffers(change(s, table, summary, a, range(s.k + 1), name == 'mark_server'))
    if name == 'dead':
        return dead(s, hexed(words[0]), hexed(words[1]))
    if name == 'fresh':
        return bytes(fresh(s, hexed(words[0]), hexed(words[1]))).hex()
    if name == 'zeros':
        return dead(s, [0] * num[0], [0] * num[1])
    if name == 'byte':
        test_shape(s)
        test_level(s, num[0])
        test_value(s, num[0], num[1])
        return 64 * num[0] + num[1]
    if name == 'parts':
        test_shape(s)
        return 'level %d value %d' % parts(s, num[0], 1, 1)
    if name == 'hop':
        return hopped(s, num[0], num[1])
    if name == 'back':
        return there_and_back(s, num[0], num[1])
    if name == 'write':
        return bytes(write(s, num)).hex()
    if name in ('read', 'reverse'):
        a, d, path = int(words[0]), int(words[1]), hexed(words[2])
        return ' '.join(map(str, read(s, a, d, path))) if name == 'read' else bytes(reverse(s, a, d, path)).hex()
    if name == 'check':
        check(s, hexed(words[0]), int(words[1]), int(words[2]), hexed(words[3]))
        return 'accepted'
    if name == 'picked':
        return pick(s, hexed(words[0]), int(words[1]), int(words[2]), hexed(words[3]), hexed(words[4]))
    if name == 'build':
        return shown(s, build(s, num[0], num[1]))
    if name == 'accepted':
        return ' '.join(str(accepted_from(s, a)) for a in room(s))
    if name == 'select':
        return shown(s, select(s, hexed(words[0]), int(words[1]), int(words[2])))
    if name == 'step':
        here, d, index, path, count, filled, *entry = words
        table = [0] * int(count)
        if filled == 'all':
            table = every_entry()
        else:
            at = 8 * int(filled)
            table[at:at + 8] = hexed(entry[0])
        return stepped(s, int(here), int(d), int(index), hexed(path), table[:int(count)])
    if name == 'trace':
        return traced(s, int(words[0]), int(words[1]), hexed(words[2]))
    if name == 'parent':
        test_child(s, *num)
        return tree_of(s, num[0], num[1])[num[2]]
    if name == 'tree':
        return written(s, *num)
    if name == 'way':
        return climbed(s, *num)
    if name == 'most':
        return most_steps(s, num[0])
    raise SystemExit(f'no such question: {name}')


def shape_in(text):
    """n and k of a full room, n, k and m of any other."""
    n, k, *m = map(int, text.split(','))
    if m == [n]:
        raise SystemExit(f'a full room with three numbers: ({text})')
    return Shape(n, k, *(m or [n]))


def recompute(file):
    """How many rows a file has, and how many of them differ from the model's."""
    rows = differ = 0
    for line in open(file, encoding='ascii'):
        question, got = line.rstrip('\n').split(' = ')
        name, shape, words = re.fullmatch(r'(\w+) \(([\d,]+)\)(.*)', question).groups()
        try:
            want = str(answer(name, shape_in(shape), words.split()))
        except Refused as r:
            want = str(r)
        rows += 1
        if want != got:
            differ += 1
            print(f'{question}\n  stored: {got}\n  model:  {want}')
    print(f'{os.path.basename(os.path.dirname(file))}: {rows} rows, {differ} differ')
    return rows, differ


def main():
    here = os.path.dirname(os.path.abspath(__file__))
    files = sys.argv[1:] or sorted(glob.glob(os.path.join(here, '../../crates/worked_*/stdout')))
    print(f'{small_trees()} trees of small rooms grown, each as the rules say')
    counts = [recompute(file) for file in files]
    rows, differ = sum(c[0] for c in counts), sum(c[1] for c in counts)
    print(f'{rows} rows, {differ} differ')
    return 1 if differ or not rows else 0


if __name__ == '__main__':
    sys.exit(main())
