"""Cases of debug information (names that begin with d), class data (c) and code items (x, X in the other byte order), and what vectors/items.py says of each."""
from class_read import covering, number
from dexfile import kth, rule
from items import Judge, code, data, debug
from questions import item

JUDGE = Judge(item=4, start=4, strings=3, types=3, fields=8, methods=8)


def units(s, count, order):
    """`count` units from 20 on."""
    rule(20 + 2 * count <= len(s), 9, 20)
    return [int.from_bytes(s[20 + 2 * i:22 + 2 * i], order) for i in range(count)]


def of_debug(q, read):
    q.row('debug_at', 4, words=lambda: (lambda line, names, start, length: (line, len(names), start, length))(*read()))
    for k in range(3):
        q.row('name_at', 4, k, words=lambda: [number(kth(read()[1], k))])


def of_data(q, read):
    q.row('class_data_at', 4, words=lambda: (lambda lists, end: (*map(len, lists), end))(*read()))
    for list, k in ((0, 0), (0, 1), (0, 2), (1, 0), (2, 0), (2, 1), (3, 0), (4, 0)):
        q.row('member_at', 4, list, k, words=lambda: kth(kth(read()[0], list), k))


def of_code(q, read):
    def handler(k):
        place, pairs, caught = kth(read()[3], k)
        return place, len(pairs), number(caught)
    q.row('code_at', 4, words=lambda: read()[0])
    for t in (0, 1):
        q.row('try_at', 4, t, words=lambda: (*kth(read()[1], t), read()[2][t]))
    for h in (0, 1):
        q.row('handler_at', 4, h, words=lambda: handler(h))
    for h, k in ((0, 0), (1, 1)):
        q.row('pair_at', 4, h, k, words=lambda: kth(kth(read()[3], h)[1], k))
    for a in (0, 1, 2, 4):
        q.row('covering_try', 4, a, words=lambda: covering(read()[1], a))


def items():
    for name, s in CASES:
        order = 'big' if name[0] == 'X' else 'little'
        q = item(name, s, order, 4, strings=3, types=3, fields=8, methods=8)
        if name[0] == 'd':
            of_debug(q, lambda: debug(JUDGE, s))
        elif name[0] == 'c':
            of_data(q, lambda: data(JUDGE, s))
        else:
            of_code(q, lambda: code(JUDGE, s, order))
            for count in (2, 3, 4):
                q.output('units', 20, count, room=3, values=lambda: units(s, count, order))
        yield q


def placed(text):
    return b'zzzz' + bytes.fromhex(text)


BIG = 'ffffffff0f'
CASES = [(n, placed(t)) for n, t in (
    # debug information: names none and given, 11 at the count, each part cut off, the first zero byte, malformed numbers
    ('d whole', '0a 03 00 01 03 07 08 00'), ('d none', '00 00 00'), ('d empty program', '05 01 02 00 01'), ('d name past', '01 02 03 04 00'),
    ('d name past and cut', '01 02 04'), ('d cut names', '01 02 03'), ('d no zero', '01 00 05 06'), ('d no program', '01 00'), ('d no count', '01'),
    ('d nothing', ''), ('d line malformed', '8080808010 00 00'), ('d count malformed', '01 8080808080 00'), ('d name malformed', '01 01 8080808010'),
    ('d long line', BIG + ' 00 00'), ('d name long', '01 01 8100 00'), ('d many names', '01 ' + BIG + ' 00 00'), ('d second zero', '01 00 09 00 09 00'),
    # class data: differences 5, 1, 1; 0 first and later; sums past the counts and past 2^32; code offsets; each list anew; each part cut off
    ('c empty', '00 00 00 00'), ('c 5 1 1', '03 00 00 00 05 01 01 02 01 03'), ('c first 0', '02 00 00 00 00 09 01 09'), ('c later 0', '02 00 00 00 05 01 00 01'),
    ('c at count', '01 00 00 00 08 00'), ('c below count', '01 00 00 00 07 00'), ('c sum at count', '02 00 00 00 05 00 03 00'), ('c past 2^32', '02 00 00 00 07 00 ' + BIG + ' 00'),
    ('c first 2^32', '01 00 00 00 ' + BIG + ' 00'), ('c anew', '01 01 01 01 07 00 07 00 07 00 00 07 00 00'), ('c instance 0', '01 01 00 00 03 00 00 01'),
    ('c code', '00 00 02 01 00 01 08 01 01 00 02 05 04'), ('c code uneven', '00 00 01 00 00 00 06'), ('c code low', '00 00 01 00 00 00 03'), ('c code before', '00 00 01 00 00 00 02'),
    ('c code end', '00 00 01 00 00 00 0c 00'), ('c code last', '00 00 01 00 00 00 08 00 00'), ('c code 9', '00 00 01 00 00 00'), ('c no flags', '01 00 00 00 01'), ('c no member', '01 00 00 00'),
    ('c 11 before flags', '01 00 00 00 08'), ('c 15 before flags', '02 00 00 00 05 01 00'), ('c 15 not 11', '00 00 02 00 07 00 00 00 00 00'), ('c method at count', '00 00 01 00 08 00 00'),
    ('c three counts', '00 00 00'), ('c nothing', ''), ('c count malformed', '8080808010 00 00 00'), ('c flags malformed', '01 00 00 00 01 8080808010'), ('c flags long', '01 00 00 00 01 8180808000'),
    ('c many', BIG + ' 00 00 00 00 00'), ('c virtual repeats', '00 00 00 02 03 00 00 00 00 00'), ('c code malformed', '00 00 01 00 00 00 8080808010'),
)]


def code_bytes(order, units, tries, handlers='', registers=5, debug=0, count=None, pad=None, tries_count=None):
    n = len(tries) if tries_count is None else tries_count
    size = len(units) if count is None else count
    w = lambda v, k: v.to_bytes(k, order)
    s = w(registers, 2) + w(1, 2) + w(2, 2) + w(n, 2) + w(debug, 4) + w(size, 4) + b''.join(w(u, 2) for u in units)
    if (n and size % 2) if pad is None else pad:
        s += b'\xee\xee'
    return b'zzzz' + s + b''.join(w(a, 4) + w(b, 2) + w(c, 2) for a, b, c in tries) + bytes.fromhex(handlers)


def both(name, *args, **kw):
    return [('x ' + name, code_bytes('little', *args, **kw)), ('X ' + name, code_bytes('big', *args, **kw))]


ONE = '01 00 02'
for c in (
    both('no tries', [1, 2, 3], []), both('no units', [], []), both('even', [1, 2, 3, 4], [(0, 2, 1)], ONE), both('odd', [1, 2, 3], [(0, 2, 1)], ONE),
    both('odd unpadded', [1, 2, 3], [(0, 2, 1)], ONE, pad=False), both('odd no tries then bytes', [1, 2, 3], [], '00 00'), both('debug', [1], [], debug=4), both('debug low', [1], [], debug=3),
    both('debug end', [1], [], debug=22), both('debug last', [1], [], debug=21), both('units cut', [1, 2], [], count=3), both('many units', [1], [], count=0xffffffff), both('tries cut', [1, 2], [(0, 1, 1)], tries_count=2),
    both('most tries', [1, 2], [(0, 1, 1)], tries_count=0xffff), both('touch', [1, 2, 3, 4], [(0, 2, 1), (2, 2, 1)], ONE), both('overlap', [1, 2, 3, 4], [(0, 2, 1), (1, 2, 1)], ONE),
    both('overlap and past', [1, 2, 3, 4], [(0, 2, 1), (1, 5, 1)], ONE), both('falling', [1, 2, 3, 4], [(2, 1, 1), (0, 1, 1)], ONE), both('empty at end', [1, 2, 3, 4], [(0, 2, 1), (4, 0, 1)], ONE),
    both('empty past end', [1, 2, 3, 4], [(5, 0, 1)], ONE), both('past end', [1, 2, 3, 4], [(3, 2, 1)], ONE), both('start large', [1, 2], [(0xffffffff, 0xffff, 1)], ONE),
    both('size 0 list', [1, 2], [(0, 1, 1)], '00'), both('no list', [1, 2], [(0, 1, 1)]), both('positive', [1, 2], [(0, 1, 1)], '01 02 00 01 02 00'), both('negative', [1, 2], [(0, 1, 1)], '01 7e 00 01 02 00 01'),
    both('negative uncaught', [1, 2], [(0, 1, 1)], '01 7e 00 01 02 00'), both('least size', [1, 2], [(0, 1, 1)], '01 8080808078 00 01'), both('least size 11', [1, 2], [(0, 1, 1)], '01 8080808078 03 01'),
    both('size malformed', [1, 2], [(0, 1, 1)], '01 8080808008'), both('type past', [1, 2], [(0, 1, 1)], '01 01 03 00'), both('type past cut', [1, 2], [(0, 1, 1)], '01 01 03'),
    both('address at count', [1, 2], [(0, 1, 1)], '01 01 00 02'), both('address below', [1, 2], [(0, 1, 1)], '01 01 00 01'), both('catch at count', [1, 2], [(0, 1, 1)], '01 00 02'),
    both('two handlers', [1, 2, 3, 4], [(0, 1, 4), (1, 1, 1)], '02 01 00 01 7e 01 02 02 03 00'), both('shared', [1, 2, 3, 4], [(0, 1, 3), (1, 1, 3)], '02 00 01 00 02'),
    both('middle', [1, 2, 3, 4], [(0, 1, 2)], ONE), both('offset 0', [1, 2, 3, 4], [(0, 1, 0)], ONE), both('offset end', [1, 2, 3, 4], [(0, 1, 3)], ONE), both('second bad', [1, 2, 3, 4], [(0, 1, 1), (1, 1, 2)], ONE),
    both('offset and address', [1, 2], [(0, 1, 7)], '01 00 05'), both('long size', [1, 2, 3, 4], [(0, 1, 2)], '8100 00 02'), both('list malformed', [1, 2], [(0, 1, 1)], '8080808010'), both('many handlers', [1, 2], [(0, 1, 1)], BIG + ' 00 01'),
):
    CASES += c
HEAD = code_bytes('little', [1], [], debug=3)
CASES += [(f'x head {n}', HEAD[:4 + n]) for n in (0, 1, 7, 8, 11, 12, 15, 16)] + [(f'x good head {n}', code_bytes('little', [1], [])[:4 + n]) for n in (12, 15, 16, 17, 18)]
