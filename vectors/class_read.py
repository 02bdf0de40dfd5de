"""Small files of both byte orders, each asked about with a class, a list, a member, an inner number and the number of a pair, and what the readers of class
data, code and debug information answer."""
from dexfile import Refused, at, file, header, kth, word
from items import Judge, code, data, debug
from questions import NOTHING, File

NONE = 0xffffffff
STRINGS, TYPES, FIELDS, METHODS = 3, 3, 4, 4


class Parts:
    """A data section that is filled item by item, behind the tables of a file of so many classes."""

    def __init__(self, o, classes):
        self.o, self.classes, self.body = o, classes, b''
        self.tables, p = {}, 112
        for name, count, width in (('strings', STRINGS, 4), ('types', TYPES, 4), ('fields', FIELDS, 8), ('methods', METHODS, 8), ('classes', classes, 32)):
            self.tables[name], p = (count, p), p + width * count
        self.start = p

    def put(self, item, four=False):
        while four and (self.start + len(self.body)) % 4:
            self.body += b'\xee'
        place = self.start + len(self.body)
        self.body += item
        return place

    def file(self, records, **k):
        """No index of strings, types, fields or methods is read, and no map: theirs are zeros, and the map's offset is none."""
        front = bytes(self.tables['classes'][1] - 112) + b''.join(word(v, self.o) for r in records for v in r)
        return file(self.o, b'037', front + self.body, map_at=1, tables=self.tables, data=(self.start, len(self.body)), **k)


def record(data, class_index=1):
    return class_index, 0x11, NONE, 0, NONE, 0, data, 0


def uleb(v):
    return bytes([v]) if v < 128 else bytes([v % 128 + 128]) + uleb(v // 128)


def class_data(*lists):
    """Each list of (difference, flags), or (difference, flags, code)."""
    return b''.join(uleb(len(l)) for l in lists) + b''.join(uleb(v) for l in lists for m in l for v in m)


def code_item(o, units, tries=(), handlers='', debug=0):
    pad = b'\xee\xee' if tries and len(units) % 2 else b''
    return (b''.join(word(v, o, 2) for v in (5, 1, 2, len(tries))) + word(debug, o) + word(len(units), o) + b''.join(word(u, o, 2) for u in units) + pad
            + b''.join(word(a, o) + word(b, o, 2) + word(c, o, 2) for a, b, c in tries) + bytes.fromhex(handlers))


DEBUG = bytes.fromhex('0a 03 00 01 03 07 08 09 00')
TRIES, HANDLERS = ((0, 2, 4), (2, 1, 1)), '02 01 00 01 7e 01 02 02 01 00'


def whole(o, debug=DEBUG, handlers=HANDLERS, debug_place=None, code_place=None, tail=None, record_class=1, **k):
    """Class 0 without class data; class 1 with fields, and with methods with code and debug information, without code, and without debug information."""
    p = Parts(o, 2)
    d = p.put(debug)
    first = p.put(code_item(o, [1, 0x2345, 3], TRIES, handlers, d if debug_place is None else debug_place), True)
    second = p.put(code_item(o, [9, 8, 7, 6]), True)
    first = first if code_place is None else code_place
    members = ([(0, 0x9), (2, 0x0)], [(3, 0x2c0)], [(1, 0xc1, first), (1, 0x101, 0)], [(0, 0xf, second)])
    place = p.put(class_data(*members) if tail is None else tail)
    return p.file([record(0), record(place, record_class)], **k)


CODE = (1, 2, 0, 0, 0)


def cases(o):
    f = whole(o)
    for name, asked in (('no class data', (0, 2, 0, 0, 0)), ('no class data, list 4', (0, 4, 9, 9, 9)), ('static', (1, 0, 0, 0, 0)), ('static 1', (1, 0, 1, 0, 0)), ('instance', (1, 1, 0, 0, 0)),
                        ('code', CODE), ('second try', (1, 2, 0, 1, 1)), ('last address', (1, 2, 0, 2, 0)), ('inner number past', (1, 2, 0, 3, 0)), ('pair past', (1, 2, 0, 0, 1)),
                        ('no code', (1, 2, 1, 0, 0)), ('no debug', (1, 3, 0, 0, 0)), ('member past', (1, 2, 2, 0, 0)), ('field past', (1, 1, 1, 0, 0)), ('virtual past', (1, 3, 1, 0, 0)),
                        ('list 4', (1, 4, 0, 0, 0)), ('class past', (2, 2, 0, 0, 0))):
        yield name, asked, f
    yield 'header', CODE, whole(o, magic=b'dex\r')
    yield 'header before class', (9, 9, 9, 9, 9), whole(o, size=7)
    yield 'record', CODE, whole(o, record_class=3)
    yield 'class data cut', (1, 4, 9, 9, 9), whole(o, tail=bytes.fromhex('01 00 00 00'))
    yield 'class data index', (1, 4, 9, 9, 9), whole(o, tail=class_data([(4, 0)], [], [], []))
    yield 'class data repeats', (1, 2, 9, 0, 0), whole(o, tail=class_data([], [], [(1, 0, 0), (0, 0, 0)], []))
    yield 'code offset', (1, 0, 0, 0, 0), whole(o, code_place=6)
    yield 'code broken', CODE, whole(o, handlers='02 01 00 03 7e 01 02 02 01 00')
    yield 'code broken, a field', (1, 0, 0, 0, 0), whole(o, handlers='02 01 00 03 7e 01 02 02 01 00')
    yield 'code broken, inner past', (1, 2, 0, 9, 9), whole(o, handlers='02 01 00 03 7e 01 02 02 01 00')
    yield 'debug offset', CODE, whole(o, debug_place=6)
    yield 'debug name', CODE, whole(o, debug=bytes.fromhex('0a 01 04 00'))
    yield 'empty program', CODE, whole(o, debug=bytes.fromhex('0a 00 00'))


class Reading:
    """What each reader is to answer of a file: header, 7 for the class, its record, then each item whole."""

    def __init__(self, f, c, list, k):
        self.f, self.c, self.list, self.k = f, c, list, k
        self.h = None

    def judge(self, item):
        h = self.h
        return Judge(item, h['start'], h['strings'][0], h['types'][0], h['fields'][0], h['methods'][0])

    def section(self):
        return self.f[:self.h['end']]

    def lists(self):
        h = self.h = header(self.f)
        if self.c >= h['classes'][0]:
            raise Refused(7)
        place = h['classes'][1] + 32 * self.c
        w = [at(self.f, place + 4 * i, h['order']) for i in range(8)]
        if w[0] >= h['types'][0] or w[2] != NONE and w[2] >= h['types'][0]:
            raise Refused(11, place)
        return data(self.judge(w[6]), self.section())[0] if w[6] else None

    def member(self, lists=range(4)):
        got = self.lists()
        if got is None:
            return None
        if self.list not in range(4) or self.k >= len(got[self.list]) or self.list not in lists:
            raise Refused(7)
        return got[self.list][self.k]

    def code(self):
        m = self.member((2, 3))
        if m is None or m[2] == 0:
            return None
        self.place = m[2]
        return code(self.judge(m[2]), self.section(), self.h['order'])

    def units(self):
        c = self.code()
        return None if c is None else [at(self.f, self.place + 16 + 2 * i, self.h['order'], 2) for i in range(c[0][5])]

    def debug(self):
        c = self.code()
        if c is None or c[0][4] == 0:
            return None
        return debug(self.judge(c[0][4]), self.section())

    def program(self):
        d = self.debug()
        return d and self.f[d[2]:d[2] + d[3]]


def number(v):
    return NOTHING if v is None else v


def covering(tries, address):
    """The number of the try, or none."""
    return next(([i] for i, t in enumerate(tries) if t[0] <= address < t[0] + t[1]), None)


def asked(label, numbers, f):
    q = File(label, f)
    m, n, p = numbers[:3], numbers[3], numbers[4]
    r = Reading(f, *m)

    def row(reader, *inner, of, show):
        """`show` says the words of an item that is there."""
        def words():
            got = of()
            return None if got is None else show(got)
        q.row(reader, *m, *inner, words=words)

    def handler(c):
        place, pairs, caught = kth(c[3], n)
        return place, len(pairs), number(caught)
    q.row('class_data', m[0], words=lambda: (lambda got: got and list(map(len, got)))(r.lists()))
    row('member', of=r.member, show=lambda got: got)
    q.output('member_flags', *m, room=3, values=lambda: (lambda got: got and [i for i in range(18) if got[1] >> i & 1])(r.member()))
    row('code', of=r.code, show=lambda c: c[0])
    q.output('units', *m, room=3, values=r.units)
    row('debug', of=r.debug, show=lambda d: (d[0], len(d[1]), d[2], d[3]))
    q.part('line_program', *m, data=r.program)
    row('try_item', n, of=r.code, show=lambda c: (*kth(c[1], n), c[2][n]))
    row('covering_try', n, of=r.code, show=lambda c: covering(c[1], n))
    row('handler_count', of=r.code, show=lambda c: [len(c[3])])
    row('handler', n, of=r.code, show=handler)
    row('handler_pair', n, p, of=r.code, show=lambda c: kth(kth(c[3], n)[1], p))
    row('debug_parameter', n, of=r.debug, show=lambda d: [number(kth(d[1], n))])
    return q


def files():
    return [asked(f'{name}, {o}', numbers, f) for o in ('little', 'big') for name, numbers, f in cases(o)]
