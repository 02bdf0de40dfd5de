"""Whole files of both byte orders whose classes have static fields of every type text, and what document 02's ticket 1 says of each: the field with its value, and
the first field whose value has the wrong kind."""
from annotation_readers import Dex
from dexfile import file, header, kth, map_list, rule, word
from items import Judge, data
from questions import File, numbers
from strings import item, string, uleb, units
from tables import NONE, member, type_name
from values import SIZES

# "those eight texts take 1f, 00, 02, 03, 04, 06, 10 and 11 in that order, any other text one of 15 to 1e"
TAKES = dict(zip('ZBSCIJFD', (0x1f, 0x00, 0x02, 0x03, 0x04, 0x06, 0x10, 0x11)))


# ---- what the ticket says
class Statics(Dex):
    def both(self, c, k=None):
        """The class record's place, its static fields (None where it has no class data), 7 for field k, its values, 21."""
        h, s = self.mapped()
        w = self.record(h, c)
        j = Judge(w[6], h['start'], h['strings'][0], h['types'][0], h['fields'][0], h['methods'][0])
        fields = data(j, self.f[:h['end']])[0][0] if w[6] else None
        if k is not None:
            if fields is None:
                return h, None, None
            kth(fields, k)
        values = s.array(w[7], w[7], 1)[0] if w[7] else []
        rule(len(values) <= len(fields or []), 21, h['classes'][1] + 32 * c)
        return h, fields or [], values

    def text(self, h, n):
        _, kind, _ = member(self.f, h, 'fields', 'types', n)
        return string(self.f, h, *type_name(self.f, h, kind))[1].decode('latin-1')

    def pair(self, c, k):
        h, fields, values = self.both(c, k)
        if fields is None:
            return None
        index, flags, _ = fields[k]
        if k < len(values):
            return *values[k], index, flags, 1
        return TAKES.get(self.text(h, index), 0x1e), 0, 0, index, flags, 0

    def wrong(self, c):
        h, fields, values = self.both(c)
        for k, (value, (index, _, _)) in enumerate(zip(values, fields)):
            text = self.text(h, index)
            if value[0] != TAKES[text] if text in TAKES else not 0x15 <= value[0] <= 0x1e:
                return k, index
        return None

    def count(self, c):
        h, s = self.plain()
        w = self.record(h, c)
        return len(data(Judge(w[6], h['start'], h['strings'][0], h['types'][0], h['fields'][0], h['methods'][0]), self.f[:h['end']])[0][0]) if w[6] else 0


def asked(label, f):
    q, d = File(label, f), Statics(f)
    for c in numbers(lambda: header(f)['classes'][0]):
        for k in numbers(lambda: d.count(c)):
            q.row('static_field', c, k, words=lambda: d.pair(c, k))
        q.row('wrong_kind', c, words=lambda: d.wrong(c))
    return q


# ---- the files: a string, a type and a field for each text; then so many classes, each of the numbers of its static fields and the bytes of its values
TEXTS = ('', 'B', 'C', 'D', 'F', 'I', 'J', 'Ljava/lang/String;', 'S', 'V', 'Z', 'ZZ', '[I')
ALL = range(len(TEXTS))


def value(kind):
    """The shortest value of a kind that names a number 0, or is empty; not the zero that stands for none, where there is another."""
    if kind in (0x1c, 0x1d):
        return bytes([kind, 0]) if kind == 0x1c else bytes([kind, 0, 0])
    return bytes([kind + 32]) if kind == 0x1f else bytes([kind]) if kind == 0x1e else bytes([kind, 0 if 0x15 <= kind <= 0x1b else 1])


def list_of(*kinds):
    return uleb(len(kinds)) + b''.join(map(value, kinds))


def fitting(fields):
    return [TAKES.get(TEXTS[n], 0x15 + n % 10) for n in fields]


def class_data(fields, difference=None):
    stored = [(n - (fields[i - 1] if i else 0), 0x9 + i) for i, n in enumerate(fields)]
    if difference is not None:
        stored[-1] = (difference, 0)
    return uleb(len(stored)) + b'\0\0\0' + b''.join(uleb(v) for m in stored for v in m)


def built(o, classes, texts=None, types=None, kinds=None, places=None, **head):
    """`classes` has (class data, values), each bytes or None. A method and a proto are there to be named, and a method handle."""
    texts = [item(units(t)) for t in TEXTS] if texts is None else texts
    types = list(ALL) if types is None else types
    kinds = list(ALL) if kinds is None else kinds
    tables, p = {}, 112
    for name, count, width in (('strings', len(texts), 4), ('types', len(types), 4), ('protos', 1, 12), ('fields', len(kinds), 8), ('methods', 1, 8), ('classes', len(classes), 32)):
        tables[name], p = (count, p), p + width * count
    handle, start = p, p + 8
    body, items = b'', []

    def put(bytes):
        nonlocal body
        body += bytes
        return start + len(body) - len(bytes)
    at = [put(t) for t in texts] if places is None else [put(t) and place for t, place in zip(texts, places)]
    records = [(n % len(types), 1, NONE, 0, NONE, 0, 0 if d is None else put(d), 0 if v is None else put(v)) for n, (d, v) in enumerate(classes)]
    body += bytes(-(start + len(body)) % 4)
    front = b''.join(word(v, o) for v in (*at, *types, 0, 0, 0))
    front += b''.join(word(0, o, 2) + word(k, o, 2) + word(0, o) for k in kinds) + word(0, o, 2) + word(0, o, 2) + word(0, o)
    front += b''.join(word(v, o) for r in records for v in r) + bytes(8)
    entries = head.pop('entries', [(8, 1, handle)])
    where = start + len(body)
    return file(o, b'039', front + body + map_list(o, entries), map_at=head.pop('map_at', where), tables=tables, data=(start, len(body) + 4 + 12 * len(entries)), **head)


def cases(o):
    c = lambda *classes, **k: built(o, classes, **k)
    every = class_data(list(ALL))
    right = fitting(ALL)
    wrong = lambda *at: [0x1f if n in at and TEXTS[n] != 'Z' else 0x00 if n in at else k for n, k in zip(ALL, right)]
    yield 'static fields', c((None, None), (every, None), (every, list_of(*right)), (every, list_of(*right[:5])), (every, b'\0'), (None, b'\0'), (class_data([]), b'\0'), (class_data([]), None),
                             (class_data([3, 7]), list_of(0x11)), (every, list_of(*right[:12])))
    yield 'wrong kinds', c((every, list_of(*wrong(0))), (every, list_of(*wrong(12))), (every, list_of(*wrong(4, 9))), (every, list_of(*wrong(10))), (every, list_of(*wrong(5, 6))),
                           (class_data([1, 10]), list_of(0x00)), (class_data([10]), list_of(0x00)))
    # every text with every kind: one field, one value
    yield 'each kind', c(*((class_data([n]), list_of(k)) for n in ALL for k in SIZES))
    # more values than fields
    yield '21 no class data', c((None, list_of(0x1e)))
    yield '21 one more', c((class_data([3, 7]), list_of(0x11, 0x1e, 0x1e)), (class_data([3, 7]), list_of(0x11, 0x1e)))
    yield '21 no fields', c((class_data([]), list_of(0x1e)))
    # what is met on the way
    yield 'values 12', c((every, b'\2\x1e\x01'), (None, b'\1\x01'))
    yield 'values 13', c((every, bytes([1]) + bytes([0x1c, 1]) * 64 + bytes([0x1c, 0])))
    yield 'values 11', c((every, bytes([14]) + bytes([0x19, 13]) * 14))
    yield 'class data 15', c((class_data([2, 3], 0), list_of(0x1e)), (None, None))
    yield 'class data 11', c((class_data([2, 3], 11), list_of(0x01)))
    for name, place in (('map', 0), ('map uneven', 114)):
        yield name, c((every, list_of(*right)), (None, None), map_at=place)
    yield 'map code', c((every, list_of(*right)), (None, None), entries=[(9, 0, 0)])
    yield 'magic', c((every, None), magic=b'dey\n')
    two = ((class_data([1, 5, 12]), list_of(0x00, 0x04)), (class_data([1, 5, 12]), None), (class_data([0]), list_of(0x1e)))
    yield 'field record', c(*two, kinds=[0, 1, 2, 3, 4, 13, 6, 7, 8, 9, 10, 11, 13])
    yield 'type record', c(*two, types=[0, 1, 2, 3, 4, 13, 6, 7, 8, 9, 10, 11, 99])
    texts = [item(units(t)) for t in TEXTS]
    for name, bad in (('text length', b'\2I\0'), ('text form', b'\1\xc1\x80\0'), ('text number', b'\x80\x80\x80\x80\x10')):
        yield name, c(*two, texts=texts[:5] + [bad] + texts[6:12] + [bad])
    yield 'text place', c(*two, places=[0xffff] * 13)


def files():
    return [asked(f'{name}, {o}', f) for o in ('little', 'big') for name, f in cases(o)]
