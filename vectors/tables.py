"""Small files of both byte orders in which each rule of each record is broken alone, or two at once, and what the readers of records answer."""
from dexfile import at, file, header, kth, map_list, map_of, rule, word
from questions import NOTHING, File, item, numbers

NONE = 0xffffffff


def tables(o, types=(0, 1, 2), protos=((0, 0, 0),), fields=((0, 1, 2),), methods=((1, 0, 2),), classes=((0, 1, NONE, 0, NONE, 0, 0, 0),), handles=((0, 0),), lists=(), version=b'039'):
    """A file of three strings. Places 0, 1, 2 of a list's offset are LIST + 0, 12, 24; the data section follows the tables."""
    strings = [b'\x01a\0', b'\x01b\0', b'\x01c\0']
    sizes = [4 * 3, 4 * len(types), 12 * len(protos), 8 * len(fields), 8 * len(methods), 32 * len(classes)]
    start = [112 + sum(sizes[:i]) for i in range(7)]
    handle_place = start[6]
    data = handle_place + 8 * len(handles)
    list_place = data + 12
    place = lambda v: v if not isinstance(v, str) else list_place + 12 * int(v)
    body = b''.join(word(data + 3 * i, o) for i in range(3)) + b''.join(word(t, o) for t in types)
    body += b''.join(word(place(v), o) for p in protos for v in p)
    body += b''.join(word(a, o, 2) + word(b, o, 2) + word(c, o) for m in (*fields, *methods) for a, b, c in [m])
    body += b''.join(word(place(v), o) for c in classes for v in c)
    body += b''.join(word(k, o, 2) + b'\x11\x22' + word(n, o, 2) + b'\x33\x44' for k, n in handles)
    body += b''.join(strings) + bytes(3)
    for size, entries in lists:
        body += (word(size, o) + b''.join(word(e, o, 2) for e in entries)).ljust(12, b'\0')
    entries = [(8, len(handles), handle_place)] if handles else []
    where = 112 + len(body)
    body += map_list(o, entries)
    names = ['strings', 'types', 'protos', 'fields', 'methods', 'classes']
    counts = [3, len(types), len(protos), len(fields), len(methods), len(classes)]
    return file(o, version, body, map_at=where, tables={n: (c, s if c else 0) for n, c, s in zip(names, counts, start)}, data=(data, 112 + len(body) - data))


def cases(o):
    c = lambda **k: tables(o, **k)
    cls = lambda *v: c(classes=(v,))
    yield 'good', c()
    yield 'nothing', c(types=(), protos=(), fields=(), methods=(), classes=(), handles=())
    yield 'type index', c(types=(0, 3, 2))
    yield 'types falling', c(types=(2, 1, 0))
    yield 'shorty', c(protos=((3, 0, 0),))
    yield 'shorty and return', c(protos=((3, 3, 1),))
    yield 'return', c(protos=((0, 3, 0),))
    yield 'return and parameters', c(protos=((0, 3, 1),))
    yield 'parameters at 1', c(protos=((0, 0, 1),))
    yield 'parameters uneven', c(protos=((0, 0, 242),))
    yield 'parameters at the end', c(protos=((0, 0, 0x10000),))
    yield 'parameters', c(protos=((0, 2, '0'), (1, 1, '1'), (2, 0, 0)), lists=((3, (2, 1, 0)), (0, ())))
    yield 'parameter index', c(protos=((0, 0, '0'),), lists=((2, (0, 3)),))
    yield 'parameters too many', c(protos=((0, 0, '0'),), lists=((60, (0, 0)),))
    yield 'parameters far too many', c(protos=((0, 0, '0'),), lists=((NONE, (7, 7)),))
    for name, bad in (('class', (3, 0, 0)), ('second', (0, 3, 0)), ('name', (0, 0, 3)), ('class and name', (9, 0, 9))):
        yield f'field {name}', c(fields=((2, 2, 2), bad))
        yield f'method {name}', c(methods=((2, 0, 2), bad))
    yield 'field past', c(fields=((0, 0xffff, 0),))
    yield 'handles', c(handles=tuple((k, 0) for k in range(9)), fields=((0, 0, 0),), methods=((0, 0, 0), (1, 0, 1)))
    yield 'handle kind 9', c(handles=((9, 9),))
    yield 'handle field', c(handles=((3, 1), (4, 1)), methods=((0, 0, 0), (1, 0, 1)))
    yield 'handle method', c(handles=((4, 1), (3, 1)), fields=((0, 0, 0), (1, 0, 1)))
    yield 'no handles', c(handles=())
    yield 'old version', c(version=b'037')
    yield 'class', cls(2, 0x3ffff, 1, '0', 2, 0, 0, 0)
    yield 'class none', cls(NONE, 0, 0, 0, 0, 0, 0, 0)
    yield 'class index', cls(3, 0, 0, 0, 0, 0, 0, 0)
    yield 'class and superclass', cls(3, 0, 3, 1, 3, 1, 1, 1)
    yield 'superclass', cls(0, 0, 3, 0, 0, 0, 0, 0)
    yield 'superclass and interfaces', cls(0, 0, 3, 1, 0, 0, 0, 0)
    yield 'superclass none', cls(0, 0xffffffff, NONE, 0, NONE, 0, 0, 0)
    yield 'interfaces', cls(0, 0, 0, 1, 3, 0, 0, 0)
    yield 'source', cls(0, 0, 0, 0, 3, 1, 0, 0)
    yield 'source below none', cls(0, 0, NONE, 0, NONE - 1, 0, 0, 0)
    yield 'directory', cls(0, 0, 0, 0, 0, 1, 1, 1)
    yield 'directory uneven', cls(0, 0, 0, 0, 0, 251, 0, 0)
    yield 'class data', cls(0, 0, 0, 0, 0, 0, 1, 1)
    yield 'class data uneven', cls(0, 0, 0, 0, 0, 0, 251, 250)
    yield 'values', cls(0, 0, 0, 0, 0, 0, 0, 1)
    yield 'interfaces read', c(classes=((0, 0x20c1, NONE, '1', NONE, 0, 0, 0), (1, 0x10, 0, '0', 1, 0, 0, 0), (2, 0, 2, 0, 0, 0, 0, 0)), lists=((1, (2,)), (4, (0, 0, 1, 2))))
    yield 'interface index', c(classes=((0, 0, NONE, '0', NONE, 0, 0, 0),), lists=((1, (0xffff,)),))


def absent_or(h, offset, four):
    return offset == 0 or h['start'] <= offset < h['end'] and not (four and offset % 4)


def type_name(f, h, n):
    place = h['types'][1] + 4 * n
    rule(at(f, place, h['order']) < h['strings'][0], 11, place)
    return [at(f, place, h['order'])]


def proto(f, h, n):
    place = h['protos'][1] + 12 * n
    shorty, returns, parameters = (at(f, place + i, h['order']) for i in (0, 4, 8))
    rule(shorty < h['strings'][0], 11, place)
    rule(returns < h['types'][0], 11, place)
    rule(absent_or(h, parameters, True), 8, place)
    return shorty, returns, parameters


def member(f, h, table, kinds, n):
    place = h[table][1] + 8 * n
    got = at(f, place, h['order'], 2), at(f, place + 2, h['order'], 2), at(f, place + 4, h['order'])
    for value, limit in zip(got, ('types', kinds, 'strings')):
        rule(value < h[limit][0], 11, place)
    return got


def handle(f, h, n):
    count, place = map_of(f, h)[1]
    rule(n < count, 7, 0)
    place += 8 * n
    kind, number = at(f, place, h['order'], 2), at(f, place + 4, h['order'], 2)
    rule(kind <= 8, 18, place)
    rule(number < h['fields' if kind <= 3 else 'methods'][0], 11, place)
    return kind, number


def class_of(f, h, n):
    place = h['classes'][1] + 32 * n
    w = [at(f, place + 4 * i, h['order']) for i in range(8)]
    rule(w[0] < h['types'][0], 11, place)
    rule(w[2] == NONE or w[2] < h['types'][0], 11, place)
    rule(absent_or(h, w[3], True), 8, place)
    rule(w[4] == NONE or w[4] < h['strings'][0], 11, place)
    rule(absent_or(h, w[5], True) and absent_or(h, w[6], False) and absent_or(h, w[7], False), 8, place)
    return w


def type_list(f, h, place):
    if place == 0:
        return []
    rule(place + 4 <= h['end'] and place + 4 + 2 * at(f, place, h['order']) <= h['end'], 9, place)
    got = [at(f, place + 4 + 2 * i, h['order'], 2) for i in range(at(f, place, h['order']))]
    rule(all(t < h['types'][0] for t in got), 11, place)
    return got


def bits(value, of_class=True):
    """Flags as bit numbers."""
    return [i for i in range(18) if value >> i & 1 and not (of_class and i in (6, 7))]


def asked(label, f, more=()):
    """Each record of each table, one too many asked for, and the numbers in `more`."""
    q = File(label, f)
    h = header(f)

    def numbered(table, read):
        def at_number(n):
            rule(n < h[table][0], 7, 0)
            return read(n)
        return at_number

    def each(table):
        return (*numbers(lambda: h[table][0]), *more)

    def listed(count, item, n, read):
        q.row(count, n, words=lambda: [len(read())])
        for k in (*numbers(lambda: len(read())), *more):
            q.row(item, n, k, words=lambda: [kth(read(), k)])

    def class_words(n):
        w = a_class(n)
        return *w[:2], NOTHING if w[2] == NONE else w[2], w[3], NOTHING if w[4] == NONE else w[4], *w[5:]
    a_type = numbered('types', lambda n: type_name(f, h, n))
    a_proto = numbered('protos', lambda n: proto(f, h, n))
    a_field = numbered('fields', lambda n: member(f, h, 'fields', 'types', n))
    a_method = numbered('methods', lambda n: member(f, h, 'methods', 'protos', n))
    a_class = numbered('classes', lambda n: class_of(f, h, n))
    for n in each('types'):
        q.row('type_name', n, words=lambda: a_type(n))
    for n in each('protos'):
        q.row('proto', n, words=lambda: a_proto(n))
        listed('parameter_count', 'parameter', n, lambda: type_list(f, h, a_proto(n)[2]))
    for n in each('fields'):
        q.row('field', n, words=lambda: a_field(n))
    for n in each('methods'):
        q.row('method', n, words=lambda: a_method(n))
    for n in (*range(10), *more):
        q.row('handle', n, words=lambda: handle(f, h, n))
    for n in each('classes'):
        q.row('class', n, words=lambda: class_words(n))
        listed('interface_count', 'interface', n, lambda: type_list(f, h, a_class(n)[3]))
        for room in (18, 15, 0):
            q.output('class_flags', n, room=room, values=lambda: bits(a_class(n)[1]))
    return q


def files():
    return [asked(f'{name}, {o}', f, (255, 256, 65535, 65536, NONE) if name == 'good' else ()) for o in ('little', 'big') for name, f in cases(o)]


def items():
    for value in (0, 1, 0x10, 0xc0, 0x20c1, 0x3ffff, 0x8000, 0x40000, NONE):
        q = item(f'flags {value:x}', b'')
        for of_class in (0, 1):
            for room in (18, 15, 0):
                q.output('flags', value, of_class, room=room, values=lambda: bits(value, of_class))
        yield q
