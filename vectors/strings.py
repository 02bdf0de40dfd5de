"""String tables in both byte orders, a text that is looked up in each, and what the readers of strings answer."""
from dexfile import Refused, at, file, header, map_list, rule, word
from questions import File, numbers


def uleb(n):
    out = b''
    while n > 127:
        out, n = out + bytes([n % 128 + 128]), n // 128
    return out + bytes([n])


def encoded(units):
    """16-bit units as modified UTF-8."""
    return b''.join(bytes([u]) if 0 < u < 0x80 else bytes([0xc0 + u // 64, 0x80 + u % 64]) if u < 0x800
                    else bytes([0xe0 + u // 4096, 0x80 + u // 64 % 64, 0x80 + u % 64]) for u in units)


def item(units, stored=None):
    return uleb(len(units) if stored is None else stored) + encoded(units) + b'\0'


def table(o, items, offsets=None):
    """A file whose string table stands at 112 and whose items follow it."""
    first = 112 + 4 * len(items)
    places = [first + sum(map(len, items[:i])) for i in range(len(items))] if offsets is None else offsets
    body = b''.join(word(p, o) for p in places) + b''.join(items)
    body += bytes(-len(body) % 4)
    return file(o, b'035', body + map_list(o, []), map_at=112 + len(body), tables={'strings': (len(items), 112)} if items else None, data=(first, len(body) + 112 - first + 4))


def units(text):
    return [0] if text == '\0' else [int.from_bytes(text.encode('utf-16-be', 'surrogatepass')[i:i + 2], 'big') for i in range(0, 2 * len(text.encode('utf-16-be', 'surrogatepass')) // 2, 2)]


def cases(o):
    names = ['', 'A1', 'A10', 'A2', 'Ω', 'кабель', '線', '\U0001f686']
    good = table(o, [item(units(n)) for n in names])
    for sought in ('', 'A1', 'A2', 'A10', 'кабель', '\U0001f686', 'A', 'A11', 'zz'):
        yield 'found ' + sought, encoded(units(sought)), good
    yield 'no legal text', b'\xc0', good
    yield 'other bytes', b'\xf0\x9f\x9a\x86', good
    yield 'no strings', b'A', table(o, [])
    yield '0 before 1', b'\xc0\x80', table(o, [item([0]), item([1])])
    yield '1 before 0', b'\xc0\x80', table(o, [item([1]), item([0])])
    yield 'prefix first', b'A', table(o, [item([65]), item([65, 65])])
    yield 'prefix last', b'A', table(o, [item([65, 65]), item([65])])
    yield 'the same twice', b'A', table(o, [item([65]), item([65])])
    yield 'surrogate before ffff', encoded([0xffff]), table(o, [item([0xd83d, 0xde86]), item([0xdfff]), item([0xffff])])
    yield 'ffff before surrogate', b'A', table(o, [item([0xffff]), item([0xd83d])])
    yield 'three bytes against two', b'A', table(o, [item([0x7f]), item([0x80]), item([0x7ff]), item([0x800])])
    long = [0x41 + i % 26 for i in range(200)]
    yield 'a long one', encoded(long), table(o, [item(long)])
    yield 'too long by one', b'A', table(o, [item([65], stored=2)])
    yield 'too short by one', b'A', table(o, [item([65, 66], stored=1)])
    yield 'malformed after the match', b'A', table(o, [item([65]), item([66]), b'\x01\xc1\x80\0'])
    yield 'malformed before order', b'A', table(o, [item([66]), b'\x01\xe0\x80\x80\0'])
    yield 'order before malformed', b'A', table(o, [item([66]), item([65]), b'\x01\xff\0'])
    yield 'offset 0', b'A', table(o, [item([65])], [0])
    yield 'offset in the table', b'A', table(o, [item([65])], [112])
    yield 'offset at the end', b'A', table(o, [item([65])], [124])
    yield 'offset at the last byte', b'A', table(o, [item([65])], [123])
    yield 'second offset', b'A', table(o, [item([65]), item([66])], [120, 0xffffffff])
    yield 'no end', b'A', file(o, b'035', word(120, o) + word(0, o) + b'\x01A', map_at=116, tables={'strings': (1, 112)}, data=(116, 6))


def read_uleb(data, place, end, where):
    value = 0
    for i in range(5):
        if place + i >= end:
            raise Refused(9, where)
        b = data[place + i]
        if i == 4 and b > 0x0f:
            raise Refused(10, where)
        value += (b % 128) << 7 * i
        if b < 128:
            return value, place + i + 1


def string(f, h, n):
    """String n: where its bytes begin, the bytes, the units."""
    record = h['strings'][1] + 4 * n
    where, end = at(f, record, h['order']), h['end']
    if not h['start'] <= where < end:
        raise Refused(8, record)
    stored, start = read_uleb(f, where, end, where)
    p, got = start, []
    while True:
        if p >= end:
            raise Refused(9, where)
        a = f[p]
        if a == 0:
            break
        size = 1 if a < 0x80 else 2 if 0xc0 <= a < 0xe0 else 3 if 0xe0 <= a < 0xf0 else 0
        if size == 0:
            raise Refused(14, where)
        if p + size > end:
            raise Refused(9, where)
        rest = f[p + 1:p + size]
        unit = a if size == 1 else (a % 32 if size == 2 else a % 16)
        for b in rest:
            unit = unit * 64 + b % 64
        if any(b // 64 != 2 for b in rest) or size == 2 and 0 < unit < 0x80 or size == 3 and unit < 0x800:
            raise Refused(14, where)
        got.append(unit)
        p += size
    if len(got) != stored:
        raise Refused(14, where)
    return start, f[start:p], got


def looked_up(f, text):
    h = header(f)
    last, found = None, None
    for n in range(h['strings'][0]):
        data, got = string(f, h, n)[1:]
        rule(last is None or last < got, 15, h['strings'][1] + 4 * n)
        last = got
        if data == text:
            found = [n]
    return found


def asked(label, text, f):
    q = File(label, f)
    h = header(f)

    def at_number(n):
        rule(n < h['strings'][0], 7, 0)
        return string(f, h, n)

    def extent(n):
        start, data, got = at_number(n)
        return start, len(data), len(got)
    q.row('find_string', words=lambda: looked_up(f, text), text=text)
    for n in numbers(lambda: h['strings'][0]):
        q.row('string', n, words=lambda: extent(n))
        q.part('string_bytes', n, data=lambda: at_number(n)[1])
    return q


def files():
    return [asked(f'{name}, {o}', text, f) for o in ('little', 'big') for name, text, f in cases(o)]
