#!/usr/bin/env python3
"""Files made for the runs of both readers: made.py FOLDER [FILE...]

Writes to FOLDER, in both byte orders, files that hold every kind of value and of item and that meet every line of docs/DIFFERENCES.md which an accepted
file can meet; and, of each FILE (a little-endian DEX file), the same file in the other order."""
import os
import struct
import sys

TEXTS = ['', '<init>', 'A', 'I', 'LA;', 'LB;', 'LC;', 'LNote;', 'V', 'VI', 'a', 'b', 'c', 'd', 'e', 'f', 'z\x7f"\\\u0001', '\u00e9\u0416', '\u4e2d', '\uffff']
TYPES = ['I', 'LA;', 'LB;', 'LC;', 'LNote;', 'V']
NONE = 0xffffffff
S = {t: i for i, t in enumerate(TEXTS)}
T = {t: i for i, t in enumerate(TYPES)}


def uleb(v):
    out = bytearray()
    while v >= 128:
        out.append(v % 128 + 128)
        v //= 128
    return bytes(out + bytes([v]))


def sleb(v):
    out = bytearray()
    while not -64 <= v < 64:
        out.append(v % 128 + 128)
        v //= 128
    return bytes(out + bytes([v % 128]))


def mutf8(text):
    out = bytearray()
    for c in text:
        u = ord(c)
        if 0 < u < 0x80:
            out.append(u)
        elif u < 0x800:
            out += bytes([0xc0 | u >> 6, 0x80 | u & 0x3f])
        else:
            out += bytes([0xe0 | u >> 12, 0x80 | u >> 6 & 0x3f, 0x80 | u & 0x3f])
    return bytes(out)


# ---- values, as bytes
def value(code, number, size):
    return bytes([code | size - 1 << 5]) + (number % 256 ** size).to_bytes(size, 'little')


def array(*values):
    return b'\x1c' + uleb(len(values)) + b''.join(values)


def body(kind, *elements):
    return uleb(T[kind]) + uleb(len(elements)) + b''.join(uleb(S[n]) + v for n, v in elements)


def note(kind, *elements):
    return b'\x1d' + body(kind, *elements)


def every_value(handles, plain=False):
    """Every kind with every number of bytes that it may have, positive and negative. Plain: what the Rust reads as the document says."""
    out = [value(0x00, 5, 1)] if plain else [value(0x00, 5, 1), value(0x00, -1, 1), value(0x00, -128, 1)]
    for code, most in ((0x02, 2), (0x03, 2), (0x04, 4), (0x06, 8)):
        out += [value(code, n, size) for size in range(1, most + 1) for n in (1, -1, 128 * 256 ** (size - 1))]
    for code, most in ((0x10, 4), (0x11, 8)):
        out += [value(code, n, size) for size in range(most if plain else 1, most + 1) for n in (0x3f, 0x80 * 256 ** (size - 1), -1)]
    out += [value(code, 1, size) for code in (0x15, 0x17, 0x18, 0x19, 0x1a, 0x1b) for size in range(1, 5)]
    out += [value(0x16, n, size) for size in range(1, 5) for n in range(handles)]
    return out + [b'\x1e', b'\x1f', b'\x3f', array(), array(b'\x1e', array(b'\x3f')), note('LNote;'), array(note('LB;', ('a', array(value(0x10, 0x3f800000, 4))), ('b', b'\x1f')))]


class Dex:
    """A file under construction: tables first, then items as they are added."""

    def __init__(self, order, version, handles=(), classes=1, first=()):
        self.order, self.version = order, version
        self.protos = [(S['V'], T['V'], ()), (S['VI'], T['V'], ('I', 'LA;'))]
        self.fields = [(T['LA;'], T['I'], S[n]) for n in 'abcdef'] + [(T['LB;'], T['LA;'], S['a'])]
        self.methods = [(T['LA;'], 0, S['<init>']), (T['LA;'], 1, S['a']), (T['LA;'], 1, S['b']), (T['LB;'], 0, S['c'])]
        self.handles, self.count = list(handles), classes
        sizes = [4 * len(TEXTS), 4 * len(TYPES), 12 * len(self.protos), 8 * len(self.fields), 8 * len(self.methods), 8 * len(self.handles), 32 * classes]
        if first == 'classes last':
            sizes = sizes[:6] + [0]
        self.places = [112 + sum(sizes[:i]) for i in range(7)]
        self.start = 112 + sum(sizes)
        self.data = bytearray()
        self.classes = []
        self.last = first == 'classes last'

    def number(self, n, size=4):
        return (n % 256 ** size).to_bytes(size, self.order)

    def add(self, item, align=1):
        self.data += bytes(-(self.start + len(self.data)) % align)
        place = self.start + len(self.data)
        self.data += item
        return place

    def words(self, *ws):
        return b''.join(self.number(w) for w in ws)

    def list(self, *types):
        return self.add(self.words(len(types)) + b''.join(self.number(T[t], 2) for t in types), 4) if types else 0

    def item(self, visibility, kind, *elements):
        return self.add(bytes([visibility]) + body(kind, *elements))

    def set(self, *items):
        return self.add(self.words(len(items), *items), 4)

    def debug(self, line, names, program):
        return self.add(uleb(line) + uleb(len(names)) + b''.join(uleb(n + 1) for n in names) + bytes(program) + b'\0')

    def code(self, units, tries=(), handlers=b'', debug=0, registers=3):
        out = b''.join(self.number(n, 2) for n in (registers, 2, 1, len(tries))) + self.words(debug, len(units)) + b''.join(self.number(u, 2) for u in units)
        if tries:
            out += bytes(2 * (len(units) % 2)) + b''.join(self.number(a) + self.number(n, 2) + self.number(h, 2) for a, n, h in tries) + handlers
        return self.add(out, 4)

    def class_data(self, *lists):
        out = b''.join(uleb(len(l)) for l in lists)
        for i, members in enumerate(lists):
            last = 0
            for m in members:
                out += uleb(m[0] - last) + uleb(m[1]) + (uleb(m[2]) if i > 1 else b'')
                last = m[0]
        return self.add(out)

    def statics(self, n):
        return self.class_data([(k, 0) for k in range(n)], (), (), ())

    def record(self, kind, flags=1, superclass=NONE, interfaces=0, source=NONE, directory=0, data=0, values=0):
        self.classes.append((T[kind], flags, superclass, interfaces, source, directory, data, values))

    def bytes(self, entries=None, at_end=()):
        """The whole file. `entries` are the map's; `at_end` come with the classes behind the data section."""
        strings = [self.add(uleb(len(t)) + mutf8(t) + b'\0') for t in TEXTS]
        lists = [self.list(*p[2]) for p in self.protos]
        entries = [(0, 1, 0)] + [(8, len(self.handles), self.places[5])] * bool(self.handles) + [(0x1000, 1, self.start)] if entries is None else entries
        entries = sorted(entries, key=lambda e: e[2])
        the_map = self.add(self.words(len(entries)) + b''.join(self.number(k, 2) + bytes(2) + self.words(n, o) for k, n, o in entries), 4)
        records = b''.join(self.words(*c) for c in self.classes)
        tables = self.words(*strings) + self.words(*(S[t] for t in TYPES))
        tables += b''.join(self.words(p[0], p[1], l) for p, l in zip(self.protos, lists))
        tables += b''.join(self.number(a, 2) + self.number(b, 2) + self.number(c) for a, b, c in self.fields + self.methods)
        tables += b''.join(self.number(k, 2) + bytes(2) + self.number(n, 2) + bytes(2) for k, n in self.handles)
        end = self.start + len(self.data)
        body = tables + (b'' if self.last else records) + bytes(self.data)
        class_place = self.places[6]
        if self.last:
            body += bytes(-len(body) % 4)
            class_place = 112 + len(body)
            body += records
        counts = [len(TEXTS), len(TYPES), len(self.protos), len(self.fields), len(self.methods)]
        places = self.places[:5] + [class_place if self.classes else 0]
        head = b'dex\n' + self.version + b'\0' + self.number(0xfedcba98) + bytes(range(1, 21)) + self.words(112 + len(body), 112)
        head += self.number(0x12345678) + self.words(0, 0, the_map)
        for n, p in zip(counts + [len(self.classes)], places):
            head += self.words(n, p)
        return head + self.words(end - self.start, self.start) + body


def everything(order, version=b'039', handles=((4, 0), (0, 1), (8, 3)), plain=False):
    """Every kind of item, and every kind of value that the version has. Plain: no line of docs/DIFFERENCES.md but 6 and 8 is met."""
    d = Dex(order, version, handles, classes=3)
    values = every_value(len(handles), plain)
    n1 = d.item(1, 'LNote;', ('a', array(*values)), ('b', note('LB;', ('c', b'\x1e'))))
    n0, n2 = d.item(0, 'LNote;'), d.item(2, 'LNote;', ('f', value(0x10, 0x3f800000, 4) if plain else value(0x10, 0x3f80, 2)))
    one, two, empty = d.set(n1), d.set(n0, n2), d.set()
    refs = d.add(d.words(4, one, empty if plain else 0, empty, two), 4)
    directory = d.add(d.words(two, 2, 2, 2, 0, one, 5, empty, 1, two, 2, one, 1, refs, 3, refs), 4)
    debug = d.debug(7, (-1, S['a'], S['b'], -1), (0x01, 0x05, 0x02, 0x7f, 0x07, 0x0a, 0xff))
    # pairs alone; pairs and a catch-all; a lone catch-all
    handlers = uleb(3) + sleb(1) + uleb(T['LB;']) + uleb(1) + sleb(-1) + uleb(T['LC;']) + uleb(0) + uleb(2) + sleb(0) + uleb(1)
    odd = d.code((0x0012, 0x000e, 0xffff), ((0, 2, 1), (2, 1, 4)), handlers, debug)
    plain = d.code((0x000e, 0x0000), debug=d.debug(0, (), ()))
    statics = ((0, 0x9), (1, 0x9), (2, 0x19), (5, 0x49))
    data = d.class_data(statics[:2] if plain else statics, ((3, 0x80), (4, 0x82)), ((0, 0x10001, plain), (3, 0x20001, odd)), ((1, 0x1, odd), (2, 0x5c1, 0)))
    # no more static values than static fields: all of them in one
    d.record('LA;', 0x3ffff, T['LB;'], d.list('LB;', 'LC;'), S['A'], directory, data, d.add(uleb(2) + array(*values) + b'\x1e'))
    d.record('LB;', 0x200, data=d.class_data((), (), (), ()), directory=d.add(d.words(0, 0, 0, 0), 4))
    d.record('LC;', 0)
    return d


def sample(order):
    """What crates/readers_run replays of the Rust."""
    return everything(order, b'039', (), plain=True).bytes()


def cases(order):
    yield 'sample', sample(order)
    yield 'everything-039', everything(order).bytes()
    yield 'everything-038', everything(order, b'038').bytes()
    yield 'everything-035', everything(order, b'035', ()).bytes()
    # line 7: a handle's number beyond the methods
    d = Dex(order, b'039', [(0, k) for k in range(6)])
    d.record('LA;', values=d.add(uleb(2) + value(0x16, 3, 1) + value(0x16, 5, 1)), data=d.statics(2))
    yield 'handle-beyond', d.bytes()
    # line 8: a try far on
    d = Dex(order, b'035')
    code = d.code(range(5000), [(4990, 9, 1)], uleb(1) + sleb(0) + uleb(0))
    d.record('LA;', data=d.class_data((), (), ((0, 1, code),), ()))
    yield 'try-far', d.bytes()
    # line 9: the class table ends the file
    for name, kinds in (('sites-last', (7,)), ('handles-last', (8,)), ('both-last', (7, 8))):
        d = Dex(order, b'038', ((0, 1),) if 8 in kinds else (), first='classes last')
        d.record('LA;')
        entries = [(0, 1, 0)] + [(7, 1, 9)] * (7 in kinds) + [(8, len(d.handles), d.places[5])] * (8 in kinds)
        yield name, d.bytes(entries)
    # line 16: map code 0xF000
    d = Dex(order, b'039')
    d.record('LA;')
    yield 'hidden-039', d.bytes([(0, 1, 0), (0xf000, 1, 500)])
    d = Dex(order, b'037')
    d.record('LA;')
    yield 'hidden-037', d.bytes([(0, 1, 0), (0xf000, 1, 500)])
    # depth 64
    d = Dex(order, b'035')
    deep = b'\x1e'
    for _ in range(63):
        deep = array(deep)
    d.record('LA;', values=d.add(uleb(1) + deep), data=d.statics(1))
    yield 'depth-64', d.bytes()
    # no class at all
    yield 'no-class', Dex(order, b'035', classes=0).bytes()


# ---- a file for each line of docs/DIFFERENCES.md, as small as it gets
def lines():
    """The line's number, a name, the file, what we say (accepted, or number and place), and a part of what the Rust says."""
    o = 'little'

    def valued(*values, version=b'035', handles=()):
        d = Dex(o, version, handles)
        d.record('LA;', values=d.add(uleb(len(values)) + b''.join(values)), data=d.statics(len(values)))
        return d.bytes(), d.start

    def of(line, name, made, ours, theirs):
        return line, name, made[0] if isinstance(made, tuple) else made, ours.format(*made[1:]) if isinstance(made, tuple) else ours, theirs

    def changed(f, *places):
        f = bytearray(f)
        for at, new in places:
            f[at:at + len(new)] = new
        return bytes(f)

    def method(**code):
        d = Dex(o, b'035')
        place = d.code(**code)
        d.record('LA;', data=d.class_data((), (), ((0, 1, place),), ()))
        return d.bytes(), place

    empty = Dex(o, b'035', classes=0).bytes()
    ok, least = '"ok"', uleb(1) + sleb(0) + uleb(0)
    d = Dex(o, b'035')
    d.record('LA;', data=d.class_data(((1, 0), (2, 0), (3, 0)), (), (), ()))
    yield of(1, 'differences 1, 1, 1', d.bytes(), 'accepted', '"static_fields":[{"field":{"definer":"LA;","type":"I","name":"b"},"flags":[]},{"field":{"definer":"LA;","type":"I","name":"c"},"flags":[]},{"field":{"definer":"LA;","type":"I","name":"c"}')
    yield of(2, 'value 30 80 3f', valued(b'\x30\x80\x3f'), 'accepted', '"static_values":[{"float_bits":"00003f80"}]')
    yield of(3, 'value 00 ff', valued(b'\x00\xff'), 'accepted', '"static_values":[{"byte_u8":255}]')
    yield of(4, 'value 5f', valued(b'\x5f'), '12 {}', '"static_values":[{"boolean":true}]')
    yield of(4, 'value 90', valued(b'\x90' + bytes(5)), '12 {}', '"panic"')
    yield of(4, 'value 20 05', valued(b'\x20\x05'), '12 {}', '"static_values":[{"byte_u8":5}]')
    for name, size, shown in (('size 80 80 80 80 10', b'\x80\x80\x80\x80\x10', '"static_values":[]'), ('size 80 80 80 80 80 00', b'\x80\x80\x80\x80\x80\0', '"static_values":[]')):
        d = Dex(o, b'035')
        d.record('LA;', values=d.add(size))
        yield of(5, name, d.bytes(), f'10 {d.start}', shown)
    d = Dex(o, b'035')
    place = d.code((0,), debug=d.debug(0, (-1,), ()))
    d.record('LA;', data=d.class_data((), (), ((0, 1, place),), ()))
    yield of(6, 'debug name 00', d.bytes(), 'accepted', '"parameter_names":[-1]')
    yield of(7, 'handle 0, of kind 0, of field 1', valued(b'\x16\x00', version=b'038', handles=((0, 1),)), 'accepted', '"method_handle":{"definer":"LA;","proto"')
    yield of(8, 'a try over unit 0', method(units=(0x1234,), tries=((0, 1, 1),), handlers=least), 'accepted', '"tries":[{"code_units":[3]')
    d = Dex(o, b'038', first='classes last')
    d.record('LA;')
    yield of(9, 'the class table at the end, map type 7', d.bytes([(7, 1, 9)]), 'accepted', '"error"')
    d = Dex(o, b'035')
    refs = d.add(d.words(1, 0), 4)
    d.record('LA;', directory=d.add(d.words(0, 0, 0, 1, 0, refs), 4))
    yield of(10, 'a reference list with a 0', d.bytes(), 'accepted', '"parameters":[]')
    for version in (b'+38\0', b'-01\0', b'999\0', b'035x'):
        yield of(11, f'version {version}', changed(empty, (4, version)), '3 0', ok)
    yield of(12, 'file size 0', changed(empty, (32, bytes(4))), '5 0', ok)
    yield of(12, 'header size 0', changed(empty, (36, bytes(4))), '5 0', ok)
    yield of(12, 'two strings in the wrong order', changed(empty, (112, empty[116:120] + empty[112:116])), '15 116', ok)
    yield of(12, 'two types in the wrong order', changed(empty, (192, empty[196:200] + empty[192:196])), '15 196', ok)
    d = Dex(o, b'035')
    d.add(b'\0')
    d.record('LA;', interfaces=d.add(d.words(0)))
    yield of(12, 'interfaces at an odd place', d.bytes(), f'8 {d.places[6]}', ok)
    d = Dex(o, b'035')
    d.record('LA;', data=d.class_data(((1, 0), (1, 0)), (), (), ()))
    yield of(12, 'a field named twice', d.bytes(), f'15 {d.start}', ok)
    at = empty.index(b'\x06<init>')
    yield of(12, 'a stored length of 5 for 6 units', changed(empty, (at, b'\5')), f'14 {at}', ok)
    yield of(13, '111 bytes', empty[:111], '1 0', '"error"')
    yield of(13, 'wrong magic and wrong tag', changed(empty, (0, b'D'), (40, b'\0')), '3 0', 'could not determine endianness')
    yield of(14, 'no class, at an offset', changed(empty, (100, b'\x70')), '6 0', ok)
    yield of(14, 'no class, at an offset past the end', changed(empty, (102, b'\x70')), '6 0', '"panic"')
    yield of(15, 'a type whose string is not there', changed(empty, (192, b'\x63')), '11 192', '"panic"')
    yield of(15, 'a string before the data section', changed(empty, (112, b'\x70\0')), '8 112', '"panic"')
    d = Dex(o, b'038', classes=0)
    yield of(16, 'map code 0xF000', d.bytes([(0xf000, 1, 500)]), 'accepted', '"error"')
    deep = array()
    for _ in range(63):
        deep = array(deep)
    yield of(17, 'depth 65', valued(deep), '13 {}', ok)
    d = Dex(o, b'035')
    place = d.code((0,), debug=d.debug(0, (), (0x01, 0x7f)))
    d.record('LA;', data=d.class_data((), (), ((0, 1, place),), ()))
    yield of(18, 'line program 01 7f', d.bytes(), 'accepted', '"bytecode":["DBG_ADVANCE_PC","SPECIAL_OPCODE(127)"]')
    m = int.from_bytes(empty[52:56], 'little')
    yield of(19, 'map type 0x0042, version 035', changed(empty, (m + 4, b'\x42')), f'16 {m}', ok)
    d = Dex(o, b'039', classes=0)
    f = d.bytes([(0, 1, 0), (1, 1, 112)])
    m = int.from_bytes(f[52:56], 'little')
    yield of(19, 'map type 0 twice', changed(f, (m + 16, b'\0')), f'16 {m}', ok)
    yield of(19, 'map offsets that do not rise', changed(f, (m + 24, b'\0')), f'16 {m}', ok)
    yield of(20, 'a try past the units', method(units=(0,), tries=((0, 2, 1),), handlers=least), '17 {}', ok)
    yield of(20, 'tries that overlap', method(units=(0,), tries=((0, 1, 1), (0, 1, 1)), handlers=least), '17 {}', ok)
    yield of(20, 'a handler offset of 0', method(units=(0,), tries=((0, 1, 0),), handlers=least), '17 {}', ok)
    yield of(20, 'a catch-all past the units', method(units=(0,), tries=((0, 1, 1),), handlers=uleb(1) + sleb(0) + uleb(1)), '17 {}', ok)
    d = Dex(o, b'038', ((9, 0),), classes=0)
    yield of(21, 'a handle of kind 9', d.bytes(), f'18 {d.places[5]}', ok)
    yield of(21, 'a handle of a field that is not there', (lambda d: d.bytes())(Dex(o, b'038', ((0, 99),), classes=0)), f'11 {d.places[5]}', ok)
    d = Dex(o, b'035')
    d.record('LA;', values=d.add(uleb(1) + b'\x1e'))
    yield of(22, 'a static value without a static field', d.bytes(), f'21 {d.places[6]}', '"static_values":["null_value"]')


# ---- the other byte order
def swapped(f):
    """The same file, big-endian. The file is accepted, so that what lies where is known from its offsets; each item is turned once."""
    out, done = bytearray(f), set()
    word = lambda p: struct.unpack_from('<I', f, p)[0]
    half = lambda p: struct.unpack_from('<H', f, p)[0]

    def turn(p, size):
        out[p:p + size] = f[p:p + size][::-1]

    def words(p, n):
        for i in range(n):
            turn(p + 4 * i, 4)

    def once(p):
        fresh = p not in done
        done.add(p)
        return p and fresh

    def leb(p):
        v = k = 0
        while True:
            v |= (f[p] & 0x7f) << k
            k += 7
            p += 1
            if f[p - 1] < 0x80:
                return v, p

    def type_list(p):
        if once(p):
            turn(p, 4)
            for i in range(word(p)):
                turn(p + 4 + 2 * i, 2)

    def offsets(p, below=None):
        if once(p):
            words(p, 1 + word(p))
            for i in range(word(p)):
                if below:
                    below(word(p + 4 + 4 * i))

    def directory(p):
        if not once(p):
            return
        fields, methods, parameters = word(p + 4), word(p + 8), word(p + 12)
        words(p, 4 + 2 * (fields + methods + parameters))
        offsets(word(p))
        for i in range(fields + methods + parameters):
            offsets(word(p + 20 + 8 * i), None if i < fields + methods else offsets)

    def code(p):
        if not once(p):
            return
        for i in range(4):
            turn(p + 2 * i, 2)
        words(p + 8, 2)
        n = word(p + 12)
        for i in range(n):
            turn(p + 16 + 2 * i, 2)
        if half(p + 6):
            q = p + 16 + 2 * (n + n % 2)
            for i in range(half(p + 6)):
                turn(q + 8 * i, 4)
                turn(q + 8 * i + 4, 2)
                turn(q + 8 * i + 6, 2)

    def class_data(p):
        counts = []
        for _ in range(4):
            n, p = leb(p)
            counts.append(n)
        for i, n in enumerate(counts):
            for _ in range(n):
                place = 0
                for _ in range(3 if i > 1 else 2):
                    place, p = leb(p)
                if i > 1:
                    code(place)

    words(8, 1)
    words(32, 20)
    table = lambda i: (word(56 + 8 * i), word(60 + 8 * i))
    for i, n in ((0, 1), (1, 1), (2, 3)):
        words(table(i)[1], n * table(i)[0])
    for i in range(table(2)[0]):
        type_list(word(table(2)[1] + 12 * i + 8))
    for t in (3, 4):
        for i in range(table(t)[0]):
            p = table(t)[1] + 8 * i
            turn(p, 2), turn(p + 2, 2), turn(p + 4, 4)
    for i in range(table(5)[0]):
        p = table(5)[1] + 32 * i
        words(p, 8)
        type_list(word(p + 12))
        directory(word(p + 20))
        if word(p + 24):
            class_data(word(p + 24))
    m = word(52)
    turn(m, 4)
    for i in range(word(m)):
        p = m + 4 + 12 * i
        turn(p, 2), turn(p + 2, 2), words(p + 4, 2)
        if half(p) == 8:
            for k in range(word(p + 4)):
                for j in range(4):
                    turn(word(p + 8) + 8 * k + 2 * j, 2)
    return bytes(out)


def main():
    folder = sys.argv[1]
    os.makedirs(folder, exist_ok=True)
    for order in ('little', 'big'):
        for name, data in cases(order):
            open(os.path.join(folder, f'{name}-{order}.dex'), 'wb').write(data)
    with open(os.path.join(folder, 'lines.tsv'), 'w', encoding='utf-8') as told:
        for k, (line, name, data, ours, theirs) in enumerate(lines()):
            file = os.path.join(folder, f'line{line:02d}-{k:02d}.dex')
            open(file, 'wb').write(data)
            told.write('\t'.join((str(line), name, file, ours, theirs)) + '\n')
    for name in sys.argv[2:]:
        f = open(name, 'rb').read()
        if f[40:44] == b'\x78\x56\x34\x12':
            open(os.path.join(folder, 'swapped-' + os.path.basename(name)), 'wb').write(swapped(f))


if __name__ == '__main__':
    main()
