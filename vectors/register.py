#!/usr/bin/env python3
"""The register of a file (docs/REGISTER.md), told once more in Python from the raw bytes; and what crates/dexregister is run on and must write.

    vectors/register.py FILE..         the register of each file, with a line file=NAME before it; what ./dexregister writes for them
    vectors/register.py -              the register of standard input alone
    vectors/register.py --store        (from the repository's root) writes crates/dexregister: data/, args and stdout

Where the rules come from: the layouts are document 01's (class records, class data, directories, sets, annotation items, values), read here once more and not by
whole.py; whether a file is accepted, and the refusal otherwise, is whole.py's. What a line says and how it is written is docs/REGISTER.md, section by section:
"A line" is `line`, "Kinds" is `shown`, `plain` and `DEFAULTS`, "Texts" is `text`, "Order" is `register`."""
import os, shutil, struct, sys
from dexfile import Refused, file, map_list, word
from strings import item as text_item, uleb, units
from whole import MOST_INPUT, report, verdict

ORDINARY = bytes(range(0x20)) + b'\x7f\\'
IN_KEYS = ORDINARY + b'.[]@'
# "Kinds": the default of a field past the list, by the text of its type; null for any other text (document 02, ticket 1)
DEFAULTS = {b'Z': [b'boolean', b'0'], b'B': [b'byte', b'0'], b'S': [b'short', b'0'], b'C': [b'char', b'0'], b'I': [b'int', b'0'], b'J': [b'long', b'0'],
            b'F': [b'float', b'00000000', b'0'], b'D': [b'double', b'0000000000000000', b'0']}


def text(raw, special=ORDINARY):
    """ "Texts": a text's own bytes, but for those that are written by their number."""
    return b''.join(b'\\x%02x' % b if b in special else bytes([b]) for b in raw)


def number(n):
    return b'%d' % n


def whole(value, most):
    """The number of a float that is a whole one of at most `most` either way, in a column more."""
    # NaN is equal to nothing, and an infinity is more than `most`
    return [number(int(value))] if abs(value) <= most and value == int(value) else []


class Reader:
    """A place in the data section that is read from on. Numbers of values are stored low byte first, whatever the file's byte order; words have the file's."""

    def __init__(self, dex, p):
        self.dex, self.p = dex, p

    def bytes(self, n):
        self.p += n
        return self.dex.f[self.p - n:self.p]

    def word(self, n=4):
        return int.from_bytes(self.bytes(n), self.dex.order)

    def uleb(self):
        n = shift = 0
        while True:
            b = self.bytes(1)[0]
            n, shift = n + (b % 128 << shift), shift + 7
            if b < 128:
                return n

    def values(self, key, named, count):
        """ "A line": what is in an array or annotation, each with the way to it as its key."""
        for i in range(count):
            inner = key + b'.' + text(self.dex.string(self.uleb()), IN_KEYS) if named else key + b'[%d]' % i
            yield from self.shown(inner)

    def shown(self, key):
        """The value that stands here, and what is in it: a key and columns for each line."""
        head = self.bytes(1)[0]
        code, size = head % 32, head // 32 + 1
        if code == 0x1c:
            count = self.uleb()
            yield key, [b'array', number(count)]
            yield from self.values(key, False, count)
        elif code == 0x1d:
            kind, count = self.uleb(), self.uleb()
            yield key, [b'annotation', text(self.dex.type(kind)), number(count)]
            yield from self.values(key, True, count)
        elif code == 0x1e:
            yield key, [b'null']
        elif code == 0x1f:
            yield key, [b'boolean', number(size - 1)]
        else:
            yield key, self.plain(code, self.bytes(size))

    def plain(self, code, raw):
        signed, n = int.from_bytes(raw, 'little', signed=True), int.from_bytes(raw, 'little')
        if code in (0x00, 0x02, 0x04, 0x06):
            return [{0x00: b'byte', 0x02: b'short', 0x04: b'int', 0x06: b'long'}[code], number(signed)]
        if code == 0x03:
            return [b'char', number(n)]
        # a float's bytes are its highest, and the lower ones are zero
        if code == 0x10:
            bits = raw.rjust(4, b'\0')
            return [b'float', bits[::-1].hex().encode(), *whole(struct.unpack('<f', bits)[0], 2 ** 24)]
        if code == 0x11:
            bits = raw.rjust(8, b'\0')
            return [b'double', bits[::-1].hex().encode(), *whole(struct.unpack('<d', bits)[0], 2 ** 53)]
        return self.dex.named(code, n)


class Dex:
    """An accepted file: its tables by number."""

    def __init__(self, f, h):
        self.f, self.h, self.order = f, h, h['order']

    def at(self, place, size=4):
        return int.from_bytes(self.f[place:place + size], self.order)

    def record(self, table, width, n):
        return self.h[table][1] + width * n

    def string(self, n):
        r = Reader(self, self.at(self.record('strings', 4, n)))
        r.uleb()
        return self.f[r.p:self.f.index(0, r.p)]

    def type(self, n):
        return self.string(self.at(self.record('types', 4, n)))

    def member(self, table, n):
        """Class, type or proto, and name: numbers of two, two and four bytes."""
        p = self.record(table, 8, n)
        return self.at(p, 2), self.at(p + 2, 2), self.at(p + 4)

    def named(self, code, n):
        """ "Kinds": what an index says."""
        if code == 0x15:
            return [b'proto', number(n)]
        if code == 0x16:
            return [b'handle', number(n)]
        if code == 0x17:
            return [b'string', text(self.string(n))]
        if code == 0x18:
            return [b'type', text(self.type(n))]
        if code == 0x1a:
            owner, proto, name = self.member('methods', n)
            return [b'method', text(self.type(owner)), text(self.string(name)), number(proto)]
        owner, kind, name = self.member('fields', n)
        return [{0x19: b'field', 0x1b: b'enum'}[code], text(self.type(owner)), text(self.string(name)), text(self.type(kind))]

    def annotations(self, sets):
        """The annotations of sets, one after the other, numbered over all of them."""
        k = 0
        for place in sets:
            entries = Reader(self, place)
            for _ in range(entries.word()):
                r = Reader(self, entries.word())
                key, visibility, kind = b'@%d' % k, r.bytes(1)[0], r.uleb()
                yield key, [b'annotation', number(visibility), text(self.type(kind))]
                yield from r.values(key, True, r.uleb())
                k += 1

    def directory(self, place):
        """The set of the class, where there is one, and the field entries in their order."""
        if not place:
            return [], []
        r = Reader(self, place)
        own, fields, _, _ = (r.word() for _ in range(4))
        return [own] if own else [], [(r.word(), r.word()) for _ in range(fields)]

    def statics(self, place):
        """The static fields of a class: number and flags. Each number is stored as the difference to the one before."""
        if place:
            r = Reader(self, place)
            count, index = r.uleb(), 0
            for _ in range(3):
                r.uleb()
            for _ in range(count):
                index += r.uleb()
                yield index, r.uleb()

    def of_class(self, n):
        """ "Order": the facts of a class, each a field's name, a key and columns."""
        kind, _, _, _, _, directory, data, values = (self.at(self.record('classes', 32, n) + 4 * i) for i in range(8))
        own, entries = self.directory(directory)
        for key, columns in self.annotations(own):
            yield b'', key, columns
        r = Reader(self, values)
        stored = r.uleb() if values else 0
        for k, (index, flags) in enumerate(self.statics(data)):
            _, of, name = self.member('fields', index)
            facts = [(b'flags', [number(flags)]), (b'type', [text(self.type(of))])]
            facts += r.shown(b'value') if k < stored else [(b'default', DEFAULTS.get(self.type(of), [b'null']))]
            facts += self.annotations([place for field, place in entries if field == index])
            for key, columns in facts:
                yield text(self.string(name)), key, columns

    def register(self):
        for n in range(self.h['classes'][0]):
            owner = text(self.type(self.at(self.record('classes', 32, n))))
            for name, key, columns in self.of_class(n):
                yield b'\t'.join([owner, name, key, *columns]) + b'\n'


def written(f):
    """What the program writes on this input: the register, or the refusal."""
    said = Refused(20) if len(f) > MOST_INPUT else verdict(f)
    return report(f).encode() if isinstance(said, Refused) else b''.join(Dex(f, said).register())


# ---- files made for the program's run

class Made:
    """A file put together from texts, members and classes. Texts are numbered in the order of their 16-bit units; everything else says numbers by `s`, `t`, `f` and `m`."""

    def __init__(self, o, texts, types, fields, classes, methods=(), protos=0, handles=0):
        self.o = o
        self.texts = sorted({*texts, *types, *(n for _, _, n in fields), *(n for _, n in methods), *(['V'] if protos else [])}, key=units)
        self.types = sorted(types, key=units)
        self.fields, self.methods, self.protos, self.handles = fields, methods, protos, handles
        self.place = {}
        for _ in range(2):
            head = self.tables(classes)
            self.body, self.start = b'', 112 + len(head)
            for i, t in enumerate(self.texts):
                self.put(f't{i}', text_item(units(t)))
            for n, c in enumerate(classes):
                self.put_class(n, c)
            self.put('map', map_list(o, [(8, handles, self.handles_at)] if handles else []), 4)
        self.f = file(o, b'039', head + self.body, map_at=self.place['map'], tables=self.counts, data=(self.start, len(self.body)))

    def s(self, t):
        return self.texts.index(t)

    def t(self, t):
        return self.types.index(t)

    def w(self, *values, size=4):
        return b''.join(word(v, self.o, size) for v in values)

    def put(self, name, data, four=1):
        self.body += bytes(-(self.start + len(self.body)) % four)
        self.place[name] = self.start + len(self.body)
        self.body += data

    def tables(self, classes):
        at = lambda name: self.place.get(name, 0)
        rows = {'strings': [self.w(at(f't{i}')) for i in range(len(self.texts))],
                'types': [self.w(self.s(t)) for t in self.types],
                'protos': [self.w(self.s('V'), 0, 0) for _ in range(self.protos)],
                'fields': [self.w(self.t(c), self.t(k), size=2) + self.w(self.s(n)) for c, k, n in self.fields],
                'methods': [self.w(self.t(c), 0, size=2) + self.w(self.s(n)) for c, n in self.methods],
                'classes': [self.w(self.t(c['type']), 1, 0xffffffff, 0, 0xffffffff, at(f'd{n}'), at(f'c{n}'), at(f'v{n}')) for n, c in enumerate(classes)]}
        out, self.counts = b'', {}
        for name, row in rows.items():
            if row:
                self.counts[name] = (len(row), 112 + len(out))
            out += b''.join(row)
        self.handles_at = 112 + len(out)
        return out + self.w(4, 0, 0, 0, size=2) * self.handles

    def put_set(self, name, annotations):
        for k, (visibility, kind, elements) in enumerate(annotations):
            self.put(f'{name}.{k}', bytes([visibility]) + self.annotation(kind, elements))
        self.put(name, self.w(len(annotations), *(self.place[f'{name}.{k}'] for k in range(len(annotations)))), 4)

    def put_class(self, n, c):
        if 'own' in c or 'entries' in c:
            if 'own' in c:
                self.put_set(f'o{n}', c['own'])
            entries = c.get('entries', [])
            for k, (_, annotations) in enumerate(entries):
                self.put_set(f'e{n}.{k}', annotations)
            self.put(f'd{n}', self.w(self.place.get(f'o{n}', 0), len(entries), 0, 0, *(v for k, (field, _) in enumerate(entries) for v in (field, self.place[f'e{n}.{k}']))), 4)
        if 'statics' in c:
            out, last = uleb(len(c['statics'])) + b'\0\0\0', 0
            for index, flags in c['statics']:
                out, last = out + uleb(index - last) + uleb(flags), index
            self.put(f'c{n}', out)
        if 'values' in c:
            self.put(f'v{n}', uleb(len(c['values'])) + b''.join(map(self.value, c['values'])))

    def annotation(self, kind, elements):
        return uleb(self.t(kind)) + uleb(len(elements)) + b''.join(uleb(self.s(name)) + self.value(v) for name, v in elements)

    def value(self, v):
        """A value said as (kind, ..): bytes that are given as such; an index; a body."""
        kind, *rest = v
        if kind == 'array':
            return b'\x1c' + uleb(len(rest)) + b''.join(map(self.value, rest))
        if kind == 'annotation':
            return b'\x1d' + self.annotation(*rest)
        if kind in ('string', 'type'):
            n = self.s(rest[0]) if kind == 'string' else self.t(rest[0])
            return bytes([0x37 if kind == 'string' else 0x38]) + n.to_bytes(2, 'little')
        raw = rest[0] if rest else b''
        return bytes([kind + 32 * (len(raw) - 1 if raw else 0)]) + raw


def le(n, size):
    return (n % 256 ** size).to_bytes(size, 'little')


def floats():
    """Bits of floats and doubles at the limits: zero, minus zero, whole and broken ones, the largest whole ones and the next, the ends of each range."""
    f = [0x00000000, 0x80000000, 0x3f800000, 0xbf800000, 0x3f000000, 0x3fc00000, 0x40400000, 0x4b7fffff, 0x4b800000, 0xcb800000, 0x4b800001, 0x4b000001, 0x4affffff, 0x00000001, 0x007fffff, 0x7f800000, 0xff800000, 0x7fc00001, 0x7f7fffff, 0x42c80000, 0xc2f6e979]
    d = [0x0, 1 << 63, 0x3ff0000000000000, 0xbff0000000000000, 0x3fe0000000000000, 0x4008000000000000, 0x433fffffffffffff, 0x4340000000000000, 0xc340000000000000, 0x4340000000000001, 0x4330000000000001, 0x432fffffffffffff, 0x1, 0x7ff0000000000000, 0xfff0000000000000, 0x7ff8000000000001, 0x7fefffffffffffff, 0x40c3880000000000, 0x405edd2f1a9fbe77]
    return [(0x10, le(b, 4)) for b in f] + [(0x10, b'\x3f'), (0x10, b'\x80\x3f'), (0x10, b'\x80')] + [(0x11, le(b, 8)) for b in d] + [(0x11, b'\x40'), (0x11, b'\xf0\x3f'), (0x11, b'\x80')]


def of_values(o, values, kind='LT;', more=(), owner='LC;', texts=(), **rest):
    """A file of one class whose static fields have these values."""
    names = [f'f{i:03}' for i in range(len(values) + len(more))]
    kinds = [kind] * len(values) + list(more)
    fields = [(owner, k, n) for k, n in zip(kinds, names)]
    return Made(o, [*texts, *names], {owner, 'LA;', 'LT;', *kinds, *(['V'] if rest.get('protos') else [])}, fields, [{'type': owner, 'statics': [(i, 9) for i in range(len(fields))], 'values': values}], **rest).f


def made(o):
    """Name and file, of either byte order."""
    numbers = [(0x00, b'\x7f'), (0x00, b'\x80'), *((c, raw) for c, most in ((0x02, 2), (0x04, 4), (0x06, 8)) for n in range(1, most + 1) for raw in (b'\xff' * (n - 1) + b'\x7f', b'\0' * (n - 1) + b'\x80', b'\xff' * n, b'\0' * n)),
               (0x03, b'\0'), (0x03, b'\xff'), (0x03, b'\xff\xff'), (0x03, b'\0\x80'), (0x1e,), (0x1f,), (0x3f,)]
    yield 'numbers', of_values(o, numbers)
    yield 'floats', of_values(o, floats())
    indices = [('string', 'Ω'), ('string', ''), ('type', 'LT;'), ('type', 'LC;'), (0x19, b'\0'), (0x1b, b'\1'), (0x1a, b'\0'), (0x1a, b'\1\0\0'), (0x15, b'\1'), (0x16, b'\0'), (0x16, b'\2\0\0\0')]
    yield 'indices', of_values(o, indices, texts=['Ω', ''], methods=[('LC;', 'run'), ('LT;', 'a\tb')], protos=2, handles=3)
    inner = ('annotation', 'LA;', [('b', ('array', (0x04, b'\5'), ('array', ('string', 'b')), ('array',))), ('a.b[0]@c\\d', (0x1e,)), ('b', ('annotation', 'LT;', []))])
    deep = (0x1e,)
    for i in range(63):
        deep = ('annotation', 'LA;', [('n', deep)]) if i % 3 == 1 else ('array', deep)
    yield 'nested', of_values(o, [('array',), ('array', (0x04, b'\xff'), inner, (0x3f,)), inner, ('array', *[(0x1e,)] * 12), deep], texts=['a', 'b', 'n', 'a.b[0]@c\\d'])
    odd = ['', '\0', '\1', '\t', '\n', '\r', '\x1f', ' ', '\x7f', '\x80', '\\', '\\x09', '.', '[', ']', '@', 'a\tb\nc', 'A1', 'A10', 'кабель', '線', '\U0001f686', '\ud83d', '\udfff\ud800', '\uffff', 'x' * 300, '\1' * 300]
    fields = sorted([('L\n;', 'L\\;', n) for n in odd], key=lambda m: units(m[2]))
    elements = [(n, ('string', n)) for n in odd]
    yield 'texts', Made(o, odd, {'L\n;', 'L\\;', 'L\ud83d;'}, fields, [{'type': 'L\n;', 'statics': [(i, 0) for i in range(len(fields))], 'values': [('string', n) for _, _, n in fields], 'own': [(1, 'L\ud83d;', elements)], 'entries': [(3, [(0, 'L\\;', elements)])]}]).f
    notes = lambda *names: [(v % 3, 'LA;', [(n, (0x04, le(v, 1)))]) for v, n in enumerate(names)]
    cable = [('LC;', 'I', f'c{i}') for i in range(6)]
    names = {n for _, _, n in cable}
    classes = [
        {'type': 'LC;', 'own': notes('c0', 'c1', 'c2', 'c3'), 'statics': [(0, 25), (1, 0), (3, 0xffffffff), (5, 1)], 'values': [(0x04, b'\7')], 'entries': [(0, notes('c0', 'c1')), (1, []), (3, notes('c5')), (5, notes('c4', 'c3', 'c2'))]},
        {'type': 'LD;', 'statics': [(i, i) for i in range(6)], 'entries': [(5, notes('c5')), (2, notes('c2', 'c3')), (0, notes('c0')), (5, notes('c1')), (2, []), (2, notes('c4')), (0, notes('c3'))]},
        {'type': 'LE;', 'own': notes('c1')},
        {'type': 'LF;'},
        {'type': 'LG;', 'own': [], 'statics': [(2, 2)], 'values': [], 'entries': [(2, notes('c2')), (4, notes('c4'))]},
        {'type': 'LH;', 'statics': [(1, 2), (2, 3), (4, 5)], 'values': [(0x04, b'\1'), ('array', (0x04, b'\2'))], 'entries': [(2, notes('c2')), (2, notes('c3')), (4, notes('c4'))]},
    ]
    yield 'annotations', Made(o, names, {'I', 'LA;', *(c['type'] for c in classes)}, cable, classes).f
    yield 'defaults', of_values(o, [(0x04, b'\1')], 'I', ['Z', 'B', 'S', 'C', 'I', 'J', 'F', 'D', 'LT;', 'V', '[I', 'ZZ', '', 'z', 'Ljava/lang/String;', 'J'])
    yield 'no_classes', Made(o, ['a'], {'I'}, [], []).f
    yield 'nothing_static', Made(o, ['a'], {'LC;', 'LD;'}, [], [{'type': 'LC;'}, {'type': 'LD;', 'statics': []}]).f


def files():
    for o in ('little', 'big'):
        for name, f in made(o):
            assert not isinstance(verdict(f), Refused), (name, o, verdict(f).number, verdict(f).place)
            yield f'{name}_{o}.dex', f
    # names longer than any buffer, and a text whose writing is four times as long
    long = Made('little', ['\1' * 20000], {'I', 'LC;'}, [('LC;', 'I', 'x' * 9000)], [{'type': 'LC;', 'statics': [(0, 1)], 'values': [('array', ('string', '\1' * 20000), (0x1e,))], 'entries': [(0, [(1, 'LC;', [('x' * 9000, (0x1e,))])])]}]).f
    many = of_values('big', [('array', *[(0x04, le(i * 977, 3)) for i in range(3000)])])
    assert not isinstance(verdict(long), Refused) and not isinstance(verdict(many), Refused)
    yield 'long_names.dex', long
    yield 'many_values.dex', many
    good = dict(made('little'))['numbers']
    yield '05_longer.dex', good + b'\0'
    yield '15_strings.dex', open('crates/replay/data/15_strings_little.dex', 'rb').read()
    yield '20_over_65536.dex', good + bytes(65537 - len(good))
    for name in ('good_little', 'good_big', 'depth_64_little', 'smali-schedule_small_035', 'smali-schedule_small_039', 'smali-allvalues_039', 'smali-annos_038', 'smali-annos_mh_039', 'smali-oddvalues_035', 'smali-odd_en_039', 'smali-alphabets_037', 'smali-emoji_039', 'dx-rail_039'):
        yield f'{name}.dex', open(f'crates/replay/data/{name}.dex', 'rb').read()


def store():
    folder = 'crates/dexregister'
    shutil.rmtree(f'{folder}/data', ignore_errors=True)
    os.makedirs(f'{folder}/data')
    lists = list(files())
    for name, f in lists:
        open(f'{folder}/data/{name}', 'wb').write(f)
    open(f'{folder}/args', 'w').write(''.join(name + '\n' for name, _ in lists))
    open(f'{folder}/stdout', 'wb').write(b''.join(b'file=%s\n%s' % (name.encode(), written(f)) for name, f in lists))
    print(len(lists), 'files,', sum(len(f) for _, f in lists), 'bytes,', sum(written(f).count(b'\n') for _, f in lists), 'lines')


if __name__ == '__main__':
    if sys.argv[1:] == ['--store']:
        store()
    elif sys.argv[1:] == ['-']:
        sys.stdout.buffer.write(written(sys.stdin.buffer.read()))
    else:
        for name in sys.argv[1:]:
            sys.stdout.buffer.write(b'file=%s\n%s' % (os.fsencode(name), written(open(name, 'rb').read())))
