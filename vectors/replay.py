#!/usr/bin/env python3
"""Writes what crates/replay checks and must write: small files of both byte orders, each with one rule of one item broken, and files of the corpus.

    vectors/replay.py [CORPUS]            (from the repository's root; CORPUS is the folder that has made/, default ../shared/corpus)

For the small files the number and the place are said here, by hand, beside the break; vectors/whole.py, the check told once more, has to agree. For the files
of the corpus whole.py says it, and the status of ART's verifier stands in the corpus's MANIFEST.tsv."""
import csv, os, shutil, sys
from dexfile import Refused, file, map_list, word
from strings import item as text_item, units
from whole import report, verdict

NONE = 0xffffffff
TEXTS = ['', '<init>', 'LA;', 'LB;', 'V', 'a', 'cable', 'n', 'Ω', 'кабель', '線', '\U0001f686']
CORPUS = [*(f'smali-schedule_small_{v}' for v in ('035', '037', '038', '039')), *(f'smali-allvalues_{v}' for v in ('035', '037', '039')), *(f'smali-annos_{v}' for v in ('035', '038')),
          'smali-annos_mh_039', 'smali-debug_035', 'smali-debug_039', 'smali-alphabets_037', 'smali-emoji_039', 'smali-callsites_038', 'smali-mhconst_039', 'smali-oddvalues_035', 'smali-odd_en_039',
          'smali-odd_mt_039', 'smali-hidden_039', 'smali-poly_038', 'smali-tiny_empty_035', 'smali-tiny_class_037', 'smali-tiny_iface_038', 'smali-alphabets_sp_039', 'dx-rail_035', 'dx-rail_039', 'dx-railjumbo_035',
          'patched-annos_040', 'patched-hidden_040', 'patched-alphabets_sp_040']


def leb3(n):
    """Three bytes, whatever the number: longer than necessary is allowed."""
    return bytes([n % 128 + 128, n // 128 % 128 + 128, n // 16384])


class Built:
    """A file with one item of every kind. `items` replaces an item's bytes, `tables` a table's records; `last` stands at the data section's end, of which `cut` bytes are missing."""

    def __init__(self, o, version=b'039', items=None, tables=None, last=None, cut=0, entries=None, map_add=0, extra=b'', **header):
        self.o, self.items, self.tables = o, items or {}, tables or {}
        self.place, self.version = {}, version
        for _ in range(2):
            head = self.head()
            data, self.handles = 112 + len(head), 112 + len(head) - 16
            body = b''
            names = [n for n in self.order() if n != last] + ([last] if last else [])
            for name in names:
                body += bytes(-(data + len(body)) % 4)
                self.place[name] = data + len(body)
                body += self.map(entries) if name == 'map' else self.item(name)
        self.f = file(o, version, head + body + extra, **{'map_at': self.place['map'] + map_add, 'tables': self.counts, 'data': (data, len(body) - cut), **header})

    def order(self):
        return [f't{i}' for i in range(len(TEXTS))] + ['parameters', 'interfaces', 'annotation', 'set', 'list', 'directory', 'data', 'code', 'plain', 'debug', 'static', 'map']

    def w(self, *values):
        return b''.join(word(v, self.o) for v in values)

    def at(self, name):
        return self.place.get(name, 0)

    def head(self):
        h = lambda a, b, c: word(a, self.o, 2) + word(b, self.o, 2) + word(c, self.o)
        at = self.at
        records = {
            'strings': [self.w(at(f't{i}')) for i in range(len(TEXTS))],
            'types': [self.w(i) for i in (2, 3, 4)],
            'protos': [self.w(4, 2, at('parameters')), self.w(4, 2, 0)],
            'fields': [h(0, 1, 6), h(0, 1, 7)],
            'methods': [h(0, 0, 1), h(0, 1, 5)],
            'classes': [self.w(0, 1, 1, at('interfaces'), 5, at('directory'), at('data'), at('static')), self.w(1, 1, NONE, 0, NONE, 0, 0, 0)],
            'handles': [b''.join(word(v, self.o, 2) for v in (k, 0, n, 0)) for k, n in ((0, 0), (4, 1))],
        }
        out, self.counts = b'', {}
        for name, rows in records.items():
            for n, change in self.tables.get(name, {}).items():
                rows[n] = change(self) if callable(change) else change
            if name != 'handles':
                self.counts[name] = (len(rows), 112 + len(out))
            self.place.update({f'{name}{n}': 112 + len(out) + n * len(rows[0]) for n in range(len(rows))})
            out += b''.join(rows)
        return out

    def map(self, entries):
        if entries is None:
            entries = [(8, 2, self.handles), (0x2002, 12, 5000), (0x1000, 1, 5001)]
        return map_list(self.o, [e if not callable(e) else e(self) for e in entries])

    def item(self, name):
        change = self.items.get(name)
        if change is not None:
            return change(self) if callable(change) else change
        return self.good(name)

    def good(self, name):
        at, w = self.at, self.w
        if name[0] == 't' and name[1:].isdigit():
            return text_item(units(TEXTS[int(name[1:])]))
        half = lambda *vs: b''.join(word(v, self.o, 2) for v in vs)
        return {
            'parameters': lambda: w(2) + half(0, 1),
            'interfaces': lambda: w(1) + half(1),
            'annotation': lambda: bytes([1, 0, 2, 5, 0x04, 9, 6, 0x1c, 2, 0x17, 4, 0x1d, 1, 0]),
            'set': lambda: w(1, at('annotation')),
            'list': lambda: w(2, 0, at('set')),
            'directory': lambda: w(at('set'), 1, 1, 1, 1, at('set'), 0, at('set'), 1, at('list')),
            'data': lambda: bytes([1, 1, 1, 1, 0, 9, 1, 2, 0, 1]) + leb3(at('code')) + bytes([1, 1]) + leb3(at('plain')),
            'code': lambda: self.code(),
            'plain': lambda: half(1, 1, 0, 0) + w(0, 1) + half(0x000e),
            'debug': lambda: bytes([7, 2, 0, 6, 0x0e, 0x01, 0]),
            'static': lambda: bytes([1, 0x1c, 2, 0x1e, 0x19, 1]),
        }[name]()

    def code(self, units=(1, 2, 3), tries=((0, 1, 1), (1, 2, 5)), handlers=bytes([2, 0x7f, 0, 1, 2, 1, 2, 0]), debug=None, count=None):
        half = lambda *vs: b''.join(word(v, self.o, 2) for v in vs)
        out = half(3, 1, 2, len(tries)) + self.w(self.at('debug') if debug is None else debug, len(units) if count is None else count) + half(*units)
        out += bytes(2 if tries and len(units) % 2 else 0)
        return out + b''.join(self.w(a) + half(b, c) for a, b, c in tries) + handlers


BAD = b'\x80\x80\x80\x80\x10'


def cases(o):
    """Name, file, and the number and the name of the record or item whose place it is, or neither."""
    b = lambda **k: Built(o, **k)
    w = lambda *vs: b''.join(word(v, o) for v in vs)
    half = lambda *vs: b''.join(word(v, o, 2) for v in vs)
    item = lambda name, change, **k: b(items={name: change}, **k)
    record = lambda table, n, change: b(tables={table: {n: change}})
    good = b()
    yield 'good', good, None, None
    for version in (b'035', b'037', b'038'):
        entries = [(0x2002, 12, 5000)] if version < b'038' else None
        yield f'good {version.decode()}', b(version=version, entries=entries), None, None
    yield '01 cut', good.f[:111], 1, 0
    yield '03 version', b(version=b'040'), 3, 0
    yield '03 magic', b(magic=b'dex\r'), 3, 0
    yield '03 eighth', b(eighth=1), 3, 0
    yield '04 tag', b(tag=b'\x12\x34\x56\x79'), 4, 0
    yield '05 header', b(header_size=116), 5, 0
    yield '05 longer', good.f + b'\0', 5, 0
    yield '05 shorter', good.f[:-1], 5, 0
    for name, (count, offset) in good.counts.items():
        field = 60 + 8 * list(good.counts).index(name)
        yield f'06 {name}', patched(good, field, w(offset + 2)), 6, 0
        yield f'06 {name} at 0', patched(good, field, w(0)), 6, 0
    yield '06 data', b(data=(111, 8)), 6, 0
    yield '06 data past', patched(good, 104, w(len(good.f))), 6, 0
    # ---- 8: the record or item that holds the offset
    yield '08 map uneven', b(map_add=2), 8, 0
    yield '08 map at 0', b(map_at=0), 8, 0
    yield '08 no data', patched(good, 104, w(0)), 8, 0
    yield '08 string 1', record('strings', 1, w(0)), 8, 'strings1'
    yield '08 string outside', record('strings', 3, w(112)), 8, 'strings3'
    yield '08 proto', record('protos', 0, lambda s: w(4, 2, s.at('parameters') + 2)), 8, 'protos0'
    for k, name in ((3, 'interfaces'), (5, 'directory')):
        yield f'08 class {name}', record('classes', 0, lambda s: w(*[0, 1, 1, 0, 5, 0, 0, 0][:k], s.at(name) + 1, *[0] * (7 - k))), 8, 'classes0'
    for k, name in ((6, 'data'), (7, 'static')):
        yield f'08 class {name}', record('classes', 1, w(*[0, 1, 1, 0, 5, 0, 0, 0][:k], 4, *[0] * (7 - k))), 8, 'classes1'
    yield '08 code', item('data', lambda s: bytes([0, 0, 1, 0, 0, 1]) + leb3(s.at('code') + 2)), 8, 'data'
    yield '08 debug', item('code', lambda s: s.code(debug=100)), 8, 'code'
    yield '08 directory class', item('directory', lambda s: w(s.at('set') + 2, 0, 0, 0)), 8, 'directory'
    yield '08 directory field', item('directory', lambda s: w(0, 1, 0, 0, 1, 0)), 8, 'directory'
    yield '08 set', item('set', w(1, 0)), 8, 'set'
    yield '08 list', item('list', lambda s: w(1, s.at('set') + 1)), 8, 'list'
    # ---- 9: each kind of item as the data section's last, cut
    for name in ('t0', 't11', 'parameters', 'interfaces', 'annotation', 'set', 'list', 'directory', 'data', 'code', 'plain', 'debug', 'static', 'map'):
        yield f'09 {name}', b(last=name, cut=1), 9, name
    yield '09 type list', item('parameters', w(NONE)), 9, 'parameters'
    yield '09 units', item('code', lambda s: s.code(count=NONE)), 9, 'code'
    yield '09 map entry', b(entries=[(0, 1, 0)], cut=4), 9, 'map'
    # ---- 10
    yield '10 text', item('t2', BAD), 10, 't2'
    yield '10 annotation', item('annotation', b'\1' + BAD), 10, 'annotation'
    yield '10 data', item('data', b'\0' + BAD), 10, 'data'
    yield '10 handler', item('code', lambda s: s.code(handlers=b'\1' + b'\x80\x80\x80\x80\x08')), 10, 'code'
    yield '10 debug', item('debug', BAD), 10, 'debug'
    yield '10 static', item('static', BAD), 10, 'static'
    # ---- 11
    yield '11 type', record('types', 2, w(12)), 11, 'types2'
    yield '11 shorty', record('protos', 1, w(12, 2, 0)), 11, 'protos1'
    yield '11 return', record('protos', 1, w(4, 3, 0)), 11, 'protos1'
    yield '11 parameter', item('parameters', w(2) + half(0, 3)), 11, 'parameters'
    for i, name in enumerate(('class', 'type', 'name')):
        yield f'11 field {name}', record('fields', 1, half(*[9 if i == k else 1 for k in range(2)]) + w(12 if i == 2 else 1)), 11, 'fields1'
    yield '11 method proto', record('methods', 0, half(0, 2) + w(1)), 11, 'methods0'
    yield '11 handle field', record('handles', 0, half(3, 0, 2, 0)), 11, 'handles0'
    yield '11 handle method', record('handles', 1, half(4, 0, 2, 0)), 11, 'handles1'
    yield '11 class', record('classes', 1, w(NONE, 1, NONE, 0, NONE, 0, 0, 0)), 11, 'classes1'
    yield '11 superclass', record('classes', 1, w(1, 1, 3, 0, NONE, 0, 0, 0)), 11, 'classes1'
    yield '11 source', record('classes', 1, w(1, 1, NONE, 0, 12, 0, 0, 0)), 11, 'classes1'
    yield '11 interface', item('interfaces', w(1) + half(3)), 11, 'interfaces'
    yield '11 directory method', item('directory', lambda s: w(0, 0, 1, 0, 2, s.at('set'))), 11, 'directory'
    yield '11 annotation name', item('annotation', bytes([1, 0, 1, 12, 0x1e])), 11, 'annotation'
    yield '11 member', item('data', bytes([2, 0, 0, 0, 1, 1, 1, 1])), 11, 'data'
    yield '11 handler type', item('code', lambda s: s.code(handlers=bytes([1, 1, 3, 0]))), 11, 'code'
    yield '11 debug name', item('debug', bytes([1, 1, 13, 0])), 11, 'debug'
    for kind, most in ((0x15, 2), (0x16, 2), (0x17, 12), (0x18, 3), (0x19, 2), (0x1a, 2), (0x1b, 2)):
        yield f'11 value {kind:02x}', item('static', bytes([1, kind, most])), 11, 'static'
    # ---- 12 to 18
    yield '12 static', item('static', bytes([2, 0x1e, 0x01, 0])), 12, 'static'
    yield '12 annotation', item('annotation', bytes([1, 0, 1, 5, 0x5f])), 12, 'annotation'
    nested = lambda depth: bytes([1, 0x1c] * (depth - 1) + [0])
    yield 'depth 64', item('static', nested(64)), None, None
    yield '13 depth 65', item('static', nested(65)), 13, 'static'
    yield '13 annotation', item('annotation', bytes([1, 0, 1, 5, 0x1c]) + nested(64)), 13, 'annotation'
    yield '14 text', item('t5', b'\1\xc1\x81\0'), 14, 't5'
    yield '14 four bytes', item('t11', b'\2\xf0\x9f\x9a\x86\0'), 14, 't11'
    yield '14 length', item('t6', b'\4cable\0'), 14, 't6'
    yield '14 second string', item('t1', b'\1\x80\0'), 14, 't1'
    yield '15 strings', item('t3', b'\3LA;\0'), 15, 'strings3'
    yield '15 zero after one', b(items={'t1': b'\1\1\0', 't2': b'\1\xc0\x80\0'}), 15, 'strings2'
    yield '15 types', record('types', 1, w(2)), 15, 'types1'
    yield '15 fields', item('data', bytes([2, 0, 0, 0, 1, 1, 0, 1])), 15, 'data'
    yield '15 methods', item('data', bytes([0, 0, 0, 2, 1, 1, 0, 0, 1, 0])), 15, 'data'
    yield '16 code', b(entries=[(9, 1, 0)]), 16, 'map'
    yield '16 twice', b(entries=[(0, 1, 0), (0, 1, 1)]), 16, 'map'
    yield '16 falling', b(entries=[(0, 1, 1), (1, 1, 1)]), 16, 'map'
    yield '16 old', b(version=b'037', entries=[(7, 1, 0)]), 16, 'map'
    yield '16 handles', b(entries=[(8, 2, 114)]), 16, 'map'
    yield '17 overlap', item('code', lambda s: s.code(tries=((0, 2, 1), (1, 2, 1)))), 17, 'code'
    yield '17 past', item('code', lambda s: s.code(tries=((2, 2, 1),))), 17, 'code'
    yield '17 address', item('code', lambda s: s.code(handlers=bytes([1, 1, 0, 3]))), 17, 'code'
    yield '17 catch', item('code', lambda s: s.code(handlers=bytes([1, 0, 3]))), 17, 'code'
    yield '17 no start', item('code', lambda s: s.code(tries=((0, 1, 2),))), 17, 'code'
    yield '17 no handlers', item('code', lambda s: s.code(handlers=b'\0')), 17, 'code'
    yield '18 visibility', item('annotation', bytes([3, 0, 0])), 18, 'annotation'
    yield '18 handle', record('handles', 1, half(9, 0, 0, 0)), 18, 'handles1'
    # ---- 21: no more values than static fields, after the values' own rules and before the next class
    two = lambda s: bytes([2, 0, 0, 0, 0, 9, 1, 9])
    bare = lambda s: w(1, 1, NONE, 0, NONE, 0, 0, s.at('static'))
    yield '21 values', item('static', bytes([2, 0x1e, 0x1e])), 21, 'classes0'
    yield 'two values of two fields', b(items={'data': two, 'static': bytes([2, 0x1e, 0x1e])}), None, None
    yield 'one value of two fields', b(items={'data': two, 'static': bytes([1, 0x1e])}), None, None
    yield '21 third value', b(items={'data': two, 'static': bytes([3, 0x1e, 0x1e, 0x1e])}), 21, 'classes0'
    yield '21 no class data', record('classes', 1, bare), 21, 'classes1'
    yield 'no value without class data', b(items={'static': b'\0'}, tables={'classes': {1: bare}}), None, None
    yield '12 before 21', item('static', bytes([3, 0x1e, 0x1e, 0x01, 0])), 12, 'static'
    yield '21 before the next class', b(items={'static': bytes([2, 0x1e, 0x1e])}, tables={'classes': {1: w(NONE, 1, NONE, 0, NONE, 0, 0, 0)}}), 21, 'classes0'
    yield '17 before 21', b(items={'static': bytes([2, 0x1e, 0x1e]), 'code': lambda s: s.code(handlers=b'\0')}), 17, 'code'


def patched(built, place, data):
    return built.f[:place] + data + built.f[place + len(data):]


def small():
    for o in ('little', 'big'):
        for name, made, number, where in cases(o):
            f = made if isinstance(made, bytes) else made.f
            place = made.place[where] if isinstance(where, str) else where
            said = verdict(f)
            got = (said.number, said.place) if isinstance(said, Refused) else (None, None)
            assert got == (number, place), (name, o, got, number, place)
            yield f'{name} {o}.dex'.replace(' ', '_'), f
    yield '20_over_65536.dex', Built('little', extra=bytes(65537 - len(Built('little').f))).f
    most = Built('little', extra=bytes(65536 - len(Built('little').f))).f
    assert verdict(most)['version'] == 39
    yield 'good_65536.dex', most


def main():
    corpus = sys.argv[1] if len(sys.argv) > 1 else '../shared/corpus'
    folder = 'crates/replay/data'
    shutil.rmtree(folder, ignore_errors=True)
    os.makedirs(folder)
    files = list(small()) + [(f'{n}.dex', open(f'{corpus}/made/{n}.dex', 'rb').read()) for n in CORPUS]
    status = {r['file']: r['dexdump_c_status'] for r in csv.DictReader(open(f'{corpus}/MANIFEST.tsv'), delimiter='\t')}
    for name, f in files:
        open(f'{folder}/{name}', 'wb').write(f)
    open('crates/replay/args', 'w').write(''.join(name + '\n' for name, _ in files))
    open('crates/replay/stdout', 'w').write(''.join(f'file={name}\n{report(f)}' for name, f in files))
    for n in CORPUS:
        said = report(open(f'{corpus}/made/{n}.dex', 'rb').read()).split()
        print(n, ' '.join(said[:3]), "ART's verifier:", status[f'made/{n}.dex'])
    print(len(files), 'files,', sum(len(f) for _, f in files), 'bytes')


main()
