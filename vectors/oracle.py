"""What the Rust (dexparser 0.6.2) answered, replayed without it.

compare/sample wrote vectors/oracle/*.dex and, by running the Rust on each, *.json, its answer as the driver prints it. Here each part of that answer
becomes a question to our readers and the line that our program must write. The Rust hands out names where we hand out numbers: in the samples every name
is there once, so that its number is found in the Rust's own tables. What docs/DIFFERENCES.md says is turned back: a name of -1 is none (line 6), and
`code_units` of a try are left out, since they are no units of the try (line 8). The samples meet no other line."""
import glob
import json

from questions import NOTHING, File

FLAGS = ['PUBLIC', 'PRIVATE', 'PROTECTED', 'STATIC', 'FINAL', 'SYNCHRONIZED', 'VOLATILE BRIDGE', 'TRANSIENT VARARGS', 'NATIVE', 'INTERFACE', 'ABSTRACT', 'STRICT',
         'SYNTHETIC', 'ANNOTATION', 'ENUM', 'UNUSED', 'CONSTRUCTOR', 'DECLARED_SYNCHRONIZED']
BITS = {name: bit for bit, names in enumerate(FLAGS) for name in names.split()}
OPCODES = ['END_SEQUENCE', 'ADVANCE_PC', 'ADVANCE_LINE', 'START_LOCAL', 'START_LOCAL_EXTENDED', 'END_LOCAL', 'RESTART_LOCAL', 'SET_PROLOGUE_END', 'SET_EPILOGUE_BEGIN', 'SET_FILE']
CODES = {'byte_u8': 0x00, 'short': 0x02, 'char': 0x03, 'int': 0x04, 'long': 0x06, 'float_bits': 0x10, 'double_bits': 0x11, 'method_type': 0x15, 'string': 0x17,
         'type': 0x18, 'field': 0x19, 'method': 0x1a, 'enum': 0x1b, 'array': 0x1c, 'annotation': 0x1d, 'boolean': 0x1f}
WHOSE = ('class', 'field', 'method', 'parameter')


class Sample:
    """The questions to one file, and the lines that answer them."""

    def __init__(self, label, data, answer):
        self.q, self.r = File(label, data), answer['ok']
        self.number = {kind: {json.dumps(x): i for i, x in enumerate(self.r[kind])} for kind in ('strings', 'types', 'protos', 'fields', 'methods')}
        assert all(len(n) == len(self.r[k]) for k, n in self.number.items())

    def of(self, kind, x):
        return NOTHING if x is None else self.number[kind][json.dumps(x)]

    def none(self, reader, *args):
        self.q.row(reader, *args, words={0: 1})

    def tables(self):
        r, h = self.r, self.r['header']
        self.q.row('header', words={1: h['version'], 2: ['Little', 'Big'].index(h['endianness']), 3: int(h['checksum']), 5: len(r['strings']), 7: len(r['types']),
                           9: len(r['protos']), 11: len(r['fields']), 13: len(r['methods']), 15: len(r['classes'])})
        self.q.part('signature', data=bytes.fromhex(h['signature']))
        for n, t in enumerate(r['strings']):
            self.q.part('string_bytes', n, data=mutf8(t))
        for n, t in enumerate(r['types']):
            self.q.row('type_name', n, words={1: self.of('strings', t)})
        for n, p in enumerate(r['protos']):
            self.q.row('proto', n, words={1: self.of('strings', p['shorty']), 2: self.of('types', p['return'])})
            self.listed('parameter_count', 'parameter', n, p['params'])
        for n, f in enumerate(r['fields']):
            self.q.row('field', n, words={1: self.of('types', f['definer']), 2: self.of('types', f['type']), 3: self.of('strings', f['name'])})
        for n, m in enumerate(r['methods']):
            self.q.row('method', n, words={1: self.of('types', m['definer']), 2: self.of('protos', m['proto']), 3: self.of('strings', m['name'])})
        for n, c in enumerate(r['classes']):
            self.a_class(n, c)

    def listed(self, count, item, n, types):
        self.q.row(count, n, words={1: len(types)})
        for k, t in enumerate(types):
            self.q.row(item, n, k, words={1: self.of('types', t)})

    def flags(self, reader, *args, names):
        bits = [BITS[n.removeprefix('ACC_')] for n in names]
        self.q.output(reader, *args, room=18, values=lambda: bits)

    def a_class(self, n, c):
        self.q.row('class', n, words={1: self.of('types', c['class']), 3: self.of('types', c['superclass']), 5: self.of('strings', c['source_file'])})
        self.flags('class_flags', n, names=c['flags'])
        self.listed('interface_count', 'interface', n, c['interfaces'])
        self.directory(n, c['annotations'])
        self.data(n, c['class_data'])
        self.q.row('static_value_count', n, words={1: len(c['static_values'])})
        for k, v in enumerate(c['static_values']):
            self.value('static_value', (n, k), (), v)

    def value(self, reader, args, path, v, name=None):
        """A value, and all that is in it, by its path. An element's name is word 4."""
        words = {} if name is None else {4: self.of('strings', name)}
        if v == 'null_value':
            return self.q.row(reader, *args, path=path, words={1: 0x1e, 2: 0, **words})
        (kind, x), = v.items()
        words[1] = CODES[kind]
        if kind == 'array':
            self.q.row(reader, *args, path=path, words=words)
            self.q.row(reader, *args, path=(*path, 255), words={1: len(x)})
            for k, inner in enumerate(x):
                self.value(reader, args, (*path, k), inner)
        elif kind == 'annotation':
            self.q.row(reader, *args, path=path, words=words)
            self.q.row(reader, *args, path=(*path, 255), words={1: self.of('types', x['type']), 2: len(x['elements'])})
            for k, e in enumerate(x['elements']):
                self.value(reader, args, (*path, k), e['value'], e['name'])
        else:
            tables = {'method_type': 'protos', 'string': 'strings', 'type': 'types', 'field': 'fields', 'method': 'methods', 'enum': 'fields'}
            number = self.of(tables[kind], x) if kind in tables else int(x, 16) if kind.endswith('bits') else int(x) % 2 ** 64
            self.q.row(reader, *args, path=path, words={2: number, **words})

    def notes(self, which, args, items):
        """A set: how many, and each item with its elements."""
        self.q.row(f'{WHOSE[which]}_annotation_count', *args, words={1: len(items)})
        for k, a in enumerate(items):
            place = (*args, *[0] * (3 - len(args)), k)
            self.q.row(f'{WHOSE[which]}_item', *place, words={1: ['BUILD', 'RUNTIME', 'SYSTEM'].index(a['visibility']), 2: self.of('types', a['type']), 3: len(a['elements'])})
            for e, element in enumerate(a['elements']):
                self.value(f'{WHOSE[which]}_element', (*place, e), (), element['value'], element['name'])

    def directory(self, n, d):
        if d is None:
            return self.none('directory', n)
        self.q.row('directory', n, words={0: 0, 2: len(d['fields']), 3: len(d['methods'])})
        self.notes(0, (n,), d['class'])
        for e, f in enumerate(d['fields']):
            self.q.row('field_entry', n, e, words={1: self.of('fields', f['field'])})
            self.notes(1, (n, e), f['items'])
        for e, m in enumerate(d['methods']):
            self.q.row('method_entry', n, e, words={1: self.of('methods', m['method'])})
            self.notes(2, (n, e), m['items'])
        # the Rust has one list for all parameters of all entries: the parameters of an entry are those in a row with one method
        e, p, last = -1, 0, None
        for m in d['parameters']:
            e, p = (e, p + 1) if m['method'] == last else (e + 1, 0)
            last = m['method']
            self.q.row('parameter_entry', n, e, words={1: self.of('methods', last)})
            self.notes(3, (n, e, p), m['items'])

    def data(self, n, d):
        if d is None:
            return self.none('class_data', n)
        lists = [d['static_fields'], d['instance_fields'], d['direct_methods'], d['virtual_methods']]
        self.q.row('class_data', n, words={0: 0, **{i + 1: len(l) for i, l in enumerate(lists)}})
        for i, members in enumerate(lists):
            for k, m in enumerate(members):
                self.q.row('member', n, i, k, words={1: self.of('fields', m['field']) if i < 2 else self.of('methods', m['method'])})
                self.flags('member_flags', n, i, k, names=m['flags'])
                if i > 1:
                    self.code((n, i, k), m['code'])

    def code(self, m, c):
        if c is None:
            return self.none('code', *m)
        self.q.row('code', *m, words={0: 0, 1: c['registers'], 2: c['ins'], 3: c['outs'], 4: len(c['tries']), 6: len(c['insns']), 7: len(c['handlers'])})
        self.q.output('units', *m, room=8, values=lambda: c['insns'])
        for t, a in enumerate(c['tries']):
            self.q.row('try_item', *m, t, words={4: c['handlers'].index(a['handler'])})
        self.q.row('handler_count', *m, words={1: len(c['handlers'])})
        for h, handler in enumerate(c['handlers']):
            self.q.row('handler', *m, h, words={2: len(handler['pairs']), 3: NOTHING if handler['catch_all'] is None else handler['catch_all']})
            for p, (kind, address) in enumerate(handler['pairs']):
                self.q.row('handler_pair', *m, h, p, words={1: self.of('types', kind), 2: address})
        d = c['debug']
        if d is None:
            return self.none('debug', *m)
        self.q.row('debug', *m, words={0: 0, 1: d['line_start'], 2: len(d['parameter_names']), 4: len(d['bytecode'])})
        for p, name in enumerate(d['parameter_names']):
            self.q.row('debug_parameter', *m, p, words={1: NOTHING if name < 0 else name})
        self.q.part('line_program', *m, data=[int(o[15:-1]) if o.startswith('SPECIAL') else OPCODES.index(o.removeprefix('DBG_')) for o in d['bytecode']])


def mutf8(text):
    out = bytearray()
    for n in map(ord, text):
        assert not 0xd800 <= n < 0xe000 and n < 0x10000
        out += bytes([n]) if 0 < n < 0x80 else bytes([0xc0 | n >> 6, 0x80 | n & 0x3f]) if n < 0x800 else bytes([0xe0 | n >> 12, 0x80 | n >> 6 & 0x3f, 0x80 | n & 0x3f])
    return bytes(out)


def files():
    for name in sorted(glob.glob('vectors/oracle/*.dex')):
        sample = Sample(name[len('vectors/'):], open(name, 'rb').read(), json.load(open(name[:-4] + '.json', encoding='utf-8')))
        sample.tables()
        yield sample.q
