"""Whole files of both byte orders, and what document 01 says of each annotation and each value in them, asked for by class and by place."""
from annotations import NESTED, PLAIN, Items
from dexfile import file, header, kth, map_list, map_of, rule, word
from questions import File, numbers
from tables import NONE, class_of

COUNTS = {'strings': 5, 'types': 6, 'protos': 4, 'fields': 2, 'methods': 3}
TABLES = 112                     # the tables lie over each other, on zeros: only the classes' are read here
CLASSES = TABLES + 48


# ---- what document 01 says
class Dex:
    def __init__(self, f):
        self.f = f

    def plain(self):
        """Header; what items without values are read against."""
        h = header(self.f)
        return h, Items(self.f[:h['end']], h['order'], h['start'], {name: h[name][0] for name in COUNTS})

    def mapped(self):
        """Header and map; what items with values are read against."""
        h, s = self.plain()
        s.counts['handles'] = map_of(self.f, h)[1][0]
        return h, s

    def record(self, h, c):
        rule(c < h['classes'][0], 7, 0)
        return class_of(self.f, h, c)

    def directory(self, c):
        h, s = self.plain()
        place = self.record(h, c)[5]
        return s, s.directory(place) if place else None

    def entries(self, c, which):
        s, d = self.directory(c)
        return s, d[1][which] if d else []

    def entry(self, c, which, e):
        s, entries = self.entries(c, which)
        return s, kth(entries, e)

    def set(self, c, which, e, p):
        """The offsets of the set of a field entry (0), a method entry (1), a parameter (2) or the class (3): none where it is absent."""
        if which == 3:
            s, d = self.directory(c)
            place = d[0] if d else 0
        else:
            s, (_, place) = self.entry(c, which, e)
        if which == 2:
            place = kth(s.references(place), p)
        return s.set(place) if place else []

    def static_values(self, c):
        h, s = self.mapped()
        place = self.record(h, c)[7]
        return s.array(place, place, 1)[0] if place else []

    def at(self, place):
        h, s = self.mapped()
        rule(h['start'] <= place < h['end'], 7, 0)
        return s

    def annotation(self, place):
        return self.at(place).item(place)

    def array(self, place):
        return self.at(place).array(place, place, 1)

    def body(self, place):
        return self.at(place).body(place, place, 1)


def at_place(q, d, p):
    """The item, the array and the body at a place, every number and one too many asked for."""
    q.row('annotation', p, words=lambda: (lambda v, t, e: (v, t, len(e)))(*d.annotation(p)))
    for k in numbers(lambda: len(d.annotation(p)[2])):
        q.row('annotation_element', p, k, words=lambda: kth(d.annotation(p)[2], k))
    q.row('array', p, words=lambda: (lambda values, end: (len(values), end - p))(*d.array(p)))
    for k in numbers(lambda: len(d.array(p)[0])):
        q.row('array_value', p, k, words=lambda: kth(d.array(p)[0], k))
    q.row('annotation_body', p, words=lambda: (lambda kind, e, end: (kind, len(e), end - p))(*d.body(p)))
    for k in numbers(lambda: len(d.body(p)[1])):
        q.row('annotation_body_element', p, k, words=lambda: kth(d.body(p)[1], k))


def of_set(q, d, c, which, e=0, p=0):
    of = ('field', 'method', 'parameter', 'class')[which]
    of_what = (c, e, p)[:(2, 2, 3, 1)[which]]
    q.row(f'{of}_annotation_count', *of_what, words=lambda: [len(d.set(c, which, e, p))])
    for k in numbers(lambda: len(d.set(c, which, e, p))):
        q.row(f'{of}_annotation_place', c, e, p, k, words=lambda: [kth(d.set(c, which, e, p), k)])


def of_entry(q, d, c, which, e):
    q.row(('field_entry', 'method_entry', 'parameter_entry')[which], c, e, words=lambda: d.entry(c, which, e)[1])
    if which < 2:
        return of_set(q, d, c, which, e)

    def references():
        s, (_, place) = d.entry(c, 2, e)
        return s.references(place)
    q.row('parameter_set_count', c, e, words=lambda: [len(references())])
    for p in numbers(lambda: len(references())):
        of_set(q, d, c, 2, e, p)


def of_class(q, d, c):
    def head():
        found = d.directory(c)[1]
        return found and (found[0], *map(len, found[1]))
    q.row('directory', c, words=head)
    of_set(q, d, c, 3)
    for which in range(3):
        for e in numbers(lambda: len(d.entries(c, which)[1])):
            of_entry(q, d, c, which, e)
    q.row('static_value_count', c, words=lambda: [len(d.static_values(c))])
    for k in numbers(lambda: len(d.static_values(c))):
        q.row('static_value', c, k, words=lambda: kth(d.static_values(c), k))


def asked(label, places, f):
    q, d = File(label, f), Dex(f)
    for p in places:
        at_place(q, d, p)
    for c in numbers(lambda: header(f)['classes'][0]):
        of_class(q, d, c)
    return q


# ---- the files: tables, a method handle, then data items by name, each a list of words (numbers or names of items) or its bytes
def built(o, classes, items, ask=(), entries='handle', version=b'039', after=b'', **head):
    """`classes` has (directory, static values) for each; words and places may be names, of which `end` is the data section's end."""
    data = CLASSES + 32 * len(classes) + 8
    names, at = {'handle': data - 8, 'start': data, 0: 0}, data
    for name, item in (*items.items(), ('map', [0])):
        at += -at % 4 if isinstance(item, list) else 0
        names[name] = at
        at += 4 * len(item) if isinstance(item, list) else len(item)
    entries = [(8, 1, names['handle'])] if entries == 'handle' else entries
    names['end'] = names['map'] + 4 + 12 * len(entries)
    place = lambda w: eval(w, {}, names) if isinstance(w, str) else w
    body = bytes(48) + b''.join(word(place(w), o) for directory, values in classes for w in (0, 0, NONE, 0, NONE, directory, 0, values))
    body += word(0, o, 2) + bytes(2) + word(0, o, 2) + bytes(2)
    for name, item in items.items():
        body = body.ljust(names[name] - 112, b'\0') + (b''.join(word(place(w), o) for w in item) if isinstance(item, list) else item)
    body = body.ljust(names['map'] - 112, b'\0') + map_list(o, entries) + after
    tables = {**{name: (count, TABLES) for name, count in COUNTS.items()}, 'classes': (len(classes), CLASSES if classes else 0)}
    f = file(o, version, body, map_at=place(head.pop('map_at', 'map')), tables=tables, data=(data, names['end'] - data), **head)
    return [place(p) for p in ask], f


VALUES = bytes([5, 0x00, 0xff, 0x22, 0x00, 0x80, 0x23, 0x00, 0x80, 0x30, 0x80, 0x3f, 0x1c, 1, 0x3f])   # a byte, a short, a char, a float, an array of a boolean
HANDLE = bytes([1, 1, 1, 2, 0x16, 0])                                                                    # element 2: method handle 0
FULL = {
    'directory': ['own', 2, 1, 2, 1, 'shared', 0, 'shared', 2, 'empty', 1, 'references', 0, 'all_absent'],
    'own': [2, 'plain', 'nested'], 'shared': [1, 'handle_item'], 'empty': [0],
    'references': [4, 0, 'shared', 'empty', 0], 'all_absent': [2, 0, 0], 'bare': [0, 0, 0, 0],
    'plain': PLAIN, 'nested': NESTED, 'handle_item': HANDLE, 'values': VALUES, 'last': b'\0\0\0',
}
THREE = (('directory', 'values'), (0, 0), ('bare', 0))
# the bodies inside 'nested': the annotation's own, the array in it, the annotation in that
INSIDE = ('nested', 'nested + 1', 'nested + 5', 'nested + 7')


def cases(o):
    full = lambda ask=(), classes=THREE, change={}, **k: built(o, classes, {**FULL, **change}, ask, **k)
    yield 'full', full(('plain', *INSIDE, 'handle_item', 'values', 'values + 13', 'last'))
    yield 'places', full((0, 'start - 1', 'start', 'end - 1', 'end', 'end + 1', NONE))
    yield 'section ends before the file', full(('end', 'end + 1', 'plain'), after=PLAIN)
    yield 'no classes', full(('plain',), classes=())

    # the map is read for items with values alone
    for name, k in (('map outside', {'map_at': 'end'}), ('map below', {'map_at': 112}), ('map uneven', {'map_at': 'map + 2'}), ('map code', {'entries': [(9, 0, 0)]}),
                    ('map cut', {'map_at': 'plain - plain % 4'}), ('version 037', {'version': b'037'})):
        yield name, full(('plain', 'values', 'nested + 1', 0), classes=THREE[:1], **k)
    yield 'no handles', full(('plain', 'handle_item', 'handle_item + 1', 'nested'), classes=THREE[:1], entries=[])
    for name, k in (('file size', {'size': 7}), ('header size', {'header_size': 7}), ('magic', {'magic': b'dey\n'}), ('tag', {'tag': bytes(4)})):
        yield name, full(('plain', 0), classes=THREE[:1], map_at=0, **k)

    # the class record, then the directory, whole, then its sets
    for name, classes in (('directory uneven', (('directory + 2', 'values'),)), ('directory below', ((1, 'values'),)), ('directory at the end', (('end', 0),)), ('values outside', (('directory', 'end'),)),
                          ('directory in the last word', (('end - 4 - end % 4', 0),)), ('second class', (('directory', 0), (1, 0)))):
        yield name, full(classes=classes, ask=('plain',))
    for name, at, wrong in (('class set uneven', 0, 'own + 2'), ('class set at the end', 0, 'end'), ('no class set', 0, 0), ('fields too many', 1, 99), ('parameters too many', 3, NONE), ('field index', 6, 2),
                            ('field set 0', 7, 0), ('method index', 8, 3), ('method set uneven', 9, 'empty + 1'), ('parameter index', 10, 3), ('parameter list 0', 13, 0), ('one set for class and field', 7, 'own')):
        words = list(FULL['directory'])
        words[at] = wrong
        yield name, full(classes=THREE[:1], change={'directory': words})
    for item, at, wrong in (('own', 0, 99), ('own', 2, 0), ('shared', 0, NONE), ('shared', 1, 'end'), ('references', 0, 99), ('references', 2, 'shared + 1'), ('references', 4, 4), ('empty', 0, 2)):
        words = list(FULL[item])
        words[at] = wrong
        yield f'{item} {at}', full(classes=THREE[:1], change={item: words})

    # items by place, and static values
    deep = lambda n: bytes([0, 0, 1, 0]) + bytes([0x1c, 1]) * (n - 2) + bytes([0x1c, 0])
    for name, item in (('visibility 3', b'\3' + PLAIN[1:]), ('type 6', b'\0\6\0'), ('name 5', bytes([0, 0, 1, 5, 0x1e])), ('string 5', bytes([2, 0, 2, 0, 0x1e, 0, 0x17, 5])), ('argument', bytes([0, 0, 1, 0, 0x3e])),
                       ('size malformed', b'\0\0' + b'\x80\x80\x80\x80\x10')):
        yield name, full(('plain', 'plain + 1'), classes=THREE[:1], change={'plain': item})
    for depth in (64, 65):
        yield f'depth {depth}', built(o, (), {'item': deep(depth)}, ('item', 'item + 1', 'item + 5'))
    for name, values in (('values missing', b'\2\x1e'), ('values handle', b'\1\x16\1'), ('values annotation', b'\2\x1d' + NESTED[1:] + b'\x1e'), ('values none', b'\0')):
        yield name, built(o, ((0, 'values'), (0, 0)), {'values': values}, ('values', 'values + 2'), entries=[])


def files():
    return [asked(f'{name}, {o}', *case) for o in ('little', 'big') for name, case in cases(o)]
