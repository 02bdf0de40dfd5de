"""Files that break each rule on header and map alone, in both byte orders, and what the readers of header and map answer."""
from dexfile import CODES, TABLES, file, header, kth, map_list, map_of
from questions import File, numbers


def cases(o):
    """Named files in the byte order o."""
    empty = map_list(o, [])
    yield 'document', file(o, b'038', empty)
    yield 'document, no data', file(o, b'038', empty, data=(112, 0))
    yield '111 bytes', file(o, b'035', empty)[:111]
    yield '112 bytes', file(o, b'035', b'', data=(112, 0))
    for version in (b'035', b'036', b'037', b'038', b'039', b'040', b'+38', b'999'):
        yield 'version ' + version.decode(), file(o, version, empty)
    yield 'eighth byte', file(o, b'035', empty, eighth=1)
    yield 'magic', file(o, b'035', empty, magic=b'dey\n')
    yield 'magic before tag', file(o, b'035', empty, magic=b'Dex\n', tag=b'\0\0\0\0')
    yield 'tag', file(o, b'035', empty, tag=b'\x12\x34\x56\x79')
    yield 'header size', file(o, b'035', empty, header_size=111)
    yield 'file size', file(o, b'035', empty, size=117)
    yield 'bytes after the file', file(o, b'035', empty) + b'\0'
    room = empty + bytes(60)
    for name, width in (('strings', 4), ('types', 4), ('protos', 12), ('fields', 8), ('methods', 8), ('classes', 32)):
        most = (len(room) - 4) // width
        yield f'{name} to the end', file(o, b'035', room, tables={name: (most, 112 + len(room) - width * most - (len(room) - width * most) % 4)})
        yield f'{name} past the end', file(o, b'035', room, tables={name: (1, 112 + len(room) - width + 4)})
        yield f'{name} count 0', file(o, b'035', room, tables={name: (0, 112)})
        yield f'{name} at 108', file(o, b'035', room, tables={name: (1, 108)})
        yield f'{name} uneven', file(o, b'035', room, tables={name: (1, 118)})
        yield f'{name} huge', file(o, b'035', room, tables={name: (0xffffffff, 112)})
    yield 'data at 111', file(o, b'035', room, data=(111, 4))
    yield 'data to the end', file(o, b'035', room, map_at=172, data=(172, 4))
    yield 'data past the end', file(o, b'035', room, map_at=172, data=(172, 5))
    yield 'data huge', file(o, b'035', room, data=(0xffffffff, 0xffffffff))
    yield 'data at 0', file(o, b'035', room, data=(0, 0))
    yield 'map at 0', file(o, b'035', room, map_at=0)
    yield 'map before the data', file(o, b'035', room, map_at=112, data=(116, 60))
    yield 'map at the end', file(o, b'035', room, map_at=176)
    yield 'map uneven', file(o, b'035', room, map_at=114)
    yield 'map of 3 bytes', file(o, b'035', room, data=(112, 3))
    yield 'map of an entry too many', file(o, b'035', map_list(o, [(0, 1, 0)], size=2))
    yield 'map of too many', file(o, b'035', map_list(o, [(0, 1, 0)], size=0xffffffff))
    yield 'map too long, and bad', file(o, b'035', map_list(o, [(9, 1, 0)], size=2))
    yield 'all 21 codes', file(o, b'038', map_list(o, [(k, i + 1, 4 * i + 112) for i, k in enumerate(CODES)]) + bytes(200))
    yield 'codes falling', file(o, b'039', map_list(o, [(k, i + 1, 4 * i + 112) for i, k in enumerate(CODES[::-1])]) + bytes(200))
    for code in (0x0009, 0x0fff, 0x1004, 0x1fff, 0x2007, 0xefff, 0xf001, 0xffff):
        yield f'code {code:04x}', file(o, b'038', map_list(o, [(0, 1, 0), (code, 1, 5)]))
    yield 'offsets equal', file(o, b'035', map_list(o, [(0, 1, 7), (1, 1, 7)]))
    yield 'offsets falling', file(o, b'035', map_list(o, [(0, 1, 7), (1, 1, 6)]))
    yield 'offsets past the file', file(o, b'035', map_list(o, [(0, 1, 0), (1, 0, 0xfffffffe), (2, 9, 0xffffffff)]))
    yield 'a type twice', file(o, b'035', map_list(o, [(0x2001, 1, 7), (1, 1, 8), (0x2001, 1, 9)]))
    yield 'type 0 twice', file(o, b'035', map_list(o, [(0, 1, 7), (0, 1, 8)]))
    for version in (b'037', b'038'):
        yield f'type 7, {version.decode()}', file(o, version, map_list(o, [(7, 9, 1)]))
        yield f'type 8, {version.decode()}', file(o, version, map_list(o, [(8, 2, 112)]))
    for count, place in ((0, 112), (0, 111), (0, 108), (0, 114), (2, 112), (2, 116), (0, 128), (0, 132), (0x20000000, 112)):
        yield f'{count} handles at {place}', file(o, b'039', map_list(o, [(8, count, place)]))


def asked(label, f):
    q = File(label, f)

    def head():
        h = header(f)
        return h['version'], ('little', 'big').index(h['order']), h['checksum'], h['map'], *(n for table in TABLES for n in h[table]), h['start'], h['end']

    def entries():
        return map_of(f, header(f))[0]
    q.row('header', words=head)
    q.part('signature', data=lambda: header(f) and f[12:32])
    q.row('map_count', words=lambda: [len(entries())])
    for k in numbers(lambda: len(entries())):
        q.row('map_entry', k, words=lambda: kth(entries(), k))
    q.row('handle_count', words=lambda: [map_of(f, header(f))[1][0]])
    return q


def files():
    return [asked(f'{name}, {o}', f) for o in ('little', 'big') for name, f in cases(o)]
