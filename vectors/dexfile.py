"""DEX files put together by hand, in either byte order, and document 01's rules on header and map told once more."""

MOST = 67108864
CODES = [*range(0x0000, 0x0009), *range(0x1000, 0x1004), *range(0x2000, 0x2007), 0xf000]
TABLES = ['strings', 'types', 'protos', 'fields', 'methods', 'classes']
WIDTHS = dict(zip(TABLES, [4, 4, 12, 8, 8, 32]))


class Refused(Exception):
    def __init__(self, number, place=0):
        self.number, self.place = number, place


def rule(holds, number, place):
    if not holds:
        raise Refused(number, place)


def kth(items, k):
    """Number k of a list, or 7."""
    rule(k < len(items), 7, 0)
    return items[k]


def word(value, order, size=4):
    return (value % 256 ** size).to_bytes(size, order)


def at(data, place, order, size=4):
    return int.from_bytes(data[place:place + size].ljust(size, b'\0'), order)


def file(order='little', version=b'035', body=b'', map_at=112, tables=None, data=None, magic=b'dex\n', eighth=0, header_size=112, size=None, tag=None, checksum=0x01020304):
    """A file: the header, then `body` from 112 on. `tables` maps a name to (count, offset); `data` is (offset, size)."""
    length = 112 + len(body) if size is None else size
    offset, count = (112, len(body)) if data is None else data
    places = b''.join(word(n, order) for name in TABLES for n in (tables or {}).get(name, (0, 0)))
    return (magic + version + bytes([eighth]) + word(checksum, order) + bytes(range(20)) + word(length, order) + word(header_size, order)
            + (word(0x12345678, order) if tag is None else tag) + word(7, order) + word(9, order) + word(map_at, order) + places + word(count, order) + word(offset, order) + body)


def map_list(order, entries, size=None):
    return word(len(entries) if size is None else size, order) + b''.join(word(kind, order, 2) + b'\xaa\xbb' + word(count, order) + word(offset, order) for kind, count, offset in entries)


def header(f):
    """Document 01's rules 1 to 6, and what the header says."""
    if len(f) < 112:
        raise Refused(1)
    if len(f) > MOST:
        raise Refused(2)
    if f[:4] != b'dex\n' or f[4:8] not in (b'035\0', b'037\0', b'038\0', b'039\0'):
        raise Refused(3)
    if f[40:44] not in (b'\x78\x56\x34\x12', b'\x12\x34\x56\x78'):
        raise Refused(4)
    order = 'little' if f[40] == 0x78 else 'big'
    if at(f, 36, order) != 112 or at(f, 32, order) != len(f):
        raise Refused(5)
    h = {'version': int(f[4:7]), 'order': order, 'checksum': at(f, 8, order), 'map': at(f, 52, order)}
    for i, name in enumerate(TABLES):
        count, offset = at(f, 56 + 8 * i, order), at(f, 60 + 8 * i, order)
        if count == 0:
            bad = offset != 0
        else:
            bad = offset < 112 or offset % 4 or offset + WIDTHS[name] * count > len(f) or name in ('types', 'protos') and count > 65535
        if bad:
            raise Refused(6)
        h[name] = (count, offset)
    h['start'] = at(f, 108, order)
    h['end'] = h['start'] + at(f, 104, order)
    if h['start'] < 112 or h['end'] > len(f):
        raise Refused(6)
    return h


def map_of(f, h):
    """The map's rules 8, 9 and 16: its entries, and the count and place of the method handles."""
    place, order = h['map'], h['order']
    if not h['start'] <= place < h['end'] or place % 4:
        raise Refused(8)
    if place + 4 > h['end'] or place + 4 + 12 * at(f, place, order) > h['end']:
        raise Refused(9, place)
    entries = [(at(f, p, order, 2), at(f, p + 4, order), at(f, p + 8, order)) for p in range(place + 4, place + 4 + 12 * at(f, place, order), 12)]
    kinds, offsets = [e[0] for e in entries], [e[2] for e in entries]
    good = all(k in CODES for k in kinds) and len(set(kinds)) == len(kinds) and all(a < b for a, b in zip(offsets, offsets[1:]))
    good = good and not (h['version'] < 38 and (7 in kinds or 8 in kinds))
    handles = next(((n, p) for k, n, p in entries if k == 8), (0, 0))
    if 8 in kinds:
        good = good and handles[1] >= 112 and handles[1] % 4 == 0 and handles[1] + 8 * handles[0] <= len(f)
    if not good:
        raise Refused(16, place)
    return entries, handles
