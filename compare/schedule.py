#!/usr/bin/env python3
"""A schedule of N location cases, each a class with cables as static fields and their values: schedule.py N FILE"""
import sys


def uleb(v):
    out = bytearray()
    while v >= 128:
        out.append(v % 128 + 128)
        v //= 128
    return bytes(out + bytes([v]))


def word(n, size=4):
    return n.to_bytes(size, 'little')


def schedule(cases, cables=12):
    """Cable names are shared by all cases; each case has a name of its own, and a directory with one annotation."""
    names = sorted(f'cable{i:02d}' for i in range(cables)) + ['length']
    kinds = ['I', 'Ljava/lang/Object;', 'Lrail/Case;', 'Ljava/lang/String;'] + [f'Lrail/case{i:05d};' for i in range(cases)]
    texts = sorted(set(names + kinds + [f'LOC-{i:05d}' for i in range(cases)]))
    s = {t: i for i, t in enumerate(texts)}
    types = sorted(kinds, key=s.get)
    t = {k: i for i, k in enumerate(types)}
    fields = [(t[f'Lrail/case{i:05d};'], t['I'], s[n]) for i in range(cases) for n in names[:cables]]
    sizes = [4 * len(texts), 4 * len(types), 8 * len(fields), 32 * cases]
    places = [112 + sum(sizes[:i]) for i in range(5)]
    start, data = places[4], bytearray()

    def add(item, align=1):
        data.extend(bytes(-(start + len(data)) % align))
        data.extend(item)
        return start + len(data) - len(item)

    strings = [add(uleb(len(x)) + x.encode() + b'\0') for x in texts]
    records = b''
    for i in range(cases):
        members = add(uleb(cables) + uleb(0) * 3 + b''.join(uleb(i * cables if k == 0 else 1) + uleb(0x19) for k in range(cables)))
        values = add(uleb(cables) + b''.join(b'\x24' + word((37 * i + 11 * k) % 30000, 2) for k in range(cables)))
        note = add(b'\x01' + uleb(t['Lrail/Case;']) + uleb(1) + uleb(s['length']) + b'\x57' + word(s[f'LOC-{i:05d}'], 3))
        one = add(word(1) + word(note), 4)
        directory = add(word(one) + bytes(12), 4)
        records += b''.join(word(n) for n in (t[f'Lrail/case{i:05d};'], 1, t['Ljava/lang/Object;'], 0, 0xffffffff, directory, members, values))
    the_map = add(word(1) + bytes(4) + word(1) + word(0), 4)
    tables = b''.join(word(n) for n in strings) + b''.join(word(s[k]) for k in types) + b''.join(word(a, 2) + word(b, 2) + word(c) for a, b, c in fields) + records
    head = b'dex\n035\0' + bytes(24) + word(start + len(data)) + word(112) + b'\x78\x56\x34\x12' + bytes(8) + word(the_map)
    for n, p in ((len(texts), 0), (len(types), 1), (0, None), (len(fields), 2), (0, None), (cases, 3)):
        head += word(n) + word(0 if p is None else places[p])
    return head + word(len(data)) + word(start) + tables + bytes(data)


open(sys.argv[2], 'wb').write(schedule(int(sys.argv[1])))
