#!/usr/bin/env python3
"""compare/worst.py CLASSES ENTRIES LISTS SETS VALUES FILE: a small file that names one item over and over.

CLASSES class records share one annotation directory, whose ENTRIES parameter entries share one reference list, whose LISTS offsets name one set, whose SETS offsets name one
annotation item, which holds an array of VALUES nulls. The check reaches each item every time it is named, so it reads CLASSES * ENTRIES * LISTS * SETS * VALUES values; the
file has 32 + 8 + 4 + 4 + 1 bytes for each of them. Every rule is obeyed: the file is accepted."""
import struct
import sys

classes, entries, lists, sets, values = map(int, sys.argv[1:6])


def uleb(n):
    out = b''
    while True:
        out += bytes([n % 128 + (128 if n > 127 else 0)])
        n //= 128
        if n == 0:
            return out


def words(*ns):
    return struct.pack(f'<{len(ns)}I', *ns)


strings, types, protos, methods = 112, 116, 120, 132
table = 140
data = table + 32 * classes
map_at = data
text = map_at + 4
directory = text + 4
references = directory + 16 + 8 * entries
annotation_set = references + 4 + 4 * lists
item = annotation_set + 4 + 4 * sets
body = bytes([0, 0, 1, 0, 0x1c]) + uleb(values) + b'\x1e' * values
size = item + len(body)
record = words(0, 0, 0xffffffff, 0, 0xffffffff, directory, 0, 0)
file = b''.join([
    b'dex\n039\0', words(0), bytes(20), words(size, 112, 0x12345678, 0, 0, map_at, 1, strings, 1, types, 1, protos, 0, 0, 1, methods, classes, table if classes else 0, size - data, data),
    words(text), words(0), words(0, 0, 0), struct.pack('<HHI', 0, 0, 0), record * classes,
    words(0), b'\x01V\0\0',
    words(0, 0, 0, entries) + words(0, references) * entries,
    words(lists) + words(annotation_set) * lists,
    words(sets) + words(item) * sets,
    body])
assert len(file) == size
open(sys.argv[6], 'wb').write(file)
print(size, 'bytes,', classes * entries * lists * sets * values, 'values')
