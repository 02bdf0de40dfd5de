#!/usr/bin/env python3
"""Document 01's check of a whole file, told once more in Python, in its order; and its report.

    vectors/whole.py FILE..            a line for each file: accepted, or the refusal's number and place"""
import sys
from dexfile import Refused, at, header, map_of, rule

NONE = 0xffffffff
TABLES = ('strings', 'types', 'protos', 'fields', 'methods', 'classes')
MOST_INPUT = 65536
ARGUMENTS = {0x00: 1, 0x02: 2, 0x03: 2, 0x04: 4, 0x06: 8, 0x10: 4, 0x11: 8, **{c: 4 for c in range(0x15, 0x1c)}, 0x1c: 1, 0x1d: 1, 0x1e: 1, 0x1f: 2}
INDEX = {0x15: 'protos', 0x16: 'handles', 0x17: 'strings', 0x18: 'types', 0x19: 'fields', 0x1a: 'methods', 0x1b: 'fields'}


class Item:
    """A data item at a place: its parts are read one after the other, and a fault has the item's place."""

    def __init__(self, file, place):
        self.file, self.place, self.p = file, place, place

    def bytes(self, n):
        rule(self.p + n <= self.file.end, 9, self.place)
        got = self.file.f[self.p:self.p + n]
        self.p += n
        return got

    def word(self, n=4):
        return int.from_bytes(self.bytes(n), self.file.order)

    def leb(self, fifth):
        got = []
        while not got or got[-1] >= 0x80:
            got += self.bytes(1)
            rule(len(got) < 5 or fifth(got[4]), 10, self.place)
        return sum((b & 0x7f) << 7 * i for i, b in enumerate(got)), got

    def uleb(self):
        return self.leb(lambda b: b <= 0x0f)[0]

    def sleb(self):
        value, got = self.leb(lambda b: b <= 0x07 or 0x78 <= b <= 0x7f)
        return value - (1 << 7 * len(got)) if got[-1] & 0x40 else value

    def index(self, kind):
        value = self.uleb()
        rule(value < self.file.counts[kind], 11, self.place)
        return value

    def words(self, n, size=4):
        """A list of fixed-width entries: its length first."""
        rule(self.p + size * n <= self.file.end, 9, self.place)
        return [self.word(size) for _ in range(n)]

    def offset(self, value, four=False, absent=False):
        self.file.offset(value, self.place, four, absent)
        return value

    # ---- values
    def value(self, depth):
        head = self.bytes(1)[0]
        code, size = head & 31, (head >> 5) + 1
        rule(size <= ARGUMENTS.get(code, 0), 12, self.place)
        if code == 0x1c:
            self.array(depth + 1)
        elif code == 0x1d:
            self.annotation(depth + 1)
        elif code < 0x1e:
            number = int.from_bytes(self.bytes(size), 'little')
            rule(code not in INDEX or number < self.file.counts[INDEX[code]], 11, self.place)

    def array(self, depth):
        """How many values there are."""
        rule(depth <= 64, 13, self.place)
        size = self.uleb()
        for _ in range(size):
            self.value(depth)
        return size

    def annotation(self, depth):
        rule(depth <= 64, 13, self.place)
        self.index('types')
        for _ in range(self.uleb()):
            self.index('strings')
            self.value(depth)


class File:
    def __init__(self, f):
        self.f, self.h = f, header(f)
        self.order, self.start, self.end = self.h['order'], self.h['start'], self.h['end']
        self.counts = {name: self.h[name][0] for name in TABLES}
        _, (self.counts['handles'], self.handles) = map_of(f, self.h)

    def offset(self, value, place, four=False, absent=False):
        inside = self.start <= value < self.end and not (four and value % 4)
        rule(inside or absent and value == 0, 8, place)

    def record(self, table, n, width):
        return self.h[table][1] + width * n

    def at(self, place, size=4):
        return at(self.f, place, self.order, size)

    def check(self):
        last = None
        for n in range(self.counts['strings']):
            place = self.record('strings', n, 4)
            self.offset(self.at(place), place)
            units = self.text(self.at(place))
            rule(last is None or last < units, 15, place)
            last = units
        last = -1
        for n in range(self.counts['types']):
            place = self.record('types', n, 4)
            rule(self.at(place) < self.counts['strings'], 11, place)
            rule(last < self.at(place), 15, place)
            last = self.at(place)
        for n in range(self.counts['protos']):
            place = self.record('protos', n, 12)
            rule(self.at(place) < self.counts['strings'] and self.at(place + 4) < self.counts['types'], 11, place)
            self.offset(self.at(place + 8), place, four=True, absent=True)
            self.types_at(self.at(place + 8))
        for table, second in (('fields', 'types'), ('methods', 'protos')):
            for n in range(self.counts[table]):
                place = self.record(table, n, 8)
                rule(self.at(place, 2) < self.counts['types'] and self.at(place + 2, 2) < self.counts[second] and self.at(place + 4) < self.counts['strings'], 11, place)
        for n in range(self.counts['handles']):
            place = self.handles + 8 * n
            rule(self.at(place, 2) <= 8, 18, place)
            rule(self.at(place + 4, 2) < self.counts['fields' if self.at(place, 2) <= 3 else 'methods'], 11, place)
        for n in range(self.counts['classes']):
            self.class_at(self.record('classes', n, 32))

    def text(self, place):
        item = Item(self, place)
        stored, units = item.uleb(), []
        while True:
            a = item.bytes(1)[0]
            if a == 0:
                break
            more = 0 if a < 0x80 else 1 if 0xc0 <= a < 0xe0 else 2 if 0xe0 <= a < 0xf0 else None
            rule(more is not None, 14, place)
            rest = item.bytes(more)
            unit = a if more == 0 else a & (0x1f if more == 1 else 0x0f)
            for b in rest:
                unit = unit << 6 | b & 0x3f
            shortest = more == 0 or more == 1 and (unit >= 0x80 or unit == 0) or more == 2 and unit >= 0x800
            rule(shortest and all(b & 0xc0 == 0x80 for b in rest), 14, place)
            units.append(unit)
        rule(len(units) == stored, 14, place)
        return units

    def types_at(self, place):
        if place:
            item = Item(self, place)
            rule(all(t < self.counts['types'] for t in item.words(item.word(), 2)), 11, place)

    def class_at(self, place):
        kind, _, parent, interfaces, source, directory, data, values = (self.at(place + 4 * i) for i in range(8))
        rule(kind < self.counts['types'] and (parent == NONE or parent < self.counts['types']), 11, place)
        self.offset(interfaces, place, four=True, absent=True)
        rule(source == NONE or source < self.counts['strings'], 11, place)
        self.offset(directory, place, four=True, absent=True)
        self.offset(data, place, absent=True)
        self.offset(values, place, absent=True)
        self.types_at(interfaces)
        if directory:
            self.directory(directory)
        statics, codes = self.class_data(data) if data else (0, [])
        for code in codes:
            debug = self.code(code)
            if debug:
                self.debug(debug)
        stored = Item(self, values).array(1) if values else 0
        rule(stored <= statics, 21, place)

    # ---- annotations
    def directory(self, place):
        item = Item(self, place)
        own = item.offset(item.word(), four=True, absent=True)
        counts, lists = [item.word() for _ in range(3)], []
        for count, limit in zip(counts, ('fields', 'methods', 'methods')):
            rule(item.p + 8 * count <= self.end, 9, place)
            lists.append([])
            for _ in range(count):
                rule(item.word() < self.counts[limit], 11, place)
                lists[-1].append(item.offset(item.word(), four=True))
        if own:
            self.set(own)
        for there in lists[0] + lists[1]:
            self.set(there)
        for there in lists[2]:
            refs = Item(self, there)
            for place in [refs.offset(v, four=True, absent=True) for v in refs.words(refs.word())]:
                if place:
                    self.set(place)

    def set(self, place):
        item = Item(self, place)
        for there in [item.offset(v) for v in item.words(item.word())]:
            annotation = Item(self, there)
            rule(annotation.bytes(1)[0] <= 2, 18, there)
            annotation.annotation(1)

    # ---- class data, code, debug information
    def class_data(self, place):
        """How many static fields there are, and where the code is."""
        item = Item(self, place)
        counts, codes = [item.uleb() for _ in range(4)], []
        for n, kind in zip(counts, ('fields', 'fields', 'methods', 'methods')):
            index = 0
            for i in range(n):
                difference = item.uleb()
                rule(i == 0 or difference, 15, place)
                index += difference
                rule(index < self.counts[kind], 11, place)
                item.uleb()
                if kind == 'methods':
                    codes.append(item.offset(item.uleb(), four=True, absent=True))
        return counts[0], [c for c in codes if c]

    def code(self, place):
        item = Item(self, place)
        for _ in range(3):
            item.word(2)
        tries = item.word(2)
        debug = item.offset(item.word(), absent=True)
        units = item.word()
        item.bytes(2 * units)
        item.bytes(2 if tries and units % 2 else 0)
        item.bytes(8 * tries)
        rows, floor = [], 0
        for p in range(item.p - 8 * tries, item.p, 8):
            start, count, handler = self.at(p), self.at(p + 4, 2), self.at(p + 6, 2)
            rule(floor <= start and start + count <= units, 17, place)
            floor = start + count
            rows.append(handler)
        if tries:
            starts = self.handlers(item, units)
            rule(all(handler in starts for handler in rows), 17, place)
        return debug

    def handlers(self, item, units):
        base, starts = item.p, set()
        count = item.uleb()
        for _ in range(count):
            starts.add(item.p - base)
            size = item.sleb()
            for _ in range(abs(size)):
                item.index('types')
                rule(item.uleb() < units, 17, item.place)
            if size <= 0:
                rule(item.uleb() < units, 17, item.place)
        return starts

    def debug(self, place):
        item = Item(self, place)
        item.uleb()
        for _ in range(item.uleb()):
            rule(item.uleb() <= self.counts['strings'], 11, place)
        while item.bytes(1)[0]:
            pass


def verdict(f):
    """The header of a file that obeys every rule, or the refusal."""
    try:
        file = File(f)
        file.check()
        return file.h
    except Refused as r:
        return r


def report(f):
    """What the program writes on this input."""
    said = Refused(20) if len(f) > MOST_INPUT else verdict(f)
    if isinstance(said, Refused):
        return f'accepted=0\nrefusal={said.number}\nplace={said.place}\n'
    return f"accepted=1\nversion={said['version']}\nendian={said['order']}\n" + ''.join(f'{name}={said[name][0]}\n' for name in TABLES)


if __name__ == '__main__':
    for name in sys.argv[1:]:
        said = verdict(open(name, 'rb').read())
        print(name, f'refused {said.number} at {said.place}' if isinstance(said, Refused) else 'accepted')
