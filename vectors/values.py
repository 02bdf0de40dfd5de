"""Document 01's rules on values, told once more in Python; and cases of each code, argument and depth."""
import struct

from dexfile import kth, rule
from questions import item, numbers

# how many bytes each code's value may have at most; which table an index is a number of
SIZES = {0x00: 1, 0x02: 2, 0x03: 2, 0x04: 4, 0x06: 8, 0x10: 4, 0x11: 8, **{c: 4 for c in range(0x15, 0x1c)}, 0x1c: 1, 0x1d: 1, 0x1e: 1, 0x1f: 2}
INDEXED = {0x15: 'protos', 0x16: 'handles', 0x17: 'strings', 0x18: 'types', 0x19: 'fields', 0x1a: 'methods', 0x1b: 'fields'}


class Section:
    """A file up to its data section's end, and what its items are judged by. `item` is the place of the item that is read."""

    def __init__(self, data, order, start, counts):
        self.data, self.order, self.start, self.counts = data, order, start, counts

    def bytes(self, p, n, item):
        rule(p + n <= len(self.data), 9, item)
        return self.data[p:p + n]

    def word(self, p, item):
        return int.from_bytes(self.bytes(p, 4, item), self.order)

    def uleb(self, p, item):
        value = 0
        for i in range(5):
            b = self.bytes(p + i, 1, item)[0]
            rule(i < 4 or b <= 0x0f, 10, item)
            value |= (b & 0x7f) << 7 * i
            if b < 0x80:
                return value, p + i + 1

    def index(self, p, limit, item):
        value, p = self.uleb(p, item)
        rule(value < limit, 11, item)
        return value, p

    def value(self, p, item, depth):
        """A value inside a body of this depth, as kind, number (64 bits, or a body's place) and a body's length; and where it ends."""
        head = self.bytes(p, 1, item)[0]
        code, size = head & 31, (head >> 5) + 1
        rule(size <= SIZES.get(code, 0), 12, item)
        p += 1
        if code in (0x1c, 0x1d):
            end = self.array(p, item, depth + 1)[1] if code == 0x1c else self.body(p, item, depth + 1)[2]
            return (code, p, end - p), end
        if code >= 0x1e:
            return (code, size - 1, 0), p
        raw = self.bytes(p, size, item)
        return (code, self.number(code, raw, item), 0), p + size

    def number(self, code, raw, item):
        if code in (0x10, 0x11):
            return int.from_bytes(raw.rjust(SIZES[code], b'\0'), 'little')
        n = int.from_bytes(raw, 'little', signed=code in (0x00, 0x02, 0x04, 0x06))
        rule(code not in INDEXED or n < self.counts[INDEXED[code]], 11, item)
        return n % 2 ** 64

    def array(self, p, item, depth):
        """Its values, and where it ends."""
        rule(depth <= 64, 13, item)
        count, p = self.uleb(p, item)
        values = []
        for _ in range(count):
            value, p = self.value(p, item, depth)
            values.append(value)
        return values, p

    def body(self, p, item, depth):
        """An annotation's type, its elements as (value, name), and where it ends."""
        rule(depth <= 64, 13, item)
        kind, p = self.index(p, self.counts['types'], item)
        count, p = self.uleb(p, item)
        elements = []
        for _ in range(count):
            name, p = self.index(p, self.counts['strings'], item)
            value, p = self.value(p, item, depth)
            elements.append((*value, name))
        return kind, elements, p


# ---- the cases: a body that is item 7; each count differs from the others
ITEM, COUNTS = 7, {'strings': 0x101, 'types': 0x102, 'protos': 0x103, 'fields': 0x104, 'methods': 0x105, 'handles': 0x106}


def of_code(code, n):
    """The bytes behind the head of a value of n bytes: least and greatest, floats that end in zeros, indices at their limits, and a byte missing."""
    if code in (0x00, 0x02, 0x04, 0x06):
        return bytes(n - 1) + b'\x80', b'\xff' * (n - 1) + b'\x7f', b'\xff' * n, bytes(n), b'\xff' * (n - 1)
    if code == 0x03:
        return bytes(n), b'\xff' * n, b'\xff' * (n - 1)
    if code in (0x10, 0x11):
        one, nan = (b'\1\2\x80\x3f', b'\3\0\x80\x7f') if code == 0x10 else (b'\1\2\3\4\5\6\xf0\x3f', b'\3\0\0\0\0\0\xf0\x7f')
        return one[-n:], b'\xff' * n, bytes(n), nan[-n:], b'\x7f' * (n - 1)
    if code in INDEXED:
        count = COUNTS[INDEXED[code]]
        limits = (b'\xff',) if n == 1 else ((count - 1).to_bytes(n, 'little'), count.to_bytes(n, 'little'), b'\xff' * n)
        return bytes(n), *limits, b'\xff' * (n - 1)
    if code == 0x1c:
        return b'', b'\0', b'\2\x1e\x3f', b'\2\x1e', b'\x80\x80\x80\x80\x10'
    if code == 0x1d:
        return b'', b'\0\0', b'\x81\2\1\x80\2\x1e', b'\x82\2\0', b'\0\1\x81\2\x1e', b'\0\1\0'
    return b'',


def values():
    for code in range(32):
        for size in range(1, 9):
            head = bytes([size - 1 << 5 | code])
            # 12, though no byte follows: before 9
            yield from (head + rest for rest in (of_code(code, size) if size <= SIZES.get(code, 0) else (b'',)))
    yield b''


def deep(n, last, in_turn):
    """Bodies in bodies: the array (0) or the annotation (1) that `in_turn` says for each depth."""
    out = b''
    for i in range(n):
        out += (b'\1', b'\0\1\0')[in_turn(i)]
        if i < n - 1:
            out += (b'\x1c', b'\x1d')[in_turn(i + 1)]
    return out + last


def arrays():
    yield from (b'', b'\0', b'\3\0\xff\x24\0\x80\x1e', b'\2\x1e', b'\2\x1c\1\x1e\x3f', b'\1\x9f', b'\xff\xff\xff\xff\x0f', b'\x80\x80\x80\x80\x10', b'\x80\0')
    for in_turn in (lambda i: 0, lambda i: i % 2):
        yield from (deep(64, last, in_turn) for last in (b'\x1e', b'\x1c\0', b'\x1d\0\0', b'\x1c', b'\x1d', b'\x3c', b'\x3d', b''))
        yield deep(65, b'\x1e', in_turn)


def annotations():
    yield from (b'', b'\0', b'\0\0', b'\x81\2\2\0\x1f\x80\2\x3f', b'\x82\2\0', b'\0\1\x81\2\x1e', b'\0\1\0\x1b\4', b'\0\1\0\x3b\4\1', b'\0\1\0\x3b\3\1', b'\5\1\3\x1c\1\x1e')
    yield from (deep(64, last, lambda i: 1) for last in (b'\x1e', b'\x1d\0\0', b'\x1c\0', b'\x1d', b'\x3d'))
    yield deep(65, b'\x1e', lambda i: 1)


def float_of(code, bits):
    """What the float of these bits is: not below 2 (1), below 2 (2), or none (3); 0 for other values."""
    if code not in (0x10, 0x11):
        return 0
    x, = struct.unpack('<f' if code == 0x10 else '<d', bits.to_bytes(SIZES[code], 'little'))
    return 3 if x != x else 2 if x < 2 else 1


def items():
    for data in values():
        s, q = Section(data, 'little', 112, COUNTS), item('value ' + data.hex(), data, start=112, **COUNTS)

        def decoded():
            value, end = s.value(0, ITEM, 1)
            return *value, end, float_of(*value[:2])
        q.row('decode_at', 0, ITEM, 63, words=decoded)
        q.row('value', 0, ITEM, 63, words=lambda: [s.value(0, ITEM, 1)[1]])
        yield q
    for data in arrays():
        s, q = Section(data, 'little', 112, COUNTS), item('array ' + data.hex()[-20:], data, start=112, **COUNTS)
        q.row('array_count', 0, ITEM, words=lambda: [len(s.array(0, ITEM, 1)[0])])
        for k in numbers(lambda: len(s.array(0, ITEM, 1)[0])):
            q.row('array_value', 0, ITEM, k, words=lambda: kth(s.array(0, ITEM, 1)[0], k))
        yield q
    for data in annotations():
        s, q = Section(data, 'little', 112, COUNTS), item('annotation ' + data.hex()[-20:], data, start=112, **COUNTS)
        q.row('annotation_head', 0, ITEM, words=lambda: (lambda kind, elements, end: (kind, len(elements)))(*s.body(0, ITEM, 1)))
        for k in numbers(lambda: len(s.body(0, ITEM, 1)[1])):
            q.row('annotation_body_element', 0, ITEM, k, words=lambda: kth(s.body(0, ITEM, 1)[1], k))
        yield q
