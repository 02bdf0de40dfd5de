"""Document 01's rules on debug information, class data and code items, told once more in Python. `w` is what an item is judged by: its
place, where the data section starts, and the counts. `s` ends where the data section ends. None stands for a name or an address that is not there."""
from collections import namedtuple

from dexfile import Refused

Judge = namedtuple('Judge', 'item start strings types fields methods')


def leb(w, s, p, last=lambda b: b <= 0x0f):
    got = []
    while True:
        if len(s) <= p + len(got):
            raise Refused(9, w.item)
        got.append(s[p + len(got)])
        if len(got) == 5 and not last(got[4]):
            raise Refused(10, w.item)
        if got[-1] < 0x80:
            return sum((b & 0x7f) << 7 * i for i, b in enumerate(got)), p + len(got), got


def uleb(w, s, p):
    return leb(w, s, p)[:2]


def sleb(w, s, p):
    v, q, got = leb(w, s, p, lambda b: b <= 0x07 or 0x78 <= b <= 0x7f)
    return (v - (1 << 7 * len(got)) if got[-1] & 0x40 else v), q


def debug(w, s):
    line, p = uleb(w, s, w.item)
    count, p = uleb(w, s, p)
    names = []
    for _ in range(count):
        v, p = uleb(w, s, p)
        if v > w.strings:
            raise Refused(11, w.item)
        names.append(None if v == 0 else v - 1)
    zero = p
    while True:
        if len(s) <= zero:
            raise Refused(9, w.item)
        if s[zero] == 0:
            return line, names, p, zero - p
        zero += 1


def members(w, s, p, count, limit, code):
    got = []
    for i in range(count):
        d, p = uleb(w, s, p)
        if i and d == 0:
            raise Refused(15, w.item)
        index = (got[-1][0] if got else 0) + d
        if index >= limit:
            raise Refused(11, w.item)
        flags, p = uleb(w, s, p)
        offset = 0
        if code:
            offset, p = uleb(w, s, p)
            if offset and (offset < w.start or offset >= len(s) or offset % 4):
                raise Refused(8, w.item)
        got.append((index, flags, offset))
    return got, p


def data(w, s):
    p, counts, lists = w.item, [], []
    for _ in range(4):
        n, p = uleb(w, s, p)
        counts.append(n)
    for n, limit, code in zip(counts, (w.fields, w.fields, w.methods, w.methods), (False, False, True, True)):
        got, p = members(w, s, p, n, limit, code)
        lists.append(got)
    return lists, p


def code(w, s, order):
    def word(p, n):
        if len(s) < p + n:
            raise Refused(9, w.item)
        return int.from_bytes(s[p:p + n], order)
    registers, ins, outs, tries = (word(w.item + 2 * i, 2) for i in range(4))
    offset = word(w.item + 8, 4)
    if offset and (offset < w.start or offset >= len(s)):
        raise Refused(8, w.item)
    units = word(w.item + 12, 4)
    start = w.item + 16 + 2 * units + (2 if tries and units % 2 else 0)
    base = start + 8 * tries
    if len(s) < base:
        raise Refused(9, w.item)
    attempts, floor = [], 0
    for i in range(tries):
        p = start + 8 * i
        a = word(p, 4), word(p + 4, 2), word(p + 6, 2)
        if a[0] < floor or a[0] + a[1] > units:
            raise Refused(17, w.item)
        floor = a[0] + a[1]
        attempts.append(a)
    handlers, end = [], base

    def address(p):
        a, p = uleb(w, s, p)
        if a >= units:
            raise Refused(17, w.item)
        return a, p
    if tries:
        count, p = uleb(w, s, base)
        if count == 0:
            raise Refused(17, w.item)
        for _ in range(count):
            place = p - base
            size, p = sleb(w, s, p)
            pairs = []
            for _ in range(abs(size)):
                kind, p = uleb(w, s, p)
                if kind >= w.types:
                    raise Refused(11, w.item)
                a, p = address(p)
                pairs.append((kind, a))
            caught = None
            if size <= 0:
                caught, p = address(p)
            handlers.append((place, pairs, caught))
        end = p
    places = [h[0] for h in handlers]
    links = []
    for a in attempts:
        if a[2] not in places:
            raise Refused(17, w.item)
        links.append(places.index(a[2]))
    return (registers, ins, outs, tries, offset, units, len(handlers), start, base, end), attempts, links, handlers
