"""LEB128 numbers: document 01's rules told once more in Python, and cases of each."""
from dexfile import Refused
from questions import item

# document 01's examples, then each byte count's least and greatest, the fifth byte's bounds, and data that ends before a later fault
CASES = '''7f 807f 8000 ffffffff0f 8080808010 8080808078 8080808080
 00 01 3f 40 8001 ff7f ff00 ff3f 8040 c000 bf7f 808001 ffff7f ffff3f 808040 80808001 ffffff7f ffffff3f 80808040 8080808001
 8080808000 8080808007 8080808008 808080800f 8080808040 8080808077 808080807f ffffffff07 ffffffff08 ffffffff77 ffffffff78 ffffffff7f
 80808080ff 8080808081 80 8080 808080 80808080 ff ffffffff 808080808000 808080808080'''.split() + ['']
ITEM = 3


def read(data, last):
    """The number's bytes; `last` says which fifth bytes are allowed."""
    for i in range(5):
        if len(data) <= i:
            raise Refused(9, ITEM)
        if i == 4 and not last(data[i]):
            raise Refused(10, ITEM)
        if data[i] < 0x80:
            return data[:i + 1]


def weight(got):
    return sum((b & 0x7f) << 7 * i for i, b in enumerate(got))


def unsigned(data):
    got = read(data, lambda b: b <= 0x0f)
    return weight(got), len(got)


def signed(data):
    """As an int value: its kind and its 64 bits; then its magnitude."""
    got = read(data, lambda b: b <= 0x07 or 0x78 <= b <= 0x7f)
    value = weight(got) - (1 << 7 * len(got) if got[-1] & 0x40 else 0)
    return 4, value % 2 ** 64, abs(value), len(got)


def plus_one(data):
    """Is there a number, which, and where it ends."""
    value, end = unsigned(data)
    return (0, 0, end) if value == 0 else (1, value - 1, end)


def items():
    for case in CASES:
        data = bytes.fromhex(case)
        q = item('number ' + case, data)
        q.row('uleb', 0, ITEM, words=lambda: unsigned(data))
        q.row('sleb', 0, ITEM, words=lambda: signed(data))
        q.row('uleb_p1', 0, ITEM, words=lambda: plus_one(data))
        yield q
