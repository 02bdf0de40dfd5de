"""Texts in modified UTF-8, by a decoder of their own: the forms by regular expressions, the units by Python's codec."""
import re

from dexfile import Refused, rule
from questions import item

FORMS = re.compile(rb'(?:[\x01-\x7f]|\xc0\x80|[\xc2-\xdf][\x80-\xbf]|\xe0[\xa0-\xbf][\x80-\xbf]|[\xe1-\xef][\x80-\xbf][\x80-\xbf])*')
LENGTH = re.compile(rb'[\x80-\xff]{0,4}[\x00-\x7f]')
# a text's item lies at 2; its first byte is the stored length
READ = {
    'first and last of each form': ['01 01 00', '01 7f 00', '01 c280 00', '01 dfbf 00', '01 c080 00', '01 e0a080 00', '01 efbfbf 00'],
    'not the shortest': ['01 c081 00', '01 c0bf 00', '01 c180 00', '01 c1bf 00', '01 e08080 00', '01 e09fbf 00'],
    'surrogates, lone and in pairs': ['01 eda080 00', '01 edbfbf 00', '02 eda0bd edb880 00', '02 edb880 eda0bd 00'],
    'first byte': ['01 80 00', '01 bf 00', '01 f0908080 00', '01 ff 00', '01 80', '01 f0', '01 c1', '01 c0'],
    'does not follow': ['01 c241 00', '01 c2c2 00', '01 c200 00', '01 e14180 00', '01 e18041 00', '01 e180c0 00', '01 e10000 00'],
    'cut': ['', '80', '01', '01 61', '01 c2', '01 c280', '01 e0', '01 e0a0', '01 e0a080'],
    'the end comes first, or a fault': ['01 e041', '01 c0', '02 c081', '02 61c2', '02 80c2', '05 6162'],
    'length': ['00 00', '8000 00', '02 61 00', '01 6162 00', '00 61 00', '02 c280 00', '8201' + '61' * 130 + '00', '03 61c080efbfbf 00 61'],
    'length malformed': ['8080808010 00', 'ffffffff0f 00'],
}
ORDERS = [('c080', '01'), ('01', 'c080'), ('61c080', '6101'), ('c080', ''), ('c080', 'c280'), ('61', '6162'), ('6162', '61'), ('6162', '6162'), ('', ''),
          # by units, not by code points: a pair of surrogates stands before ef bf bf
          ('eda080', 'efbfbf'), ('edbfbf', 'efbfbf'), ('eda080edb080', 'efbfbf'), ('efbfbf', 'eda080'), ('7f', 'c280'), ('dfbf', 'e0a080'), ('c281', 'c280'), ('e18080', 'e18180'),
          ('e18081', 'e18080')]


def units(text):
    """One character for each unit: Python's codec takes a surrogate for a character where it is told to."""
    return text.replace(b'\xc0\x80', b'\0').decode('utf-8', 'surrogatepass')


def length(s, at):
    """The stored length, and where it ends."""
    got = LENGTH.match(s, at)
    if not got:
        raise Refused(10 if len(s) - at > 4 else 9, at)
    rule(len(got[0]) < 5 or got[0][4] < 0x10, 10, at)
    return int(''.join(f'{b & 0x7f:07b}' for b in reversed(got[0])), 2), got.end()


def read(s, at):
    """Where the text begins, its length in bytes and in units."""
    stored, start = length(s, at)
    text = FORMS.match(s, start)[0]
    rest = s[start + len(text):]
    wanted = 1 if not rest else 2 if rest[0] & 0xe0 == 0xc0 else 3 if rest[0] & 0xf0 == 0xe0 else 0
    rule(len(rest) >= wanted, 9, at)
    rule(rest[0] == 0 and stored == len(units(text)), 14, at)
    return start, len(text), stored


def items():
    for name, cases in READ.items():
        for case in cases:
            s = b'zz' + bytes.fromhex(case)
            q = item(f'text, {name}: {case[:60]}', s)
            q.row('string_at', 2, words=lambda: read(s, 2))
            yield q
    q = item('text past the end', b'zz')
    q.row('string_at', 9, words=lambda: read(b'zz', 9))
    yield q
    for a, b in ORDERS:
        one, other = bytes.fromhex(a), bytes.fromhex(b)
        q = item(f'texts {a} and {b}', one + other)
        q.row('compare', len(one), len(other), words={0: 0, 1: (units(one) > units(other)) - (units(one) < units(other)) + 1})
        yield q
