"""Document 01's rules on annotation items, sets, reference lists and directories, told once more in Python; and cases of them."""
from dexfile import kth, rule
from questions import item
from values import Section

START, COUNTS = 4, {'strings': 5, 'types': 6, 'protos': 7, 'fields': 2, 'methods': 3, 'handles': 1}
FIELDS, METHODS = COUNTS['fields'], COUNTS['methods']


class Items(Section):
    def __init__(self, data, order, start=START, counts=COUNTS):
        super().__init__(data, order, start, counts)

    # ---- items by their own rules
    def item(self, item):
        visibility = self.bytes(item, 1, item)[0]
        rule(visibility <= 2, 18, item)
        return visibility, *self.body(item + 1, item, 1)[:2]

    def offset(self, x, item, four, absent):
        rule(absent and x == 0 or self.start <= x < len(self.data) and (x % 4 == 0 or not four), 8, item)
        return x

    def offsets(self, item, four, absent):
        count = self.word(item, item)
        self.bytes(item + 4, 4 * count, item)
        return [self.offset(self.word(item + 4 + 4 * k, item), item, four, absent) for k in range(count)]

    def set(self, item):
        return self.offsets(item, four=False, absent=False)

    def references(self, item):
        return self.offsets(item, four=True, absent=True)

    def directory(self, item):
        own = self.offset(self.word(item, item), item, True, True)
        counts = [self.word(item + 4, item), self.word(item + 8, item), self.word(item + 12, item)]
        at, lists = item + 16, []
        for count, limit in zip(counts, ('fields', 'methods', 'methods')):
            self.bytes(at, 8 * count, item)
            lists.append([self.entry(at + 8 * k, self.counts[limit], item) for k in range(count)])
            at += 8 * count
        return own, lists

    def entry(self, p, limit, item):
        index = self.word(p, item)
        rule(index < limit, 11, item)
        return index, self.offset(self.word(p + 4, item), item, True, False)

    # ---- with all below
    def set_below(self, item):
        for place in self.set(item):
            self.item(place)

    def references_below(self, item):
        for place in self.references(item):
            if place:
                self.set_below(place)

    def directory_below(self, item):
        own, (fields, methods, parameters) = self.directory(item)
        if own:
            self.set_below(own)
        for _, place in fields + methods:
            self.set_below(place)
        for _, place in parameters:
            self.references_below(place)


KINDS = ('annotation_item', 'annotation', 'annotation_element', 'set_count', 'set_offset', 'reference_count', 'reference_offset', 'directory', 'directory_entry', 'check_set', 'check_references',
         'check_directory')


def said(file, question, item, which, k):
    if question in (0, 1, 2):
        visibility, kind, elements = file.item(item)
        return ([visibility], (visibility, kind, len(elements)), None)[question] or kth(elements, k)
    if question in (3, 5):
        return [len(file.set(item) if question == 3 else file.references(item))]
    if question in (4, 6):
        return [kth(file.set(item) if question == 4 else file.references(item), k)]
    if question in (7, 8):
        own, lists = file.directory(item)
        return (own, *map(len, lists)) if question == 7 else kth(lists[which] if which < 3 else [], k)
    (file.set_below, file.references_below, file.directory_below)[question - 9](item)
    return []


# ---- the cases: parts of a file, laid out in order from place 4 on, each at a multiple of 4 where it is a list
PLAIN = bytes([1, 2, 1, 3, 0x04, 9])                                                   # visibility 1, type 2, element 3: int 9
EMPTY = bytes([0, 5, 0])                                                               # no elements
NESTED = bytes([2, 0, 1, 4, 0x1c, 2, 0x1d, 1, 1, 0, 0x1e, 0x17, 4])                    # an annotation in an array in an annotation
CASES = []


def ask(name, order, questions, data, at=4, ks=(0,), lists=(0,)):
    """`lists` are asked of a directory's entries, `ks` of what is asked by number."""
    order = ('little', 'big')[order]
    q, file = item(f'{name}, {order}', data, order, START, **COUNTS), Items(data, order)
    for question in questions:
        for which in lists if question == 8 else (0,):
            for k in ks if question in (2, 4, 6, 8) else (0,):
                numbers = (which, k) if question == 8 else (k,)
                q.row(KINDS[question], at, *numbers, words=lambda: said(file, question, at, which, k))
    CASES.append(q)


def single():
    for name, data in (('plain', PLAIN), ('no elements', EMPTY), ('nested', NESTED), ('visibility 3', b'\3' + PLAIN[1:]), ('visibility 255', b'\xff' + PLAIN[1:]),
                       ('visibility 3 alone', b'\3'), ('no byte', b''), ('visibility alone', b'\0'), ('type 5', b'\0\5\0'), ('type 6', b'\0\6\0'), ('no size', b'\0\5'),
                       ('name 4', bytes([0, 0, 1, 4, 0x1e])), ('name 5', bytes([0, 0, 1, 5, 0x1e])), ('no name', b'\0\0\1'), ('no value', b'\0\0\1\0'),
                       ('code 01', bytes([0, 0, 1, 0, 1])), ('value cut', bytes([0, 0, 1, 0, 0x24, 1])), ('second wrong', bytes([0, 0, 2, 0, 0x1e, 0, 0x3e])),
                       ('type malformed', b'\0\x80\x80\x80\x80\x10'), ('type 6, size missing', b'\0\6'), ('visibility 3, type 6', b'\3\6\0'), ('index 4', bytes([0, 0, 1, 0, 0x17, 5]))):
        ask(name, 0, (0, 1, 2), bytes(4) + data, ks=(0, 1))
    for depth in (64, 65):
        ask(f'depth {depth}', 0, (0, 1, 2), bytes(4) + bytes([0, 0, 1, 0]) + bytes([0x1c, 1]) * (depth - 2) + bytes([0x1c, 0]))
    ask('place past the end', 0, (0, 1, 2, 3, 5, 7, 9, 10, 11), bytes(8), at=200)
    ask('no alignment', 0, (0, 1, 2), bytes(7) + PLAIN, at=7)


def lists(order):
    word = lambda *ns: b''.join(n.to_bytes(4, ('little', 'big')[order]) for n in ns)
    file = lambda *ns: bytes(4) + word(*ns)
    tail = PLAIN + bytes(2) + EMPTY + bytes(1) + NESTED                  # behind a list of n offsets at 4: places 8 + 4 n, .. + 8, .. + 12
    both = (3, 4, 9, 5, 6, 10)
    sets, refs = (3, 4, 9), (5, 6, 10)
    for name, data in (('empty', file(0)), ('size cut', file(0)[:-1]), ('no size', file()), ('length short', file(2, 4)), ('length short by one', file(1, 4)[:-1]),
                       ('length huge', file(0xffffffff)), ('length before entries', file(2, 0x0fffffff)), ('one zero', file(1, 0)),
                       ('at the start', file(1, 4)), ('below the start', file(1, 3)), ('at the end', file(1, 12)), ('last byte', file(1, 11)), ('far', file(1, 0xffffffff)),
                       ('last one wrong', file(3, 8, 8, 99)), ('first one wrong', file(3, 99, 8, 8)), ('not a multiple', file(1, 9) + bytes(8)), ('last one zero', file(2, 12, 0) + bytes(4))):
        ask(name, order, both, data, ks=(1,))
    ask('three items', order, sets, file(3, 20, 28, 32) + tail, ks=(0, 1, 2, 3))
    ask('one item twice', order, sets, file(2, 16, 16) + PLAIN, ks=(0, 1, 2))
    ask('no multiple of 4 wanted', order, sets, file(1, 13) + b'\0' + PLAIN)
    ask('second item wrong', order, (3, 9), file(2, 16, 24) + PLAIN + bytes(2) + b'\3')
    ask('own rules before items', order, (3, 9), file(2, 16, 0) + b'\3')
    ask('first of two wrong items', order, (9,), file(2, 16, 17) + b'\3\3')
    # a reference list at 4 with absent sets, and sets behind it: an empty one at 24, one item at 28
    refs_file = file(4, 0, 24, 28, 0) + word(0) + word(1, 36) + PLAIN
    ask('absent kept', order, refs, refs_file, ks=(0, 1, 2, 3, 4))
    ask('all absent', order, refs, file(2, 0, 0), ks=(0, 1, 2))
    ask('a set twice', order, refs, file(2, 16, 16) + word(1, 24) + PLAIN, ks=(0, 1))
    ask('set cut', order, refs, file(2, 0, 16) + b'\0')
    ask('item of a set wrong', order, refs, file(2, 0, 16) + word(1, 24) + b'\3')
    ask('own rules before sets', order, refs, file(2, 16, 99) + word(9))
    ask('item of a set missing', order, (10,), file(2, 16, 0) + word(1, 0))


def directories(order):
    word = lambda *ns: b''.join(n.to_bytes(4, ('little', 'big')[order]) for n in ns)
    file = lambda *ns: bytes(4) + word(*ns)
    ks, whichs = (0, 1, 2), (0, 1, 2, 3)

    def all_of(name, data, questions=(7, 11)):
        ask(name, order, questions, data, ks=ks, lists=whichs)

    # sets behind a directory of n entries at 4: an empty set at 20 + 8 n, a set of one item behind it, a reference list, then the item
    def below(n, item=PLAIN):
        p = 20 + 8 * n
        return word(0) + word(1, p + 24) + word(2, 0, p + 4) + item

    all_of('empty', file(0, 0, 0, 0), (7, 8, 11))
    all_of('full', file(48 + 4, 1, 1, 2, 1, 52 + 0, 2, 52 + 4, 0, 52 + 12, 2, 52 + 12) + below(4), (7, 8, 11))
    all_of('full of many', file(0, 2, 1, 1, 0, 56, 1, 56, 2, 52, 1, 64) + below(4, NESTED), (7, 8, 11))
    for cut in (0, 3, 4, 7, 8, 11, 12, 15):
        all_of(f'head cut at {cut}', file(0, 0, 0, 0)[:4 + cut])
    for name, own in (('at the start', 4), ('below the start', 3), ('not a multiple', 6), ('at the end', 20), ('past the end', 24), ('last word', 16), ('far', 0xffffffff)):
        all_of(f'class set {name}', file(own, 0, 0, 0))
        all_of(f'class set {name}, then cut', file(own, 0, 0)[:-1])
    for which, limit in ((0, FIELDS), (1, METHODS), (2, METHODS)):
        counts = lambda n: [n if i == which else 0 for i in range(3)]
        all_of(f'list {which} short', file(0, *counts(1), 0))
        all_of(f'list {which} short by one', file(0, *counts(1), 0, 4)[:-1])
        all_of(f'list {which} huge', file(0, *counts(0xffffffff)))
        all_of(f'list {which} length before entries', file(0, *counts(2), 99, 99, 0))
        for index in (limit - 1, limit, 0xffffffff):
            all_of(f'list {which} index {index}', file(0, *counts(1), index, 28, 0))
        for offset in (0, 3, 4, 26, 28, 32, 0xffffffff):
            all_of(f'list {which} offset {offset}', file(0, *counts(1), 0, offset, 0))
        all_of(f'list {which} index before offset', file(0, *counts(1), limit, 0), (7,))
        all_of(f'list {which} second entry', file(0, *counts(2), 0, 36, limit, 36, 0))
        all_of(f'list {which} second offset', file(0, *counts(2), 0, 36, 0, 37, 0))
        all_of(f'list {which} set cut', file(0, *counts(1), 0, 28, 5), (11,))
        all_of(f'list {which} item wrong', file(0, *counts(1), 0, 28, 1, 36) + b'\3', (11,))
    all_of('fields before methods', file(0, 1, 1, 0, 2, 4, 3, 4))
    all_of('field entry before methods length', file(0, 1, 1, 0, 2, 4))
    all_of('methods length before field sets', file(0, 1, 1, 0, 0, 24))
    all_of('parameters length before method sets', file(0, 0, 1, 1, 0, 24))
    all_of('index 2 is a method', file(0, 0, 1, 1, 2, 36, 2, 36, 0), (7, 8, 11))
    all_of('own rules before the class set', file(36, 1, 0, 0, 2, 36, 9))
    all_of('class set before fields', file(32, 1, 0, 0, 1, 28, 5, 7), (11,))
    all_of('fields before methods below', file(0, 1, 1, 0, 0, 36, 0, 40, 9, 9), (11,))
    all_of('methods before parameters below', file(0, 0, 1, 1, 0, 36, 0, 40, 9, 9), (11,))
    all_of('a set shared by two fields', file(0, 2, 0, 0, 0, 36, 1, 36) + word(1, 44) + PLAIN, (7, 8, 11))
    all_of('a wrong set shared by two fields', file(0, 2, 0, 0, 0, 36, 1, 36) + word(1, 44) + b'\3')
    all_of('a parameter takes a reference list', file(0, 0, 0, 1, 0, 28) + word(1, 36, 0))
    all_of('a field takes a set', file(0, 1, 0, 0, 0, 28) + word(1, 0))
    all_of('absent sets of a parameter', file(0, 0, 0, 1, 0, 28) + word(2, 0, 0))


def items():
    single()
    for order in (0, 1):
        lists(order)
        directories(order)
    return CASES
