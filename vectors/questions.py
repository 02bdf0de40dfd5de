"""Questions to the readers, and the lines that crates/readers_run (whole files) and crates/items_run (items by themselves) must write.

A program's standard input: the number of files or items (4 bytes, low first, as all numbers here), then each: the length of what follows its head (4 bytes),
the length of its label and of its bytes (2 bytes each); then the label, for an item what it is read against (16 bytes: the byte order, 0, and seven numbers of
2 bytes, where the data section starts and the counts), the bytes, and the questions. The program writes the label, then a line for each question.

A question: its reader's number (1 byte), which words of the answer are written (3 bytes, bit k for word k), the width of its numbers (1 byte: 1, 2 or 4), the
length of what follows them (1 byte), five numbers, then a path or a text. A path goes into a nested value: 255 asks for the size of the body that it is,
another byte for that value or element of it.

An answer is a row of words, as include/dralovika.h has them: 0 and the answer's, 1 for none, or 2 with a refusal's number and place. Of a reader that hands
out a part of the file, the part's bytes are written; of one with a lent output, the words and then all 18 bytes, or 8 units, that could have been lent, each
77 before the call; the fourth number says how many of them were lent."""
from dexfile import Refused
from whole import verdict

NOTHING = 2 ** 64 - 1


def numbered(groups):
    return {name: first + k for first, names in groups.items() for k, name in enumerate(names.split())}


READERS = numbered({
    0: 'check header map_count map_entry handle_count handle', 8: 'string type_name proto parameter_count parameter field method',
    16: 'class interface_count interface class_data member static_value_count static_value',
    24: 'code try_item covering_try handler_count handler handler_pair debug debug_parameter', 32: 'directory field_entry method_entry parameter_entry parameter_set_count',
    40: 'class_annotation_count field_annotation_count method_annotation_count parameter_annotation_count',
    44: 'class_annotation_place field_annotation_place method_annotation_place parameter_annotation_place',
    48: 'array array_value annotation_body annotation_body_element annotation annotation_element static_field wrong_kind',
    # the annotation that the four readers before give the place of, and its element e
    56: 'class_item field_item method_item parameter_item class_element field_element method_element parameter_element',
    64: 'signature string_bytes line_program find_string class_flags member_flags units'})
ITEMS = numbered({
    0: 'uleb sleb uleb_p1 string_at compare', 6: 'flags units', 8: 'decode_at value array_count array_value annotation_head annotation_body_element',
    16: 'debug_at name_at class_data_at member_at code_at try_at handler_at pair_at covering_try',
    32: 'annotation_item annotation annotation_element set_count set_offset reference_count reference_offset', 39: 'directory directory_entry check_set check_references check_directory'})


def told(question):
    """The row of an answer: `question` gives its words, None, or a refusal."""
    try:
        words = question()
    except Refused as r:
        return {0: 2, 1: r.number, 2: r.place}
    if words is None:
        return {0: 1}
    return dict(enumerate([0, *words]))


def numbers(count):
    """Every number below a count, and one too many; 0 where the count is refused."""
    try:
        return range(count() + 1)
    except Refused:
        return range(1)


def part(question):
    """The bytes that a reader hands out: none where there is no answer."""
    try:
        return question() or b''
    except Refused:
        return b''


class Questions:
    """Bytes and the questions about them."""
    readers = ITEMS

    def __init__(self, label, data, frame=b''):
        self.label, self.frame, self.data, self.asked, self.lines = label.encode(), frame, data, b'', label + '\n'

    def ask(self, reader, numbers, line, mask=0, rest=b''):
        numbers = [*numbers, 0, 0, 0, 0, 0][:5]
        width = 1 if max(numbers) < 2 ** 8 else 2 if max(numbers) < 2 ** 16 else 4
        self.asked += bytes([self.readers[reader]]) + mask.to_bytes(3, 'little') + bytes([width, len(rest)]) + b''.join(n.to_bytes(width, 'little') for n in numbers) + bytes(rest)
        self.lines += ''.join(f'{n} ' for n in line) + '\n'

    def row(self, reader, *numbers, words, path=(), text=b''):
        """`words` maps a word's number to what it must be, or is the question that `told` asks."""
        words = told(words) if callable(words) else words
        self.ask(reader, numbers, [words[k] for k in sorted(words)], sum(1 << k for k in words), text or bytes(path))

    def part(self, reader, *numbers, data):
        self.ask(reader, numbers, part(data) if callable(data) else data)

    def output(self, reader, *numbers, room, values):
        """`values` are those that are written where all goes well."""
        whole = [77] * (8 if reader == 'units' else 18)

        def answer():
            got = values()
            if got is not None:
                if len(got) > room:
                    raise Refused(19)
                whole[:len(got)] = got
            return None if got is None else [len(got)]
        row = told(answer)
        self.ask(reader, (*numbers, 0, 0, 0)[:3] + (room,), [*(row[k] for k in sorted(row)), *whole], sum(1 << k for k in row))

    def written(self):
        size = len(self.label) + len(self.frame) + len(self.data) + len(self.asked)
        assert size <= 65536, self.label
        return size.to_bytes(4, 'little') + len(self.label).to_bytes(2, 'little') + len(self.data).to_bytes(2, 'little') + self.label + self.frame + self.data + self.asked


class File(Questions):
    """A file and its questions. Of every file the whole check is asked, and vectors/whole.py says what it answers."""
    readers = READERS

    def __init__(self, label, data):
        super().__init__(label, data)
        said = verdict(data)
        self.row('check', words={0: 2, 1: said.number, 2: said.place} if isinstance(said, Refused) else {0: 0})


def item(label, data, order='little', start=0, strings=0, types=0, protos=0, fields=0, methods=0, handles=0):
    counts = (start, strings, types, protos, fields, methods, handles)
    return Questions(label, data, bytes([order == 'big', 0]) + b''.join(n.to_bytes(2, 'little') for n in counts))


def write(crate, asked):
    asked = list(asked)
    open(f'crates/{crate}/stdin', 'wb').write(len(asked).to_bytes(4, 'little') + b''.join(a.written() for a in asked))
    open(f'crates/{crate}/stdout', 'w').write(''.join(a.lines for a in asked))
