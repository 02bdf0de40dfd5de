#!/usr/bin/env python3
"""Holds include/dralovika.h to the code, and says where the two differ.

    examples/header.py CHECK        (functions, readers, words, kinds, refusals or constants; `names` prints the functions that the header declares)

What the code writes is read from its text: the exported functions of crates/dralovika/src with their contracts, the words that those cite in
crates/answer_rows/specs/Words.antt, to which the rows of answer_rows are proved equal, and the places where the code has a number of its own."""
import pathlib, re, sys

root = pathlib.Path(__file__).resolve().parent.parent


def text(pattern):
    return '\n'.join(path.read_text() for path in sorted(root.glob(pattern)))


def one(pattern, where):
    """The one piece of a text that a pattern finds."""
    found = re.findall(pattern, where, re.S | re.M)
    if len(found) != 1:
        sys.exit(f'{len(found)} pieces and not one are like {pattern}')
    return found[0]


header = text('include/dralovika.h')
plain = re.sub(r'/\*.*?\*/', ' ', header, flags=re.S)
macros = dict(re.findall(r'^#define (DRALOVIKA_\w+) (.+)$', plain, re.M))
plain = re.sub(r'^#.*$', '', plain, flags=re.M)
ENUM = r'enum dralovika_(\w+) \{(.*?)\};'
enums = {tag: {name: int(number, 0) for name, number in re.findall(r'(\w+) = (\w+)', body)} for tag, body in re.findall(ENUM, plain, re.S)}


def declared():
    """The header's functions with their parameters. What is left of the header when enums and comments are gone must be functions."""
    rest = re.sub(ENUM, '', plain, flags=re.S)
    rest = one(r'\A\s*extern "C" \{(.*)\}\s*\Z', rest)
    found = {}
    for piece in filter(None, (' '.join(p.split()) for p in rest.split(';'))):
        m = re.fullmatch(r'void dralovika_(\w+)\(([^()]*)\)', piece)
        if not m or m[1] in found:
            sys.exit(f'not a declaration of a function of its own: {piece}')
        found[m[1]] = m[2]
    return found


def exported():
    """The exported functions with their parameters and their contracts, as they are written."""
    code = text('crates/dralovika/src/*.rt')
    found = re.findall(r'#\[unsafe\(no_mangle\)\]\npub extern "C" fn dralovika_(\w+)\((.*?)\)\n(    ensures.*?)\n\{', code, re.S)
    if len(found) != code.count('no_mangle') or len(found) != code.count('extern "C"'):
        sys.exit('an exported function is not understood')
    return {name: (parameters, contract) for name, parameters, contract in found}


def parameter(written):
    """A parameter as C has it: a slice is a pointer and a length, or the room of an output; an array is as long as it says."""
    name, kind = written.split(': ')
    if kind in ('u32', 'usize'):
        return {'u32': 'uint32_t', 'usize': 'size_t'}[kind] + ' ' + name
    mutable, bits, count = re.fullmatch(r'&(mut )?\[u(\d+)(?:; (\d+))?\]', kind).groups()
    unit = f'uint{bits}_t' if mutable else f'const uint{bits}_t'
    if count:
        return f'{unit} {name}[{"DRALOVIKA_WORDS" if count == macros["DRALOVIKA_WORDS"] else count}]'
    if mutable:
        return f'{unit} *{name}, size_t room'
    return f'{unit} *file, size_t length' if name == 'f' else f'{unit} *{name}, size_t {name}_length'


def differences(what, here, there):
    """Two dictionaries, the header's and the code's."""
    return [f'{what} {key}: the header has {here.get(key)}, the code {there.get(key)}' for key in sorted({*here, *there}, key=str) if here.get(key) != there.get(key)]


def functions():
    ours = {name: ', '.join(parameter(p.strip()) for p in parameters.split(',') if p.strip()) for name, (parameters, _) in exported().items()}
    return differences('function', declared(), ours)


def readers():
    """Every public function of `dex` is declared under its name, or the header says which function answers for it."""
    handed = re.findall(r'^pub use \w+::(?:(\w+)|\{(.*?)\});$', text('crates/dex/src/lib.rt'), re.S | re.M)
    public = {name for alone, several in handed for name in re.findall(r'\w+', alone or several) if name[0].islower()}
    instead = dict(re.findall(r'dex::(\w+) is dralovika_(\w+)', ' '.join(header.replace(' * ', ' ').split())))
    names = set(declared())
    wrong = [f'dex::{name} is not there' for name in sorted(public - names) if instead.get(name) not in names]
    wrong += [f'dralovika_{name} is no function of dex' for name in sorted(names - public)]
    return wrong + [f'dex::{name}, of which the header speaks, is not public' for name in sorted(set(instead) - public)]


# What a word is called in the header where it is not called as in the code.
CALLED = {'kind': ['TYPE', 'PROTO'], 'type_index': ['TYPE'], 'class': ['TYPE'], 'start': ['PLACE'], 'offset': ['PLACE'], 'from': ['FIRST_TRY'], 'base': ['HANDLER_LIST'],
          'handler': ['HANDLER_OFFSET'], 'first_word': ['NUMBER'], 'second_word': ['LENGTH'], '12': ['PLACE'], '20': ['LENGTH'], 'n': ['NUMBER'], 'o': ['NUMBER']}
# Words that several functions answer, and the enums that have them.
SHARED = {'number': ['number'], 'option': ['number'], 'value': ['value'], 'element': ['value', 'element'], 'static': ['value', 'static'], 'place': ['entry'], 'no': []}


def words_of(name):
    """What the code calls the words of an answer, in their order."""
    specs = text('crates/answer_rows/specs/Words.antt')
    body = one(rf'^{name}_words [^=\n]*=\s(.*?)\n(?:\n|\Z)', specs).strip()
    other = re.match(r'(\w+)_words ', body)
    if other:
        return words_of(other[1])
    items = [item.strip() for item in body.split('∷')]
    if items.pop() != '[]':
        sys.exit(f'{name}_words is not understood')
    return [word_of(item) for item in items]


def word_of(item):
    """`h.strings.count` is strings_count, `o.head.units` units."""
    if item.startswith(('first_word', 'second_word')):
        return item.split()[0]
    path = re.findall(r'\w+', item.replace('option_word', '').replace('truth_word', ''))
    inner = [p for p in path[1:] if p not in ('head', 'attempt')]
    return '_'.join(inner) if inner else path[0]


def names_of(word):
    """How the name of a word in the header may end."""
    *before, last = word.rsplit('_', 1) if word.endswith(('_count', '_offset')) else [word]
    return ['_'.join([*before, end]).upper() for end in [last, *CALLED.get(last, [])]]


def words():
    wrong, used = [], {'status', 'refused'}
    for function, (_, contract) in exported().items():
        name = one(r'told(?:_if)? (\w+)_words', contract)
        tags = [function] if f'{function}_words' in enums else SHARED.get(name)
        if tags is None:
            wrong.append(f'dralovika_{function}: no enum dralovika_{function}_words')
            continue
        used |= set(tags)
        here = {position: enumerator for tag in tags for enumerator, position in enums[f'{tag}_words'].items()}
        there = dict(enumerate(words_of(name), 1))
        for position in sorted({*here, *there}):
            if position not in here or position not in there or not any(here[position].endswith('_' + end) for end in names_of(there[position])):
                wrong.append(f'dralovika_{function}, word {position}: the header has {here.get(position)}, the code {there.get(position)}')
    wrong += [f'enum dralovika_{tag} is of no function' for tag in enums if tag.endswith('_words') and tag[:-6] not in used]
    row = one(r'^refusal_row r = row \((.*?)\)$', text('crates/answer_rows/specs/Words.antt'))
    number, *rest = (item.strip() for item in row.split('∷'))
    wrong += differences('word', enums['refused_words'], {f'DRALOVIKA_REFUSED_{word_of(item).upper()}': n for n, item in enumerate(rest[:-1], 1)})
    says = text('crates/answer_rows/specs/Words.antt')
    answer, none = one(r'^told words \(answer a\) = row \((\d+) ∷', says), one(r'^told_if words \(answer none\) = row \((\d+) ∷', says)
    wrong += differences('status', enums['status'], {'DRALOVIKA_ANSWER': int(answer), 'DRALOVIKA_NONE': int(none), 'DRALOVIKA_REFUSED': int(number)})
    return wrong + differences('word', enums['status_words'], {'DRALOVIKA_STATUS': 0})


def kinds():
    """Numbers of kinds: answer_rows writes them, but for an index, whose kind is its code; value_heads says which table a code is of, and an enum is a field."""
    arms = re.findall(r'^        Value::(\w+).*? => four\(\s*(\w+)', text('crates/answer_rows/src/words.rt'), re.M)
    code = {name.upper(): int(number, 0) for name, number in arms if number[0].isdigit()}
    if [name for name, number in arms if not number[0].isdigit()] != ['Index']:
        return ['the rows of values are not understood']
    heads = text('crates/value_heads/src/lib.rt')
    first, last = one(r'^pub fn is_index_code[^}]*\}\n\{\s*matches!\(code, (\w+)\.\.=(\w+)\)\n\}', heads)
    limits = one(r'^fn limit_of(.*?)^\}', heads)
    tables = {int(number, 0): table for number, table in re.findall(r'^        (0x\w+) => w\.(\w+),$', limits, re.M)}
    fields = [number for number in range(int(first, 0), int(last, 0) + 1) if number not in tables]
    if one(r'^        _ => w\.(\w+),$', limits) != 'fields' or len(fields) != 2:
        return ['the codes of indices are not understood']
    code.update({table[:-1].upper(): number for number, table in tables.items()}, FIELD=fields[0], ENUM=fields[1])
    return differences('kind', enums['value_kind'], {'DRALOVIKA_KIND_' + name: number for name, number in code.items()})


def refusals():
    """Each number that the code refuses with, all of which are made in one crate, has a name, and there are no others."""
    code = {int(number) for number in re.findall(r'\bnumber: (\d+)\b', text('crates/refusal/src/*.rt'))}
    return differences('refusal', {n: True for n in enums['refusal'].values()}, {n: True for n in code}) + [
        f'{name} has a number that another has' for name, n in enums['refusal'].items() if list(enums['refusal'].values()).count(n) > 1]


def constants():
    code = {
        'DRALOVIKA_WORDS': one(r'^row ws = padded (\d+) ws$', text('crates/answer_rows/specs/Words.antt')),
        'DRALOVIKA_FLAGS_ROOM': one(r'^flag_bits = (\d+)$', text('crates/access_flags/specs/Flags.antt')),
        'DRALOVIKA_LONGEST': one(r'if (\d+) < f\.len\(\)', text('crates/header/src/lib.rt')),
        'DRALOVIKA_NOTHING': {str(2**64 - 1): 'UINT64_MAX'}.get(one(r'^no_number = (\d+)$', text('crates/answer_rows/specs/Words.antt'))),
        'DRALOVIKA_VERSION': '"' + '.'.join(macros['DRALOVIKA_VERSION_' + part] for part in ('MAJOR', 'MINOR', 'PATCH')) + '"',
    }
    wrong = differences('constant', {name: macros.get(name) for name in code}, code)
    lists = re.findall(r'^        (\d) => c\.(\w+),$', one(r'^fn count_in(.*?)^\}', text('crates/class_data/src/lib.rt')), re.M)
    names = {'statics': 'STATIC_FIELDS', 'instances': 'INSTANCE_FIELDS', 'directs': 'DIRECT_METHODS', 'virtuals': 'VIRTUAL_METHODS'}
    wrong += differences('list', enums['list'], {'DRALOVIKA_LIST_' + names[field]: int(number) for number, field in lists})
    orders = re.findall(r'Endian::(\w+) => (\d),', one(r'^fn order_word(.*?)^\}', text('crates/answer_rows/src/heads.rt')))
    return wrong + differences('order', enums['byte_order'], {'DRALOVIKA_' + name.upper(): int(number) for name, number in orders})


checks = {check.__name__: check for check in (functions, readers, words, kinds, refusals, constants)}
asked = sys.argv[1] if len(sys.argv) == 2 else ''
if asked == 'names':
    print(*sorted('dralovika_' + name for name in declared()), sep='\n')
elif asked in checks:
    found = checks[asked]()
    print(*found, sep='\n', end='\n' if found else '')
    sys.exit(1 if found else 0)
else:
    sys.exit(__doc__)
