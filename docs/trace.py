#!/usr/bin/env python3
"""Holds docs/TRACE.md to document 01 and to the tree.

    docs/trace.py DOCUMENT             (from the repository's root; or SHARED=DIR, for DIR/docs/01-scope.md)
    docs/trace.py                      the names alone, where document 01 is not at hand
    docs/trace.py --list DOCUMENT      prints the sentences, one a line, and nothing else

It fails, and names each of these:
- a sentence of document 01 that no row quotes. A row of a table and a block of code are sentences, headings are not. The cells of a row are joined by ': ';
- a quote that is the beginning of no sentence, or of several. In the first column each quote stands in double quotes and begins where its sentence does; '..' leaves something out. Quotation marks and backticks count for nothing. Rows that begin with
  'demand' quote another paper, and are not looked up;
- a name that is not there. In the columns 'definition' and 'contract or theorem' a crate's name, or a crate's name and a file such as specs/Rules, stands in front of the first of its names: leb128 specs/Leb `uleb_at`, `sleb_at`. Each is a declaration of that crate (of
  that file): of specs/, of proofs/, or a function, type or constant of src/. `T .x` is the field x of T, `f 5` is f, and `crate::f` is a function. In the column 'test' a crate stands in front of its labels, which are those of its stdout, or files of its data/. In the
  last column a crate stands in front of its edits, which are files of must-fail/ or wrong/. Paths such as docs/LOOSE.md are looked for too;
- a row that says nothing but its sentence, or that has more or fewer columns than its table;
- in the table 'function of `dex`', a name that is no public function of `dex` or that promises does not declare, and a public function of `dex` that no row has."""
import fnmatch
import glob
import os
import re
import sys

CRATES = {os.path.basename(os.path.dirname(p)) for p in glob.glob('crates/*/src')}
# What a function's proof declares are Rattle's own names.
FUNCTION_PROOF = re.compile(r'/proofs/.+/(?:Answers|Invariants|Proof)\.antt$')
PATH = re.compile(r'\b(?:docs|compare|vectors|include|crates|tools)/[\w./-]*\w|\b(?:README|CONTRIBUTING)\.md')
NAMES = re.compile(r'(?:(?<![\w:/`])(?P<crate>[a-z]\w*) )?(?:(?P<file>(?:specs|proofs)/\w+) )?`(?P<name>[^`]+)`')


def sentences(text):
    found = []
    lines = text.split('\n')
    at = 0
    while at < len(lines):
        line = lines[at]
        if line.startswith('```'):
            end = lines.index('```', at + 1)
            found.append(' '.join(lines[at + 1:end]))
            at = end
        elif line.startswith('|') and at + 1 < len(lines) and re.fullmatch(r'\|[-| ]+\|', lines[at + 1]):
            at += 1
        elif line.startswith('|'):
            found.append(': '.join(cell.strip() for cell in line.strip().strip('|').split('|')))
        elif line.strip() and not line.startswith('#'):
            found += re.split(r'(?<=[.!?])\s+(?=[A-Z0-9"`(])', re.sub(r'^- ', '', line.strip()))
        at += 1
    return found


def plain(text):
    return re.sub(r'\s+', ' ', re.sub(r'["\'`*]', '', text)).strip().rstrip('.:')


def quoted(quote, sentence):
    """Is the quote this sentence, from its beginning on, with something left out where '..' stands."""
    parts = [plain(part) for part in re.split(r'\.\.', quote)]
    rest = plain(sentence)
    if not rest.startswith(parts[0]):
        return False
    rest = rest[len(parts[0]):]
    for part in parts[1:]:
        if part not in rest:
            return False
        rest = rest[rest.index(part) + len(part):]
    return parts[-1] == '' or rest == '' or plain(sentence).endswith(parts[-1])


def rows(text):
    """The cells of each row of a table, with the row's line number and the cells of the table's first row."""
    head = None
    for number, line in enumerate(text.split('\n'), 1):
        cells = [cell.strip() for cell in line.strip().split('|')[1:-1]]
        if not line.startswith('|'):
            head = None
        elif head is None:
            head = cells
        elif not re.fullmatch(r'-+', cells[0]):
            yield number, head, cells


def declared(crate, cache={}):
    """The names that a crate declares: name -> the files in which it does."""
    if crate not in cache:
        names = cache[crate] = {}
        for path in (p for part in ('src/**/*.rt', 'specs/**/*.antt', 'proofs/**/*.antt') for p in glob.glob(f'crates/{crate}/{part}', recursive=True)):
            if FUNCTION_PROOF.search(path):
                continue
            for line in open(path):
                if path.endswith('.rt'):
                    found = re.match(r'\s*(?:pub(?:\(crate\))? )?(?:extern "C" )?(?:fn|struct|enum|const|type) (\w+)', line)
                else:
                    found = re.match(r'\s*(?:(?:pub|abbrev|unfoldable) )*(?:(?:record|data|ruleset) )(\S+)', line) or re.match(r'\s*(?:(?:pub|abbrev|unfoldable) )*([^\s(){}=:]+) :(?:\s|$)', line)
                if found:
                    names.setdefault(found[1], set()).add(path)
    return cache[crate]


def handed_out():
    """What crate dex hands out: `pub use crate::name;` and `pub use crate::{name, name};`."""
    lines = re.findall(r'^pub use \w+::(?:(\w+)|\{([^}]*)\});$', open('crates/dex/src/lib.rt').read(), re.M)
    return [name for one, several in lines for name in re.findall(r'\w+', one or several)]


def public(crate, name):
    if crate == 'dex':
        return name in handed_out()
    return any(p.endswith('.rt') for p in declared(crate).get(name, ()))


def wrong_name(crate, file, name):
    """What is wrong with a name of the second or third column, or nothing."""
    if '::' in name:
        crate, _, name = name.rpartition('::')
        return '' if crate in CRATES and public(crate, name) else f'no function {crate}::{name}'
    if crate is None:
        return f'no crate stands in front of `{name}`'
    if crate not in CRATES:
        return f'no crate {crate}'
    word, _, field = name.partition(' .')
    for one in [word.split()[0]] + ([field.split()[0]] if field else []):
        places = declared(crate).get(one, ())
        if not any(not file or p.startswith(f'crates/{crate}/{file}.') for p in places):
            return f'{crate} {file or ""} declares no `{one}`'
    return ''


def wrong_label(crate, label):
    if crate not in CRATES:
        return f'no crate {crate} in front of `{label}`'
    shape = label.replace('..', '*')
    data = [os.path.basename(p) for p in glob.glob(f'crates/{crate}/data/*')]
    out = f'crates/{crate}/stdout'
    lines = open(out).read().split('\n') if os.path.exists(out) else []
    if any(fnmatch.fnmatchcase(d, shape + '*') for d in data) or any(fnmatch.fnmatchcase(x, shape) or fnmatch.fnmatchcase(x, shape + ', *') for x in lines):
        return ''
    return f'{crate} has no label `{label}`'


def wrong_edit(crate, edit):
    where = f'crates/{crate or "*"}'
    if glob.glob(f'{where}/must-fail/{edit}.edit') + glob.glob(f'{where}/wrong/{edit}.edit'):
        return ''
    return f'{crate or "no crate"} has no edit `{edit}`'


def wrong_names(cells):
    """What is wrong with the names of a row."""
    for column, cell in enumerate(cells):
        if column == 0:
            continue
        for path in PATH.findall(cell):
            if not os.path.exists(path):
                yield f'no file {path}'
        crate = file = None
        for m in NAMES.finditer(cell):
            if m['crate'] in CRATES or column > 2 and m['crate']:
                crate, file = m['crate'], None
            file = m['file'] or file
            said = wrong_name(crate, file, m['name']) if column < 3 else wrong_label(crate, m['name']) if column == 3 else wrong_edit(crate, m['name'])
            if said:
                yield said
        if column > 2:
            for word in re.findall(r'[a-z]\w+', PATH.sub('', re.sub(r'`[^`]*`', '', cell))):
                if word not in CRATES:
                    yield f'no crate {word}'


def wrong_readers(cells):
    """What is wrong with a row of the table of `dex`'s functions: those functions, and clauses of promises, as `Record .field` or `.field`."""
    for name in re.findall(r'\w+', cells[0]):
        if not public('dex', name):
            yield f'no function dex::{name}'
    for name in re.findall(r'`([^`]+)`', ' '.join(cells[1:])):
        for one in name.split():
            if one.lstrip('.') not in declared('promises'):
                yield f'promises declares no `{one}`'


def main():
    words = [a for a in sys.argv[1:] if not a.startswith('-')]
    if '-h' in sys.argv or '--help' in sys.argv:
        sys.exit(print(__doc__))
    document = words[0] if words else os.environ.get('SHARED') and os.path.join(os.environ['SHARED'], 'docs/01-scope.md')
    told = sentences(open(document).read()) if document else []
    if '--list' in sys.argv:
        sys.exit(print('\n'.join(told)))
    faults = []
    quotes = {n: 0 for n in range(len(told))}
    trace, readers = [], []
    for number, head, cells in rows(open('docs/TRACE.md').read()):
        if len(cells) != len(head):
            faults.append(f'docs/TRACE.md:{number}: {len(cells)} columns and not {len(head)}')
        elif len(head) == 5:
            trace.append((number, cells))
        elif head[0] == 'function of `dex`':
            faults += [f'docs/TRACE.md:{number}: {said}' for said in wrong_readers(cells)]
            readers += re.findall(r'\w+', cells[0])
    faults += [f'no row has dex::{name}' for name in handed_out() if name[0].islower() and name not in readers]
    for number, cells in trace:
        faults += [f'docs/TRACE.md:{number}: {said}' for said in wrong_names(cells)]
        if not any(cells[1:]):
            faults.append(f'docs/TRACE.md:{number}: nothing stands beside the sentence')
        if told and not cells[0].startswith('demand'):
            for quote in re.findall(r'"([^"]*)"', cells[0]):
                met = [n for n, sentence in enumerate(told) if quoted(quote, sentence)]
                for n in met:
                    quotes[n] += 1
                if len(met) != 1:
                    faults.append(f'docs/TRACE.md:{number}: {"several sentences begin" if met else "no sentence begins"} like this: {quote}')
    faults += [f'no row quotes: {told[n]}' for n in quotes if not quotes[n]]
    print('\n'.join(faults + [f'{len(trace)} rows, {len(told)} sentences, {len(faults)} faults' + ('' if document else ' (names alone: document 01 was not given)')]))
    sys.exit(bool(faults))


main()
