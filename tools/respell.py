#!/usr/bin/env python3
"""Brings this repository's own names to today's spelling: words in snake case, types in camel case. Run once, at the top, right after port.py.

    python3 tools/respell.py

port.py turns the library's names and only some of ours. This turns every other name that specs/ or proofs/ declare: definitions, lemmas, fields, constructors, rulesets. It goes by
whole names: in .antt files everywhere, in .rt files outside comments and literals, in the lines old: and new: of edits, and between backticks in pages. Names of src/ stay."""
import collections
import glob
import os
import re

# Names that would fall together with another that stands beside them in some file, and what they are called in its place. A field or a lemma that tells of a definition of its name has _lem.
APART = {
    'memberOf': 'member_of_list', 'valueIn': 'static_value_in', 'entry-of': 'entry_under', 'try-of': 'linked_try', 'lists-below': 'lists_gone_over', 'In-range': 'IsInRange',
    **{n: n.replace('-', '_') + '_lem' for n in """annotation-count annotation-place array-of array-value body-of class-at class-content class-data class-flags class-set code-at covering-try entry-at
        find-string handle-count handler-count handler-pair interface-count line-program looked-up map-count map-entry member-content member-flags opened-within parameter-count
        parameter-set-count proto-at question-by set-count static-count static-field static-value type-name units-content wrong-kind return-type""".split()},
}
# .. but in these files nothing else has the plain name.
ALONE = {
    'static-count': ('static_count', 'crates/class_walk/', 'crates/promises/proofs/Statics.antt'),
    'body-of': ('body_of', 'crates/promises/specs/Methods.antt', 'crates/promises/proofs/Methods', 'crates/promises/proofs/Ruled.antt'),
}
# What port.py took for the library's.
BACK = {'own_val': 'own'}
TOKEN = re.compile(r"[^\s(){}\[\],;.:«»∥⌜⌝\"|`]+")
SIGNATURE = re.compile(r"^\s*(?:(?:pub|unfoldable|abbrev|axiom) )*((?:[^\s(){}\[\],;.:]+ )+):(?= |$)")
HEAD = re.compile(r"^\s*(?:pub )?(?:data|record|ruleset) (\S+)")
OUTSIDE = re.compile(r'//.*|b?"(?:[^"\\]|\\.)*"|b?\'(?:[^\'\\]|\\.)[^\']*\'')


def turned(name):
    if name[0].isupper():
        return ''.join(p[:1].upper() + p[1:] for p in name.split('-'))
    name = name.replace('getD', 'get_or').replace('′', "'")
    return re.sub(r'([a-z0-9])([A-Z])', lambda m: m[1] + '_' + m[2].lower(), name).replace('-', '_')


def declared(paths):
    found = collections.Counter()
    for path in paths:
        for line in open(path, encoding='utf-8'):
            if line.lstrip().startswith('--') or re.match(r'\s*(use|let|elim|in|λ)\b', line):
                continue
            m = SIGNATURE.match(line)
            found.update(m[1].split() if m else [])
            m = HEAD.match(line)
            found.update([m[1]] if m else [])
    return found


def main():
    antt = [p for part in ('specs', 'proofs') for p in sorted(glob.glob(f'crates/*/{part}/**/*.antt', recursive=True))]
    named = set(declared(p for p in antt if os.path.basename(p) != 'Proof.antt'))
    odd = {n for n in named if '-' in n or '′' in n or not n[0].isupper() and re.search(r'[a-z0-9][A-Z]', n)}
    new = {n: APART.get(n) or turned(n) for n in odd} | BACK

    def in_antt(text):
        return TOKEN.sub(lambda m: new.get(m[0], m[0]), text)

    def in_proof(text):
        """A function's proof file: the names that it declares itself are Rattle's."""
        own = {n for line in text.splitlines() for m in [SIGNATURE.match(line)] if m for n in m[1].split()}
        return TOKEN.sub(lambda m: m[0] if m[0] in own else new.get(m[0], m[0]), text)

    def in_ticks(text):
        return re.sub(r'`[^`\n]*`', lambda m: in_antt(m[0]), text)

    def in_rt(text):
        out, end = [], 0
        for m in OUTSIDE.finditer(text):
            out += [in_antt(text[end:m.start()]), in_ticks(m[0]) if m[0].startswith('//') else m[0]]
            end = m.end()
        return ''.join(out + [in_antt(text[end:])])

    def in_edit(text):
        return re.sub(r'^(?:old|new): .*$', lambda m: in_antt(m[0]), text, flags=re.M)

    for paths, turn in (
        (antt, None),
        (glob.glob('crates/*/src/**/*.rt', recursive=True), in_rt),
        (glob.glob('crates/*/must-fail/*.edit') + glob.glob('crates/*/wrong/*.edit'), in_edit),
        (['README.md', 'CONTRIBUTING.md'] + glob.glob('docs/**/*.md', recursive=True), in_ticks),
    ):
        for path in sorted(paths):
            with open(path, encoding='utf-8') as f:
                text = f.read()
            was = dict(new)
            new.update({n: to[0] for n, to in ALONE.items() if path.startswith(to[1:])})
            after = (turn or (in_proof if os.path.basename(path) == 'Proof.antt' else in_antt))(text)
            new.update(was)
            if after != text:
                with open(path, 'w', encoding='utf-8') as f:
                    f.write(after)
    for n in sorted(new):
        print(n, new[n])


main()
