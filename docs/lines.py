#!/usr/bin/env python3
"""Prints a table of lines, as docs/COSTS.md has one: code, specs, proofs by hand, and the functions' proof files (Answers.antt and Invariants.antt of each), which a tool writes.

    docs/lines.py            (from the repository's root)"""
import glob


def lines(pattern):
    return sum(1 for f in glob.glob(pattern, recursive=True) for line in open(f) if line.strip())


names = [line.split(':')[0].split()[0] for line in open('crates.txt') if ':' in line.split('#')[0]]
total = [0] * 4
print('| crate | code | specs | proofs by hand | function proofs |\n|---|---|---|---|---|')
for name in names:
    c = f'crates/{name}'
    # A function's proof stands in a folder of its own.
    row = [lines(f'{c}/src/**/*.rt'), lines(f'{c}/specs/**/*.antt'), lines(f'{c}/proofs/*.antt'), lines(f'{c}/proofs/*/**/*.antt')]
    total = [a + b for a, b in zip(total, row)]
    print(f'| `{name}` | ' + ' | '.join(map(str, row)) + ' |')
print('| all | ' + ' | '.join(map(str, total)) + ' |')
