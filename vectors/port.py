#!/usr/bin/env python3
"""Lists each function, type and constant of the Rust that has no row in docs/PORT-OTHER.md.

    vectors/port.py DIR            (from the repository's root; DIR holds the Rust's src/)"""
import pathlib
import re
import sys

NAMES = r'\s*(?:pub(?:\(\w+\))? )?(?:fn|struct|enum|const|type|mod) (\w+)|\s*named(?:_args)?!\((\w+)|impl(?:<.*?>)? (From<.*> for .*?|\w+) \{'
port = open('docs/PORT-OTHER.md').read()
rows = {name for row in re.findall(r'^\| (.*?) \| ', port, re.M) for code in re.findall(r'`([^`]*)`', row) for name in (code, *re.findall(r'\w+', code))}
found = [(path.name, next(filter(None, m.groups()))) for path in sorted(pathlib.Path(sys.argv[1]).rglob('*.rs')) for line in open(path) if (m := re.match(NAMES, line))]
missing = [f'{file}: {name}' for file, name in found if name not in rows]
print('\n'.join([f'{len(found)} names, {len(missing)} without a row', *missing]))
