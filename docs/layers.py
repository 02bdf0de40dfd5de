#!/usr/bin/env python3
"""docs/layers.py [--check]: the layers of crates.txt, drawn.

crates.txt has the crates under headings, '# ---- NAME: what', lowest first; behind a crate's name words may stand that say what it is, as staticlib. This fails where a crate names one of a higher layer, one further down in its own layer, or one
that is not there, and writes docs/layers.svg, the picture in README.md; with --check it writes nothing, and fails where the picture would be another."""
import os
import re
import sys

root = os.path.join(os.path.dirname(os.path.abspath(__file__)), '..')
KIT = {'check', 'libc', 'io', 'os', 'bytes'}
COLUMNS = 6


def read():
    layers = []
    for line in open(os.path.join(root, 'crates.txt')):
        head = re.match(r'# ---- (\w+): (.*)$', line)
        if head:
            layers.append((head[1], head[2], []))
        elif ':' in line.split('#')[0]:
            name, deps = line.split('#')[0].split(':')
            layers[-1][2].append((name.split()[0], deps.split()))
    return layers


def faults(layers):
    place = {name: (i, k) for i, (_, _, crates) in enumerate(layers) for k, (name, _) in enumerate(crates)}
    for i, (layer, _, crates) in enumerate(layers):
        for k, (name, deps) in enumerate(crates):
            for d in deps:
                if d in KIT:
                    continue
                if d not in place:
                    yield f'{name} names {d}, which is not there'
                elif place[d] >= (i, k):
                    yield f'{name} ({layer}) names {d}, which stands above it'


def drawn(layers):
    width, high, box, gap = 960, 26, 148, 6
    y, parts = 10, []
    for layer, what, crates in reversed(layers):
        rows = (len(crates) + COLUMNS - 1) // COLUMNS
        height = 26 + rows * (high + gap)
        parts.append(f'<rect x="6" y="{y}" width="{width - 12}" height="{height}" rx="6" fill="#f4f6f8" stroke="#9aa7b1"/>')
        parts.append(f'<text x="16" y="{y + 17}" font-weight="bold">{layer}</text><text x="100" y="{y + 17}" fill="#555">{what}</text>')
        for k, (name, _) in enumerate(crates):
            x, top = 14 + (k % COLUMNS) * (box + gap + 2), y + 24 + (k // COLUMNS) * (high + gap)
            parts.append(f'<rect x="{x}" y="{top}" width="{box}" height="{high}" rx="4" fill="#fff" stroke="#c3ccd3"/>')
            parts.append(f'<text x="{x + box / 2:g}" y="{top + 17}" text-anchor="middle" font-family="monospace" font-size="11">{name}</text>')
        y += height + 14
        if layer != layers[0][0]:
            parts.append(f'<path d="M{width / 2:g} {y - 14} v10 m-4 -5 l4 5 l4 -5" fill="none" stroke="#6b7a86"/>')
    return (f'<svg xmlns="http://www.w3.org/2000/svg" viewBox="0 0 {width} {y}" font-family="sans-serif" font-size="12">\n'
            '<title>The layers: a crate calls down, never up</title>\n' + '\n'.join(parts) + '\n</svg>\n')


def main():
    layers = read()
    bad = list(faults(layers))
    path = os.path.join(root, 'docs', 'layers.svg')
    text = drawn(layers)
    if '--check' in sys.argv:
        if not os.path.exists(path) or open(path).read() != text:
            bad.append('docs/layers.svg is not what crates.txt says: run docs/layers.py')
    else:
        open(path, 'w').write(text)
    for fault in bad:
        print(fault)
    count = sum(len(crates) for _, _, crates in layers)
    print(f'{len(layers)} layers, {count} crates, {len(bad)} faults')
    sys.exit(1 if bad else 0)


main()
