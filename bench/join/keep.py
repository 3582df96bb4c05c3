#!/usr/bin/env python3
"""Puts the benchmark's tables into docs/BENCHMARK.md, between its two marks, and draws a plot of each table of joins.

    python3 bench/join/keep.py TABLES DOCS     TABLES: what bench/join/run.sh printed; DOCS: the folder with BENCHMARK.md
    python3 bench/join/keep.py PART DOCS part  PART: what it printed of a part; the other tables stay as they are
    python3 bench/join/keep.py DOCS            draws the plots anew from the tables that stand in DOCS/BENCHMARK.md
"""
import math
import os
import re
import sys

BEGIN, END = '<!-- the tables of one run begin -->', '<!-- the tables of one run end -->'
COLOURS = ['#c0392b', '#e39a2d', '#555555', '#2166ac', '#1b9e77', '#7b3294', '#b98ad0', '#000000']
# a table's title begins so -> the plot's file
PLOTS = {
    'Lanes, 512': 'bench-lanes-512.svg',
    'Lanes, 3,072': 'bench-lanes-3072.svg',
    'Lanes, 16,384': 'bench-lanes-16384.svg',
    'Share of': 'bench-long-lived.svg',
    'Lanes and share': 'bench-lanes-long-lived.svg',
    'Tuples a side': 'bench-tuples.svg',
    'Labels': 'bench-labels.svg',
}


def tables(text):
    """Title, head and rows of each table that stands straight after a title."""
    for part in re.split(r'^### ', text, flags=re.M)[1:]:
        lines = part.split('\n')
        rows = []
        for line in lines[1:]:
            if line.startswith('|'):
                rows.append([cell.strip() for cell in line.strip('|').split('|')])
            elif rows:
                break
        yield lines[0], rows[0], rows[2:]


def titled(text, lines):
    """The tables of a text by their titles, with these lines under each title."""
    for table in re.split(r'^### ', text, flags=re.M)[1:]:
        title, rest = table.strip().split('\n', 1)
        yield title, '\n'.join(['### ' + title, *lines, rest]) + '\n\n'


def merged(kept, part):
    """What is kept, with each table of the part in place of the one with its title, or else at the end; under its title
    those lines on the machine and the programs that are not the page's."""
    head = kept.split('### ', 1)[0]
    other = [line for line in part.split('### ', 1)[0].split('\n') if line and line not in head.split('\n')]
    return head + ''.join({**dict(titled(kept, [])), **dict(titled(part, [''] * bool(other) + other))}.values())


def number(cell):
    """A cell's number, and whether it is only a bound from below."""
    bound = cell.startswith('over ')
    return float(cell[5:] if bound else cell), bound


def log_ticks(low, high):
    return [10.0 ** e for e in range(math.floor(math.log10(low)), math.ceil(math.log10(high)) + 1)]


def tick_name(v):
    for size, name in ((1e9, 'G'), (1e6, 'M'), (1e3, 'k')):
        if v >= size:
            return f'{v / size:g}{name}'
    return f'{v:g}'


def panel(out, left, title, x_title, xs, lines):
    """One plot: x by place, y by its logarithm; lines = (name, colour, values with bounds)."""
    width, height, top = 330, 260, 50
    values = [v for _, _, ys in lines for v, _ in ys if v > 0]
    ticks = log_ticks(min(values), max(values))
    if len(ticks) < 2:
        ticks.append(ticks[0] * 10)
    low, high = math.log10(ticks[0]), math.log10(ticks[-1])

    def at(i, v):
        x = left + width * (i + 0.5) / len(xs)
        y = top + height * (1 - (math.log10(v) - low) / (high - low))
        return x, y

    out.append(f'<text x="{left + width / 2}" y="{top - 14}" text-anchor="middle" font-weight="bold">{title}</text>')
    for t in ticks:
        y = at(0, t)[1]
        out.append(f'<line x1="{left}" y1="{y:.1f}" x2="{left + width}" y2="{y:.1f}" stroke="#dddddd"/>')
        out.append(f'<text x="{left - 6}" y="{y + 4:.1f}" text-anchor="end">{tick_name(t)}</text>')
    for i, x in enumerate(xs):
        out.append(f'<text x="{at(i, ticks[0])[0]:.1f}" y="{top + height + 18}" text-anchor="middle">{x}</text>')
    out.append(f'<rect x="{left}" y="{top}" width="{width}" height="{height}" fill="none" stroke="#888888"/>')
    out.append(f'<text x="{left + width / 2}" y="{top + height + 38}" text-anchor="middle">{x_title}</text>')
    for _, colour, ys in lines:
        points = [(*at(i, v), bound) for i, (v, bound) in enumerate(ys) if v > 0]
        path = ' '.join(f'{x:.1f},{y:.1f}' for x, y, _ in points)
        out.append(f'<polyline points="{path}" fill="none" stroke="{colour}" stroke-width="1.6"/>')
        for x, y, bound in points:
            out.append(f'<circle cx="{x:.1f}" cy="{y:.1f}" r="3" fill="{"white" if bound else colour}" stroke="{colour}"/>')


def plot(title, head, rows):
    """Pairs compared on the left, milliseconds on the right."""
    xs = [row[0].replace(', colliding', 'c') for row in rows]
    x_title = head[0] + (' (c: colliding)' if any(row[0].endswith('colliding') for row in rows) else '')
    names = []
    for h in head[1:]:
        name = h.split(', ', 1)[-1]
        if h.startswith(('pairs, ', 'ms, ')) and name not in names:
            names.append(name)
    colour = {name: COLOURS[i % len(COLOURS)] for i, name in enumerate(names)}

    def lines(kind):
        return [(h[len(kind):], colour[h[len(kind):]], [number(row[c]) for row in rows])
                for c, h in enumerate(head) if h.startswith(kind)]

    out = ['<svg xmlns="http://www.w3.org/2000/svg" width="960" height="372" font-family="sans-serif" font-size="11">',
           '<rect width="960" height="372" fill="white"/>',
           f'<text x="12" y="18" font-size="13">{title}</text>']
    panel(out, 52, 'pairs compared', x_title, xs, lines('pairs, '))
    panel(out, 440, 'milliseconds', x_title, xs, lines('ms, '))
    legend = list(colour.items())
    if any(number(row[c])[1] for row in rows for c, h in enumerate(head) if h.startswith('ms, ')):
        legend.append(('open circle: limit passed', 'none'))
    for i, (name, c) in enumerate(legend):
        y = 62 + 18 * i
        if c != 'none':
            out.append(f'<line x1="786" y1="{y}" x2="806" y2="{y}" stroke="{c}" stroke-width="2.5"/>')
        out.append(f'<text x="{812 if c != "none" else 786}" y="{y + 4}">{name}</text>')
    out.append('</svg>')
    return '\n'.join(out) + '\n'


def main():
    part = sys.argv[-1] == 'part'
    words = sys.argv[1:-1] if part else sys.argv[1:]
    docs = words[-1]
    page_path = os.path.join(docs, 'BENCHMARK.md')
    with open(page_path, encoding='utf-8') as f:
        page = f.read()
    before, rest = page.split(BEGIN + '\n', 1)
    kept, after = rest.split(END + '\n', 1)
    if len(words) == 2:
        with open(words[0], encoding='utf-8') as f:
            new = f.read().strip()
        kept = merged(kept, new) if part else '\n' + new + '\n\n'
        with open(page_path, 'w', encoding='utf-8') as f:
            f.write(before + BEGIN + '\n' + kept + END + '\n' + after)
    for title, head, rows in tables(kept):
        for start, file in sorted(PLOTS.items(), key=lambda item: -len(item[0])):
            if title.startswith(start):
                with open(os.path.join(docs, file), 'w', encoding='utf-8') as f:
                    f.write(plot(title, head, rows))
                break


main()
