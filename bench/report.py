#!/usr/bin/env python3
"""report.py FOLDER [README]: from FOLDER/table.tsv write table.md and picture.svg; with README, put the table between its marks.

The columns are those of `bench columns`; the first line of table.tsv names them.
"""
import math
import sys

# Engine over SQLite's best variant, issue 16.
TARGETS = {'W1': 1.4, 'W2': 0.15, 'W3': 0.15, 'W5': 0.3, 'W7': 0.2, 'W8': 1.8, 'N1': 0.2, 'N3': 0.2, 'N4': 0.5, 'N5': 2, 'N6': 0.25, 'N8': 3, 'N9': 1}
PREPARED, ANALYZED, INDEXED = 'prepared', 'ANALYZE', 'index, ANALYZE'
# The best variant has all of these that there are: the first one measured.
BEST = ['index, ANALYZE, no DISTINCT', 'index, ANALYZE', 'ANALYZE, no DISTINCT', 'ANALYZE']
KINDS = ['engine', 'SQLite prepared', 'SQLite best variant', 'C loop']
COLOURS = ['#c0392b', '#8fbbe0', '#2c6fad', '#7f8c8d']

class Job:
    """A workload's times in microseconds; None where there is none, also where the engine was too slow."""
    def __init__(self, name, words, cells):
        self.name = name
        self.times = dict(zip(words, [float(c) if c not in ('-', 'slow') else None for c in cells]))
        self.engine, self.loop = self.times['engine'], self.times['C loop']
        self.databases = {w: t for w, t in self.times.items() if w not in ('engine', 'C loop') and t is not None}
        self.best = next(self.databases[w] for w in BEST if w in self.databases)
        self.fastest = min(self.databases, key=self.databases.get)
    def ratio(self, other):
        return None if self.engine is None or other is None else self.engine / other
    def bars(self):
        return [self.engine, self.times[PREPARED], self.best, self.loop]

def read(path):
    lines = [line.rstrip('\n').split('\t') for line in open(path)]
    return [Job(cells[0], lines[0][1:], cells[1:]) for cells in lines[1:]]

def short(number):
    if number is None: return '–'
    digits = max(0, 2 - math.floor(math.log10(number))) if number > 0 else 0
    return f'{number:,.{digits}f}'

def verdict(job):
    if job.name not in TARGETS: return '', ''
    reached = job.ratio(job.best)
    return f'≤ {TARGETS[job.name]}', 'yes' if reached is not None and reached <= TARGETS[job.name] else 'not yet'

def main_table(jobs):
    lines = ['| µs | engine | SQLite prepared | ANALYZE | index, ANALYZE | best variant | fastest | which | C loop'
             ' | engine / best | target | reached | engine / fastest | engine / C loop |',
             '|---|--:|--:|--:|--:|--:|--:|---|--:|--:|--:|---|--:|--:|']
    for job in jobs:
        fastest = job.databases[job.fastest]
        lines.append('| ' + ' | '.join([
            job.name, 'slow' if job.engine is None else short(job.engine), *[short(job.times[w]) for w in (PREPARED, ANALYZED, INDEXED)],
            short(job.best), short(fastest), job.fastest, short(job.loop), short(job.ratio(job.best)), *verdict(job),
            short(job.ratio(fastest)), short(job.ratio(job.loop))]) + ' |')
    return lines

def labels_table(job):
    """Labels a second."""
    words = ['engine', PREPARED, ANALYZED, INDEXED, *[w for w in job.times if w.startswith('index') and w.endswith('no DISTINCT')], 'C loop']
    lines = ['| labels a second, N10 | |', '|---|--:|']
    for word in words:
        time = job.times[word]
        named = word if word in ('engine', 'C loop') else f'SQLite, {word}'
        lines.append(f'| {named} | {"–" if time is None else f"{1e6 / time:,.0f}"} |')
    return lines

def growth_table(jobs):
    """Doubling the rows: how many times the time."""
    lines = ['| rows | engine µs | times | SQLite best variant µs | times | C loop µs | times |', '|---|--:|--:|--:|--:|--:|--:|']
    before, known = '', None
    for job in jobs:
        workload, rows = job.name.split(':')
        if workload != before: known = None
        row = [f'{workload}, first {rows}']
        for k, time in enumerate((job.engine, job.best, job.loop)):
            grown = time / known[k] if known and known[k] and time else None
            row += [short(time), short(grown)]
        lines.append('| ' + ' | '.join(row) + ' |')
        before, known = workload, (job.engine, job.best, job.loop)
    return lines

def text(x, y, words, size=12, anchor='start'):
    return f'<text x="{x:.1f}" y="{y:.1f}" font-size="{size}" text-anchor="{anchor}">{words}</text>'

def rect(x, y, width, height, colour):
    return f'<rect x="{x:.1f}" y="{y:.1f}" width="{width:.1f}" height="{height:.1f}" fill="{colour}"/>'

class Axis:
    """Microseconds to height, logarithmic."""
    def __init__(self, jobs, top, bottom):
        known = [t for job in jobs for t in job.bars() if t]
        self.low = math.floor(math.log10(min(known)))
        self.high = math.ceil(math.log10(max(known)))
        self.top, self.bottom = top, bottom
    def y(self, microseconds):
        part = (math.log10(microseconds) - self.low) / (self.high - self.low)
        return self.bottom - part * (self.bottom - self.top)

def unit(power):
    for least, name in ((6, 's'), (3, 'ms'), (0, 'µs'), (-3, 'ns')):
        if power >= least: return f'{10 ** (power - least)} {name}'
    return f'{10.0 ** (power + 3):g} ns'

def bars(axis, x, times, width):
    drawn = []
    for k, t in enumerate(times):
        at = x + k * width
        if t is not None:
            drawn.append(rect(at, axis.y(t), width - 1, axis.bottom - axis.y(t), COLOURS[k]))
        elif k == 0:
            drawn.append(f'<rect x="{at:.1f}" y="{axis.top}" width="{width - 1}" height="{axis.bottom - axis.top}" fill="none" '
                         f'stroke="{COLOURS[0]}" stroke-dasharray="3 3"/>')
    return drawn

def picture(jobs):
    left, top, group, width, bottom = 70, 50, 62, 13, 370
    right = left + group * len(jobs)
    axis = Axis(jobs, top, bottom)
    drawn = [f'<svg xmlns="http://www.w3.org/2000/svg" width="{right + 20}" height="{bottom + 40}" font-family="sans-serif">',
             rect(0, 0, right + 20, bottom + 40, 'white'), text(left, 18, 'CPU time a question, median, logarithmic; a dashed bar did not end', 13)]
    for k, kind in enumerate(KINDS):
        drawn += [rect(left + 150 * k, 26, 10, 10, COLOURS[k]), text(left + 150 * k + 15, 35, kind)]
    for power in range(axis.low, axis.high + 1):
        y = axis.y(10.0 ** power)
        drawn += [f'<line x1="{left}" x2="{right}" y1="{y:.1f}" y2="{y:.1f}" stroke="#ddd"/>', text(left - 6, y + 4, unit(power), 11, 'end')]
    for i, job in enumerate(jobs):
        drawn += bars(axis, left + 5 + group * i, job.bars(), width)
        drawn.append(text(left + 5 + group * i + 2 * width, bottom + 18, job.name, 12, 'middle'))
    return '\n'.join(drawn + ['</svg>']) + '\n'

def put_between_marks(path, words):
    before, rest = open(path).read().split('<!-- table -->\n')
    after = rest.split('<!-- end of table -->\n')[1]
    open(path, 'w').write(f'{before}<!-- table -->\n{words}<!-- end of table -->\n{after}')

def main():
    folder = sys.argv[1]
    jobs = read(f'{folder}/table.tsv')
    whole = [job for job in jobs if ':' not in job.name]
    parts = [job for job in jobs if ':' in job.name]
    labels = [job for job in whole if job.name == 'N10']
    machine = [f'- {line.strip()}' for line in open(f'{folder}/machine.txt')]
    lines = machine + ([''] + main_table(whole) if whole else []) + ([''] + growth_table(parts) if parts else [])
    for job in labels:
        lines += [''] + labels_table(job)
    words = '\n'.join(lines) + '\n'
    open(f'{folder}/table.md', 'w').write(words)
    if whole:
        open(f'{folder}/picture.svg', 'w').write(picture(whole))
    if len(sys.argv) > 2:
        put_between_marks(sys.argv[2], words)

main()
