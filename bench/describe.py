#!/usr/bin/env python3
"""Writes workloads.md from the files of each workload in target/bench/inputs, which make.py writes."""
import os

BENCH = os.path.dirname(os.path.abspath(__file__))
INPUTS = os.path.join(BENCH, '..', 'target', 'bench', 'inputs')
ORDER = (['W1', 'W2', 'W3', 'W5', 'W7', 'W8'] + [f'B{i}' for i in range(1, 9)] + [f'N{i}' for i in range(1, 11)])
MOST_BYTES = 200  # of what is shown
HEAD = """# The workloads

Written by `describe.py` from the folders in `target/bench/inputs`, which `make.py` fills: do not edit. Each folder has the files that a call
takes (`catalogue`, `values`, `permits`, `question`), the answer (`expected`), and for SQLite the tables, the statement with the permits
written in by hand, and a user's index (`schema.sql`, `sqlite.sql`, `index.sql`). `cells` is the size of the answer buffer if it is not 4,096,
`asked` how often a question is asked in a row, of how many keys, and at which bytes the key goes. `words.md` is what is said below.

In the words `^` is AND, `v` OR, `#` ≠. An aggregate over no rows is 0, so the SQL says COALESCE. W1 to W8 were given, and are in `inputs`
entire; of the others `inputs` has the words and the answers, which come from the judge (`answers.sh`). A folder with another name can be run
too: `bench/run.sh NAME`.
"""

def read(name, part):
    path = os.path.join(INPUTS, name, part)
    return open(path, 'rb').read() if os.path.exists(path) else b''

def numbers(data):
    words = [str(b) for b in data]
    return [' '.join(words[i:i + 36]) for i in range(0, len(words), 36)]

def block(lines):
    return ''.join(f'    {line}\n' for line in lines)

def shortened(line):
    return line if len(line) <= 2000 else f'{line[:200]} ... ({len(line):,} characters)'

def section(name):
    said = [read(name, 'words.md').decode()]
    for part in ('catalogue', 'permits', 'question'):
        data = read(name, part)
        shown = f' bytes:\n\n{block(numbers(data))}' if len(data) <= MOST_BYTES else ' bytes, see make.py.\n'
        said.append(f'{part}, {len(data)}{shown}')
    sql = [read(name, part).decode().strip() for part in ('schema.sql', 'sqlite.sql', 'index.sql')]
    said.append('SQL:\n\n' + block(shortened(line) for part in sql for line in part.splitlines()))
    return '\n'.join(said)

with open(os.path.join(BENCH, 'workloads.md'), 'w') as to:
    to.write('\n'.join([HEAD] + [section(name) for name in ORDER]))
