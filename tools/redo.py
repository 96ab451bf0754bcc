#!/usr/bin/env python3
# redo.py CRATE FOLDER [WAS=IS ..]: after a change of a function's code the answers of its proof are kept: each path in them is found anew by the name of what it
# leads to, and the list of `tie.spec` is written anew from the needs that the goals have now (run `rt goals CRATE` first). WAS=IS for a call or a need that has
# another name. Unnamed answers are taken to be `search needs`. In a cycle of calls (FOLDER begins with +) measures and claims stay as they are: correct these by hand.
import os
import re
import sys

sys.path.insert(0, os.path.dirname(os.path.abspath(__file__)))
from answers import Proof

crate, folder = sys.argv[1:3]
names = dict(a.split('=') for a in sys.argv[3:])
p = Proof(crate, folder, goals=False)
text = p.text
for was, now in names.items():
    text = re.sub(rf'(?<![\w-]){re.escape(was)}(?![\w-])', now, text)

def anew(need, member, answer):
    place, missing = p.of(need, member).p, []

    def path(m):
        if m.group(1) not in place:
            missing.append(m.group(1))
            return m.group(0)
        return place[m.group(1)]

    answer = re.sub(r'let c[₀-₉]+ = c[₀-₉]*(?: \.before)+ in\s*', '', answer)
    answer = re.sub(r'(?<![\w.])c[₀-₉]*(?: \.before)* \.([\w-]+)', path, answer)
    if missing:
        print(f'{need}: no {", ".join(missing)} on the way')
    return answer


def needs_of(file):
    return re.findall(r'abbrev pub Need-([\w-]+) :', open(f'{p.dir}/{file}.antt').read())


# every block that answers a need: what follows the need's name in its type, and the answer
blocks, answers = [], {}
for block in re.split(r'\n\n+', text.rstrip('\n')):
    m = re.match(r'(\S+) : (?:\(t : ℕ\) → \S+-lts|tie)\.Need-\S+([^\n]*)\n', block)
    if m:
        a = re.search(r'\A(unfolding [^\n]*\n)?\S+ (?:t )?c(?: κs)? =\s*(.*)\Z', block[m.end():], flags=re.S)
        answers[m.group(1)] = (m.group(2), a.group(2), a.group(1) or '')
    else:
        blocks.append(block)
done, known, spec = [], set(), blocks.pop()
requires = re.compile(r'.*-requires(-\d+)?')
if os.path.basename(folder).startswith('+'):
    for file in sorted(f[:-5] for f in os.listdir(p.dir) if f.startswith('Lts-')):
        member, short = file[4:], file[4:].replace('_', '-')
        tail = next(a[0] for n, a in answers.items() if n.startswith(short + '-'))
        names_here = []
        for need in needs_of(file):
            name = f'{short}-{need}'
            answer = anew(need, member, answers[name][1]) if name in answers else 'search needs'
            done.append(f'{name} : (t : ℕ) → {short}-lts.Need-{need}{tail}\n{name} t c{" κs" if requires.fullmatch(need) else ""} = {answer}')
            names_here.append(f'({name} t)')
            known.add(name)
        first = rf'({short}-lts\.spec \({short}-claims t\)\s+\({short}-at t\)\s+{short}\.Post(?:\s+[A-Za-zμ][\w-]*)*)(?:\s+\((?:{short}-[\w-]+ t|λ c(?: κs)?\. search needs)\))+'
        spec = re.sub(first, lambda m: m.group(1) + '\n    ' + '\n    '.join(names_here), spec)
else:
    tail = next((a[0] for a in answers.values()), '')
    lines = ['Inv-loop', 'μ-loop'] if 'Inv-loop' in tail else []
    for need in needs_of('Lts'):
        if need in answers:
            done.append(f'{need} : tie.Need-{need}{tail}\n{answers[need][2]}{need} c{" κs" if requires.fullmatch(need) else ""} = {anew(need, None, answers[need][1])}')
            lines.append(need)
            known.add(need)
        else:
            lines.append('(λ c κs. search needs)' if requires.fullmatch(need) else '(λ c. search needs)')
    m = re.match(r'pub (\S+) :[^\n]*\n', spec)
    spec = m.group(0) + m.group(1) + ' =\n    tie.close\n    (tie.spec\n    ' + '\n    '.join(lines) + ')'
open(p.file, 'w').write('\n\n'.join(blocks + done + [spec]) + '\n')
print(f'{len(done)} answers; gone: {", ".join(a for a in answers if a not in known) or "none"}')
