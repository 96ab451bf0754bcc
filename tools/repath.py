#!/usr/bin/env python3
# repath.py CRATE FOLDER OLD [WAS=IS ..]: the answers of an earlier proof put into a newly printed skeleton, each path on the way found anew by the name of
# what it leads to; WAS=IS for a call or a need that has another name now. Lets of places (`let c₄ = c .before ..`) are written out.
import re, sys, os
sys.path.insert(0, os.path.dirname(os.path.abspath(__file__)))
from answers import Proof
crate, folder, old = sys.argv[1:4]
names = dict(a.split('=') for a in sys.argv[4:])
def renamed(text):
    for a, b in names.items(): text = re.sub(rf'(?<![\w]){re.escape(a)}(?![\w])', b, text)
    return text
p = Proof(crate, folder)
members = [re.match(r'Lts-(.*)\.antt', f).group(1) for f in os.listdir(p.dir) if f.startswith('Lts-')]
was = {}
for block in re.split(r'\n\n+', open(old).read()):
    m = re.match(r'(?:--[^\n]*\n)*(?:abbrev )?(\S+) : ', block)
    if m: was[renamed(m.group(1))] = block
def body(name):
    b = was[name]
    m = re.search(r'^\S+ [^\n=]*=\s*(.*)', b.split('\n', b.count('--') + 1)[-1], flags=re.S | re.M)
    return renamed(m.group(1))
count, left = 0, []
for name in re.findall(r'^(\S+) (?:t )?c(?: κs)? = \?', p.text, flags=re.M):
    if name not in was: left.append(name); continue
    member = next((m for m in members if name.startswith(m.replace('_', '-') + '-')), None)
    need = name[len(member) + 1:] if member else name
    place = p.of(need, member).p
    text = re.sub(r'let c[₀-₉]+ = c[₀-₉]*(?: \.before)+ in\s*', '', body(name))
    missing = []
    def path(m):
        if m.group(1) not in place: missing.append(m.group(1)); return m.group(0)
        return place[m.group(1)]
    text = re.sub(r'(?<![\w.])c[₀-₉]*(?: \.before)* \.([\w-]+)', path, text)
    p.text = re.sub(rf'^({re.escape(name)} (?:t )?c(?: κs)?) = \?', lambda m: m.group(1) + ' = ' + text, p.text, flags=re.M)
    count += 1
    if missing: print(name, 'has no', missing)
# invariants and measures by their bodies
for name in re.findall(r'^abbrev (\S+) : ', p.text, flags=re.M):
    if name in was:
        o = re.search(rf'^{re.escape(name)} ([^\n=]*)=\s*(.*)', was[name], flags=re.S | re.M)
        n = re.search(rf'^{re.escape(name)} ([^\n=]*)=\s*\?', p.text, flags=re.M)
        if o and n: p.text = p.text[:n.start()] + f'{name} {n.group(1)}= {renamed(o.group(2))}' + p.text[n.end():]
uses = [renamed(l) for l in re.findall(r'^use [^\n]*', open(old).read(), flags=re.M)]
uses = [l for l in uses if l not in p.text]
p.text = '\n'.join(uses) + '\n' + p.text
p.save()
print(count, 'answers; left:', left)
