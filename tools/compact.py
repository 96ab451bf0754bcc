#!/usr/bin/env python3
# compact.py CRATE PROOFDIR: shorten a printed proof skeleton of a cycle of calls: the tuple of callees' contracts that stands at each need
# gets a name, NAME-claims, and the comments that name a place of the source go.
import re, sys
crate, folder = sys.argv[1:3]
path = f'crates/{crate}/proofs/{folder}/Proof.antt'
text = open(path).read()
text = re.sub(r'^-- src/\S+:\d+:\d+\n', '', text, flags=re.M)
claims = {}
def named(m):
    member, body = m.group('member'), re.sub(r'\s+', ' ', m.group('body')).strip().rstrip(',')
    assert claims.setdefault(member, body) == body, member
    return f"{m.group('head')}({member}-claims t){m.group('tail')}"
text = re.sub(r'(?P<head>(?P<member>[\w-]+?)-lts\.(?:Need-[\w-]+|spec) )\(\n(?P<body>(?:\s+[^\n()]+,\n)+)\s*\)(?P<tail>)', named, text)
at = text.index('\nabbrev', text.rindex('-below t =')) if '\nabbrev' in text[text.rindex('-below t ='):] else text.index('\n\n', text.rindex('-below t ='))
at = text.index('\n\n', text.rindex('-below t ='))
block = ''.join(f'\n\nabbrev {m}-claims : ℕ → {m}-lts.Claims\n{m}-claims t = ({b})' for m, b in claims.items())
text = text[:at] + block + text[at:]
open(path, 'w').write(text)
print(f'{len(claims)} members, {len(text.splitlines())} lines')
