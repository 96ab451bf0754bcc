# lets.py FILE...: shortens the answers of a Proof.antt. What stands on the way to a need, `c .before .before .tail`, gets its name by a `let`,
# and so does what a parameter refers to where it is used again. The terms stay the same; c₂ is the place two steps before the need.
import re, sys

CHAIN = re.compile(r'\bc((?: \.before)+) \.(?!before)([A-Za-z0-9κ·-]+)')
HEAD = re.compile(r'^([A-Za-z0-9+·-]+(?: t)? c(?: κs)?) =[ \n]')
RESERVED = {'let', 'in', 'where', 'record', 'rw', 'at', 'elim', 'as', 'omega', 'search', 'absurd', 'unfolding', 'use', 'c', 't', 'κs', 'now'}

SUBSCRIPT = str.maketrans('0123456789', '₀₁₂₃₄₅₆₇₈₉')

def words(text):                       # names that the text uses, other than as a projection
    return set(re.findall(r"(?<![.\w'′·-])[A-Za-z][\w'′·-]*", text)) | set(re.findall(r'λ \(?([\w\' ′]+)', text))

def named(wish, taken):
    while wish in taken or wish in RESERVED: wish += '′'
    return wish

def parameters(body, taken):           # `now (args .q)` and `args .level` where they come more than once
    lines = []
    for form in (r'\(now \(args \.([\w-]+)\)\)', r'\(args \.([\w-]+)\)'):
        for p in sorted(set(re.findall(form, body))):
            whole = re.compile(form.replace(r'([\w-]+)', re.escape(p)))
            if len(whole.findall(body)) < 2 or p in taken or p in RESERVED: continue
            lines.append(f"    let {p} = {'now (args .' + p + ')' if 'now' in form else 'args .' + p} in")
            taken.add(p)
            body = whole.sub(p, body)
    return body, ['    ' + ' '.join(l.strip() for l in lines)] if lines else []

def shortened(head, body):
    if re.search(r'let \S+ = c \.before', body) or 'λ c' in body: return None   # has its lets already
    if body.count('.before') < 15: return None
    found = {}
    for m in CHAIN.finditer(body): found[m.group(0)] = found.get(m.group(0), 0) + 1
    found = {k: n for k, n in found.items() if n > 1 or k.count('.before') > 2}
    if not found: return None
    taken, lines = words(CHAIN.sub(' ', body)), []
    here, depth = 'c', 0                # the place that the last let has reached, and how far it is
    for k in sorted(found, key=lambda k: (k.count('.before'), k)):
        far, what = k.count('.before'), k.rsplit('.', 1)[1]
        if far > depth:
            place = 'c' + str(far).translate(SUBSCRIPT)
            lines.append(f"    let {place} = {here}{' .before' * (far - depth)} in")
            here, depth = place, far
        n = named(what, taken)
        taken.add(n)
        lines[-1] += f' let {n} = {here} .{what} in'
        body = re.sub(re.escape(k) + r"(?![\w·-])", n, body)
    body, more = parameters(body, taken)
    return head + ' =\n' + '\n'.join(lines + more) + '\n    ' + body

def run(path):
    blocks = open(path).read().split('\n\n')
    for i, b in enumerate(blocks):
        at = 0
        lines = b.split('\n')
        for j, l in enumerate(lines):
            m = HEAD.match(l + '\n')
            if not m: continue
            body = '\n'.join([(l + '\n')[m.end():].rstrip('\n')] + lines[j + 1:]).strip()
            new = shortened(m.group(1), body)
            if new: lines = lines[:j] + new.split('\n')
            break
        blocks[i] = '\n'.join(lines)
    open(path, 'w').write('\n\n'.join(blocks))

for p in sys.argv[1:]: run(p)
