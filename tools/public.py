#!/usr/bin/env python3
# public.py [CRATE ..]: for each crate its public functions and the crates that call them. public.py --figures: the house in numbers.
import glob, os, re, sys

os.chdir(os.path.join(os.path.dirname(os.path.abspath(__file__)), '..'))


def listed():
    crates = {}
    for line in open('crates.txt'):
        line = line.split('#')[0]
        if ':' in line:
            name, needs = line.split(':')
            crates[name.split()[0]] = needs.split()
    return crates


def source(path):
    # comments and ghost lines are no calls
    return '\n'.join(line for line in open(path).read().split('\n') if not line.strip().startswith('//') and not line.startswith('ghost '))


# the type that a method is of
OWNER = re.compile(r'^impl(?:<[^>]*>)? (?:[^{;]* for )?(\w+)', re.M)


def functions(text):
    # name, whether it is public, its parameters, its lines with signature and contract
    for found in re.finditer(r'^( *)(pub(?:\(crate\))? )?(extern "C" )?fn (\w+)(?:<[^>]*>)?\(', text, re.M):
        start = found.start()
        signature = text[found.end():text.index('\n' + found.group(1) + '{', start) if '\n' + found.group(1) + '{' in text[start:] else len(text)]
        depth, end = 1, 0
        while depth and end < len(signature):
            depth += {'(': 1, ')': -1}.get(signature[end], 0)
            end += 1
        parameters = len([p for p in signature[:end - 1].split(',') if p.strip()])
        last = text.find('\n' + found.group(1) + '}', start)
        lines = text[start:last + 2].count('\n') + 1
        owner = OWNER.findall(text[:start])[-1] + '::' if found.group(1) else ''
        yield owner + found.group(4), found.group(2) == 'pub ', parameters, lines


def files(crate):
    return sorted(glob.glob(f'crates/{crate}/src/*.rt'))


def modules(crate):
    # the modules of a crate, and whether another crate can name what is in them
    root = [f for f in files(crate) if f.endswith(('/lib.rt', '/main.rt'))]
    return {name: bool(public) for f in root for public, name in re.findall(r'^(pub )?mod (\w+);', open(f).read(), re.M)}


def public(crate):
    # (path in the crate, exported to C)
    reach = modules(crate)
    for f in files(crate):
        module = os.path.basename(f)[:-3]
        if module not in ('lib', 'main') and not reach.get(module):
            continue
        text = source(f)
        for name, is_public, _, _ in functions(text):
            if is_public:
                exported = f'pub extern "C" fn {name}(' in text
                yield (name if module in ('lib', 'main') else f'{module}::{name}'), exported


def callers(crate, path, crates):
    # by its whole path, or by the short one that a `use` gives; a method by its name, where the crate is named
    module, _, name = path.rpartition('::')
    if module[:1].isupper() or '::' in module:
        calls = [(re.compile(rf'(?:\.|\b{module.split("::")[-1]}::){name}\('), crate + '::')]
    else:
        calls = [(re.compile(rf'\b{crate}::{path}\('), None), (re.compile(rf'(?<![\w:]){name}\('), f'use {crate}::{path};')]
        if module:
            calls.append((re.compile(rf'(?<![\w:]){path}\('), f'use {crate}::{module};'))
    for other in crates:
        texts = [source(f) for f in files(other)] if other != crate else []
        if any(call.search(t) and (not line or line in t) for t in texts for call, line in calls):
            yield other


def level(name, crates, known={}):
    if name not in known:
        known[name] = 1 + max([level(n, crates) for n in crates[name] if n in crates], default=0)
    return known[name]


def edits(crate):
    return len(glob.glob(f'crates/{crate}/must-fail/*.edit'))


def figures(crates):
    every = [(c, *f) for c in crates for p in files(c) for f in functions(source(p))]
    count = sum(1 for c in crates for _ in public(c))
    widest = max(every, key=lambda f: f[3])
    print(len(crates), 'crates')
    print(max(level(c, crates) for c in crates), 'levels of crates, model and program included')
    print(len(every), 'functions,', count, 'of them public')
    print(sum(edits(c) for c in crates), 'wrong versions')
    print(widest[3], f'parameters at most ({widest[0]}::{widest[1]}),', sum(1 for f in every if f[3] > 9), 'functions with more than 9,',
          sum(1 for f in every if f[3] > 7), 'with more than 7')
    long = [f for f in every if f[4] > 40]
    print(len(long), 'functions over 40 lines:', ', '.join(f'{c}::{n} ({l})' for c, n, _, _, l in sorted(long, key=lambda f: -f[4])))


crates = listed()
words = sys.argv[1:]
if words == ['--figures']:
    figures(crates)
else:
    for crate in words or crates:
        found = list(public(crate))
        print(f'{crate}: {len(found)} public functions, {edits(crate)} wrong versions')
        for path, exported in found:
            used = sorted(callers(crate, path, crates))
            print(f'    {path}:', ' '.join(used) or ('C' if exported else 'NOBODY'))
