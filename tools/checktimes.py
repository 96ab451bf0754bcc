#!/usr/bin/env python3
# checktimes.py LOG .. [CRATE=SECONDS ..]: from what `rt check` or `rt ci` printed, the table of docs/CHECKTIMES.md: seconds of each crate, its wrong
# versions, and what those cost in a gate. Of several logs the least figure of a crate counts; a figure given by hand goes before all (marked *).
import glob, os, re, sys

seconds, edits = {}, {}
by_hand = {word.split('=')[0]: int(word.split('=')[1]) for word in sys.argv[1:] if '=' in word}
for log in [word for word in sys.argv[1:] if '=' not in word]:
    for line in open(log, errors='replace'):
        found = re.match(r'rt: (\w+) proved \((\d+) s\)', line)
        if found:
            name, s = found.group(1), int(found.group(2))
            seconds[name] = min(s, seconds.get(name, s))
        found = re.match(r'rt: must-fail (\w+)/\w+: refused, as it must be \(.*; (\d+) s\)', line)
        if found:
            edits.setdefault(found.group(1), []).append(int(found.group(2)))

seconds.update(by_hand)
os.chdir(os.path.join(os.path.dirname(os.path.abspath(__file__)), '..'))
crates = [line.split(':')[0].split()[0] for line in open('crates.txt') if ':' in line.split('#')[0]]


def lines(crate, kinds):
    return sum(open(p).read().count('\n') for kind in kinds for p in glob.glob(f'crates/{crate}/{kind}/**/*.*t', recursive=True))


print('| Crate | Check, s | Code, lines | Definitions and proofs, lines | Wrong versions | All of them, s |')
print('|---|---|---|---|---|---|')
check = gate = count = 0
for crate in sorted(crates, key=lambda c: -seconds.get(c, 0)):
    n = len(glob.glob(f'crates/{crate}/must-fail/*.edit'))
    s = seconds.get(crate)
    cost = sum(edits[crate]) if crate in edits else s and n * s
    print(f"| {crate} | {s or '?'}{'*' if crate in by_hand else ''} | {lines(crate, ['src'])} | {lines(crate, ['specs', 'proofs'])} | {n} | {cost if cost is not None else '?'} |")
    check, gate, count = check + (s or 0), gate + (cost or 0), count + n
print(f'| **{len(crates)} crates** | **{check}** | | | **{count}** | **{gate}** |')
