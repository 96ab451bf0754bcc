#!/usr/bin/env python3
# edits.py: whether each must-fail edit still fits: its `old:` text stands exactly once in its file
import glob, re, sys
bad = 0
for path in sorted(glob.glob('crates/*/must-fail/*.edit')):
    crate = path.split('/')[1]
    fields = dict(re.findall(r'^(file|old|new): ?(.*)$', open(path).read(), re.M))
    text = open(f"crates/{crate}/{fields['file']}").read()
    if text.count(fields['old']) != 1:
        bad += 1
        print(path, text.count(fields['old']), 'times:', fields['old'])
print(bad, 'do not fit')
sys.exit(bad > 0)
