#!/usr/bin/env python3
# graft.py OLD NEW: put the answers of an earlier proof into a newly printed skeleton, by the names of the needs
import re, sys
old, new = open(sys.argv[1]).read(), open(sys.argv[2]).read()
# a definition: its signature line, then everything to the next blank line
def parts(text):
    out = {}
    for block in re.split(r'\n\n+', text):
        m = re.match(r'(?:--[^\n]*\n)*(?:abbrev )?(\S+) : ', block)
        if m: out[m.group(1)] = block
    return out
was = parts(old)
blocks = re.split(r'(\n\n+)', new)
count = 0
for i, block in enumerate(blocks):
    m = re.match(r'(?:--[^\n]*\n)*(?:abbrev )?(\S+) : ', block)
    if not m or m.group(1) not in was or m.group(1).endswith(('-claims', '-at', '-below')) or m.group(1).startswith('+'): continue
    name = m.group(1)
    if re.search(rf'^{re.escape(name)} [^\n]*= *\?', block, flags=re.M) or re.search(r'\?\s*$', block):
        body = re.search(rf'^((?:unfolding[^\n]*\n)?{re.escape(name)} .*)$', was[name].split('\n', 1)[1], flags=re.S | re.M)
        head = re.match(rf'((?:--[^\n]*\n)*(?:abbrev )?{re.escape(name)} : .*?\n)(?=(?:unfolding[^\n]*\n)?{re.escape(name)} )', block, flags=re.S)
        if body and head: blocks[i] = head.group(1) + body.group(1); count += 1
text = ''.join(blocks)
# what the old proof used
uses = [l for l in re.findall(r'^use [^\n]*', old, flags=re.M) if l not in text]
at = text.index('use ')
open(sys.argv[2], 'w').write(text[:at] + '\n'.join(uses) + '\n' + text[at:])
print(count, 'answers')
