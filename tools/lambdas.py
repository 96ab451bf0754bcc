#!/usr/bin/env python3
# lambdas.py FILE ..: in the proof of a function, a need that is answered by `search needs` alone gets no name: a lambda stands in its place, in loops and in cycles
# of calls too. Comments that point to lines of the source go. Run it when a proof is done; tools/fill.py and tools/repath.py work on named answers, and tools/redo.py
# names them again in a cycle.
import re, sys

ANSWER = re.compile(r'^(\S+) : (?:\(t : ℕ\) → )?(\S+\.Need-\S+)[^\n]*\n\1( t)?((?: [^\s=]+)+) = search needs\n\n?', re.M)


def alone(name):
    return r'(?<![\w\-.·+])' + re.escape(name) + r'(?![\w\-.·])'


def shorten(text):
    text = re.sub(r'^-- src/\S+:\d+:\d+\n', '', text, flags=re.M)
    # a name that stands in another answer too keeps its own
    rest = ANSWER.sub('', text)
    once = {m.group(1) for m in ANSWER.finditer(text) if len(re.findall(alone(m.group(1)), rest)) == 1}
    answers = {}

    def take(match):
        if match.group(1) not in once:
            return match.group(0)
        answers[match.group(1)] = (bool(match.group(3)), match.group(4).strip())
        return ''

    rest = ANSWER.sub(take, text)
    for name, (numbered, words) in answers.items():
        rest = re.sub(rf'\({re.escape(name)} t\)' if numbered else alone(name), f'(λ {words}. search needs)', rest)
    return rest


for path in sys.argv[1:]:
    text = open(path).read()
    shorter = shorten(text)
    if shorter != text:
        open(path, 'w').write(shorter)
