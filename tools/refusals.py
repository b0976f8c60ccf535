#!/usr/bin/env python3
"""Reads what 'rt must-fail' said, and sorts the edits by what their refusal shows.

usage: refusals.py [-a] ROOT LOG..      ROOT: the repository's top; LOG: what rt must-fail (or rt ci) printed; -a: the good ones too

  goal     an answer, a lemma or a goal no longer holds: the refusal is of the meaning
  values   the check found values at which the goal fails: the same, and stronger
  renamed  the goal that is not proved is named after text that the edit changes (a condition, an arm), and proofs/F/Answers.antt has
           answers for goals of that kind under other names: nothing was tried against it, and a neutral change would be refused too.
           Let the answer go along (edits.hand, kind 2)
  names    only because a proof file names what the edit took away: keep the name (edits.hand, kind 1)
  limit    only by a limit of the prover
  bad      BAD EDIT: not applied, not read or not compiled
  proved   NOT REFUSED
  untried  NOT TRIED: run it again
"""
import collections, os, re, sys

words = [w for w in sys.argv[1:] if w != '-a']
if len(words) < 2:
    sys.exit(__doc__)
root, count = words[0], collections.Counter()


def function(crate, path, line):
    found = ''
    for n, l in enumerate(open(f'{root}/crates/{crate}/{path}', encoding='utf-8'), 1):
        if n > line + 12:
            break
        m = re.match(r'\s*(?:pub )?(?:unsafe )?(?:extern "C" )?fn (\w+)', l)
        if m and (n <= line or not found):
            found = m[1]
    return found


def kind(crate, said):
    if 'BAD EDIT' in said: return 'bad'
    if 'NOT REFUSED' in said: return 'proved'
    if 'NOT TRIED' in said: return 'untried'
    if 'only because a proof file names' in said: return 'names'
    if 'only by a limit' in said or 'gave up at one of its limits' in said: return 'limit'
    m = re.search(r': note: (src/\S+?):(\d+):\d+: it is not proved .*?\(`([\w-]+)`\)(.*)', said)
    if not m:
        return 'goal'
    if 'the facts known there allow values' in m[4]:
        return 'values'
    f = function(crate, m[1], int(m[2]))
    for p in (f'{root}/crates/{crate}/proofs/{f}/Answers.antt', f'{root}/crates/{crate}/proofs/+{f}/Answers.antt'):
        if os.path.exists(p):
            own = re.findall(r'(?m)^pub ([\w-]+) :', open(p, encoding='utf-8').read())
            stem = re.match(r'(returns-(?:then|else|in)-|loop-)', m[3])
            if m[3] not in own and stem and any(o.startswith(stem[0]) and o != 'returns' for o in own):
                return 'renamed'
    return 'goal'


last = {}
for log in words[1:]:
    for l in open(log, encoding='utf-8', errors='replace'):
        m = re.match(r'(?:rt: must-fail )?([^/\s]+)/(\S+?\.edit): (.*)', l)
        if m:
            last[m[1], m[2]] = kind(m[1], m[3]), m[3].strip()
for (crate, name), (k, said) in sorted(last.items()):
    count[k] += 1
    if '-a' in sys.argv or k not in ('goal', 'values'):
        print(f'{k:8} {crate}/{name}: {said[:220]}')
print(', '.join(f'{n} {k}' for k, n in sorted(count.items())) + f'; {len(last)} edits')
