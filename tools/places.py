#!/usr/bin/env python3
"""Counts in src/ of every crate the places that docs/DESIGN-PASS.md speaks of, point by point.

tools/places.py [-v]: run at the top of a checkout. With -v each place is named. What is counted by a name goes by the names of the commit
at which the pass began and by those that stand for them now, so that the same command counts before and after.
"""
import collections
import glob
import re
import sys

VERBOSE = '-v' in sys.argv[1:]
CRATES = [re.split('[ :]', line)[0] for line in open('crates.txt') if line.strip() and line[0] != '#']


def text_of(crate, pattern='src/**/*.rt'):
    return '\n'.join(open(path).read() for path in sorted(glob.glob(f'crates/{crate}/{pattern}', recursive=True)))


def source(crate):
    """The source without its comments, so that a reason beside a place is not a place."""
    return re.sub(r'^\s*//.*$|\s+// .*$', '', text_of(crate), flags=re.M)


SOURCE = {crate: source(crate) for crate in CRATES}


def functions(crate):
    """Name, parameters and whole text of each function."""
    text = SOURCE[crate]
    for found in re.finditer(r'^( *)(?:pub(?:\(crate\))? )?(?:extern "C" )?fn (\w+)(?:<[^>(]*>)?\(', text, re.M):
        start = end = found.end()
        depth = 1
        while depth:
            depth += {'(': 1, ')': -1}.get(text[end], 0)
            end += 1
        parameters = [part.strip() for part in re.split(r',(?![^\[(<]*[\])>])', text[start:end - 1]) if part.strip()]
        close = text.find('\n' + found.group(1) + '}', end)
        yield found.group(2), parameters, text[found.start():close if close > 0 else len(text)]


def show(label, places):
    """Prints a count by crate; `places` has a list of names for each."""
    places = {crate: names for crate, names in places.items() if names}
    total = sum(len(names) for names in places.values())
    print(f'{label}: {total}' + (' = ' if total else '') + ', '.join(f'{crate} {len(names)}' for crate, names in places.items()))
    if VERBOSE:
        for crate, names in places.items():
            print(f'      {crate}: ' + ', '.join(sorted(set(names))))


def matches(pattern):
    """Each match, by the function that it stands in where it stands in one."""
    places = {}
    for crate in CRATES:
        inside = [(name, body) for name, _, body in functions(crate)]
        names = [name for name, body in inside for _ in re.findall(pattern, body, re.M)]
        outside = len(re.findall(pattern, SOURCE[crate], re.M)) - len(names)
        places[crate] = names + ['-'] * max(outside, 0)
    return places


def chosen(holds):
    return {crate: [name for name, parameters, body in functions(crate) if holds(parameters, body)] for crate in CRATES}


# 1. Own enums of the shape of Option or Result, by their uses; numbers and flags in the place of a kind, an answer or nothing.
show('1a own enums for an answer', matches(r'\b(?:Done|Judged|Surveyed|Given)::'))
show('1b numbers and flags', matches(
    r'kind == |frame\[0\] ==|side == [01]|number == 0|got < 0|\b(?:at|end) == 0 |15 < digit_value|struct (?:State|Stop) |answers::\w+_number\('
    r'|^const [A-Z]+: u8 = [0-5];'))

# 2. Functions whose bodies are the same but for names and numbers.
skeletons = collections.defaultdict(list)
for crate in CRATES:
    for name, _, body in functions(crate):
        opened = re.search(r'[ \n]\{\n', body)
        if not opened:
            continue
        words = ('let', 'mut', 'if', 'else', 'match', 'return', 'while', 'for', 'in')
        key = ' '.join(
            'i' if re.match('[A-Za-z_]', token) and token not in words else 'n' if token[0].isdigit() else token
            for token in re.findall(r'[A-Za-z_]\w*|\d\w*|\S', body[opened.end():]))
        skeletons[key].append((crate, name))
groups = [group for key, group in skeletons.items() if len(group) > 1 and len(key) > 6]
twins = collections.defaultdict(list)
for group in groups:
    for crate, name in group:
        twins[crate].append(name)
show('2 functions with one body but for names', {crate: twins[crate] for crate in CRATES})
if VERBOSE:
    for group in groups:
        print('      ' + ' '.join(f'{crate}::{name}' for crate, name in group))

# 3. Loops that count by hand.
show('3 while', matches(r'^\s*while '))

# 4. What a derive, a conversion or an operator stands for.
show('4a only Clone and Copy derived', matches(r'derive\(Clone, Copy\)\]'))
show('4b casts', matches(r' as (?:u8|u32|u64|usize|isize)\b'))
show('4c equality, copying, conversion and printing by hand', chosen(lambda parameters, body: re.match(
    r'\s*(?:pub )?fn (?:same|copy|equal|widen|wide|store_word|load_word|place_number|refusal_number|judged_number|done_number|count_numbers'
    r'|side_numbered|given_by|print_name|print_block|digit|encode|digit_value|known_value|decode_digits|in_word|least|output_length)\(', body)))
show('4d arithmetic on blocks by functions', matches(r'\bblock::(?:xor|mul|double|triple|square|undo_double|undo_triple|load|store|equal)\('))

# 5. Parameters and facts that travel together.
show('5a 7 parameters or more', chosen(lambda parameters, body: len(parameters) >= 7))
show('5b 10 parameters or more', chosen(lambda parameters, body: len(parameters) >= 10))
for fact in 'round_table Powers PadsReady KeyReady Ready is_key Sizes Within Room Scratch'.split():
    show(f'5c requires {fact}', chosen(lambda parameters, body: re.search(
        r'\b' + fact + r'\b', ' '.join(re.findall(r'requires[^\n]*(?:\n\s+×[^\n]*)*', body)))))


# 6. A slice with a place or a length beside it, or an array that holds pairs flat.
def lent(parameters, body):
    slices = any('[' in parameter for parameter in parameters)
    return slices and any(re.match(r'(used|printed|at|n|room|size): usize', parameter) for parameter in parameters) or any(
        re.search(r'\[u64; (18|32)\]', parameter) for parameter in parameters)


calls = ('answers', 'volume', 'mapped', 'laptop', 'mirror')
show('6 slices with a length or place beside, flat arrays', {
    crate: [] if crate in calls else [name for name, parameters, body in functions(crate) if lent(parameters, body)] for crate in CRATES})

# 7. Switches on which step to run.
show('7 switches', matches(r'match (?:how|wanted|step|mark|place|side|kind) |if kind == |if frame\[0\] =='))


# 8. Answers of one tactic, in proofs/.
def one_tactic(crate):
    text = text_of(crate, 'proofs/**/Answers.antt')
    return re.findall(r"^([\w'-]+)(?: \w+)* = (?:let \w+ = c\.\w+ in )?(?:search|omega|simp|grind|cc)\b[^;\n]*$", text, re.M)


show('8a answers that are one tactic', {crate: one_tactic(crate) for crate in CRATES})
show('8b lines of answers and invariants', {
    crate: [''] * sum(1 for name in ('Answers', 'Invariants') for line in text_of(crate, f'proofs/**/{name}.antt').splitlines() if line)
    for crate in CRATES})
