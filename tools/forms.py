#!/usr/bin/env python3
"""Lists the places of docs/DESIGN-PASS.md in the .rt files of crates/*/src.

    python3 tools/forms.py [COMMIT]

Without a commit it reads the files as they lie. Each point's places are counted a crate, and listed.
What a pattern finds is a candidate: docs/DESIGN-PASS.md says of each what it is.
"""
import re
import subprocess
import sys
from collections import defaultdict

COMMIT = sys.argv[1] if len(sys.argv) > 1 else None


def files():
    if COMMIT:
        names = subprocess.run(['git', 'ls-tree', '-r', '--name-only', COMMIT, 'crates'], capture_output=True, text=True, check=True).stdout.split()
    else:
        names = subprocess.run(['git', 'ls-files', 'crates'], capture_output=True, text=True, check=True).stdout.split()
    for name in names:
        if '/src/' in name and name.endswith('.rt'):
            if COMMIT:
                yield name, subprocess.run(['git', 'show', f'{COMMIT}:{name}'], capture_output=True, text=True, check=True).stdout
            else:
                yield name, open(name, encoding='utf-8').read()


def code(text):
    return re.sub(r'//[^\n]*', '', text)


def functions(text):
    """Name, parameters, clauses and body of each function."""
    for m in re.finditer(r'^( *)(?:pub(?:\([a-z]+\))? )?(?:extern "C" )?fn (\w+)(.*?)^\1\}', text, re.S | re.M):
        head, _, body = m.group(3).partition('\n' + m.group(1) + '{\n')
        parts = re.split(r'\n\s*(?=requires|ensures)', head)
        yield m.group(2), parts[0], parts[1:], body


PATTERNS = [
    ('1 enums', r'^(?:pub(?:\([a-z]+\))? )?enum \w+'),
    ('1 flags beside values', r'^ +(?:pub )?\w+: bool,'),
    ('1 numbers for kinds and refusals', r'^(?:pub(?:\([a-z]+\))? )?const (?!\w*_MAX)[A-Z_]+: (?:u8|u16|usize) = (?:\d+|usize::MAX);'),
    ('1 answers that are numbers of refusals', r'fn \w*[^{;]*?-> u8\b'),
    ('3 while', r'\bwhile\b[^\n]*'),
    ('3 for over indices', r'\bfor \w+ in \S*\.\.[^\n]*'),
    ('4 functions that convert', r'fn (?:wide|long|short|trit|net|code|trit_code|bit_of|cell_net|clip|digit|figure|sign|mask)\('),
    ('4 equality by hand', r'fn (?:same|alike|matrices|same_\w+)\(|check::same\('),
    ('4 printing by hand', r'fn (?:text|number|trit|net|shown|bytes|count|next)\(rt[^\n]*|fn (?:text|number|trit|net|shown|bytes|count)\(\n'),
    ('6 arrays with a count beside', r'\w+: \[u(?:8|16); [^\]]+\],\s*(?:\w+: \[[^\]]*\],\s*)?(?:n|count|len|columns|m)\b'),
    ('7 switches', r'\b(?:hot|positions): bool|letter: u8|kind: (?:u8|usize)'),
]


def main():
    texts = list(files())
    found = defaultdict(list)
    clauses, groups, bodies = defaultdict(set), defaultdict(set), defaultdict(list)
    for name, text in texts:
        crate = name.split('/')[1]
        text = code(text)
        for point, pattern in PATTERNS:
            for m in re.finditer(pattern, text, re.M):
                line = text.count('\n', 0, m.start()) + 1
                found[point].append((crate, f'{name}:{line}: {" ".join(m.group(0).split())[:90]}'))
        for f, head, cs, body in functions(text):
            here = f'{name}: {f}'
            for c in cs:
                if c.startswith('requires'):
                    for fact in re.split(r'\) × \(| × ', c[c.find('{') + 1:c.rfind('}')].strip()):
                        clauses[fact.strip(' ()')].add(here)
            params = re.findall(r'(\w+): ([^,()]+(?:\([^()]*\))?[^,()]*)', head.split('->')[0])
            for i in range(len(params) - 2):
                groups[' '.join(f'{a}: {b.strip()},' for a, b in params[i:i + 3])].add(here)
            # One shape: names, numbers and types left out.
            shape = re.sub(r'\b(?!let|mut|while|for|in|if|else|return|match|true|false)[A-Za-z_]\w*(?:::\w+)*|\d\w*', '_', body)
            if shape.count('\n') >= 4:
                bodies[re.sub(r'\s+', ' ', shape)].append((crate, here))
    for shape, places in bodies.items():
        if len(places) > 1:
            for crate, here in places:
                found['2 functions of one shape'].append((crate, here + '  [' + str(len(places)) + ']'))
    for fact, places in clauses.items():
        if len(places) >= 3:
            for here in sorted(places):
                found['5 facts required by three or more'].append((here.split('/')[1], f'{here}: {fact}'))
    for group, places in groups.items():
        if len(places) >= 3:
            for here in sorted(places):
                found['5 parameters that travel together'].append((here.split('/')[1], f'{here}: {group}'))
    for point in sorted(found):
        per = defaultdict(int)
        for crate, _ in found[point]:
            per[crate] += 1
        print(f'{point}: {len(found[point])}  (' + ', '.join(f'{c} {n}' for c, n in sorted(per.items())) + ')')
    print()
    for point in sorted(found):
        print(f'## {point}')
        for _, where in found[point]:
            print(where)


main()
