#!/usr/bin/env python3
"""Checks that docs/PROVED.md is true to the tree: every definition, function, theorem, edit and file
that it names exists, and the line counts (imports, comments and blank lines left out) and their sums are
right."""
import os, re, sys

os.chdir(os.path.join(os.path.dirname(os.path.abspath(__file__)), '..'))
page = open('docs/PROVED.md', encoding='utf-8').read()
faults, checked = [], 0


def read(path):
    if not os.path.exists(path):
        return None
    with open(path, encoding='utf-8') as f:
        return f.read()


def sources(crate):
    folder = f'crates/{crate}/src'
    if not os.path.isdir(folder):
        return None
    return '\n'.join(read(os.path.join(folder, f)) for f in sorted(os.listdir(folder)) if f.endswith('.rt'))


for path, name in re.findall(r'`([\w/]+\.antt)#([^`]+)`', page):
    checked += 1
    text = read('crates/' + path)
    declared = r'(?m)^ *(?:unfoldable |abbrev )?(?:pub )?(?:record |data )?' + re.escape(name) + r'(?= [:({]| :)'
    if text is None or not re.search(declared, text):
        faults.append(f'{path}#{name}: no such definition or theorem')

def within(crate, owner):
    """The sources that a function's name says: those of a crate, or all impls of a type, of one crate where it is named."""
    if not crate and os.path.isdir(f'crates/{owner}'):
        return sources(owner)
    every = '\n'.join(filter(None, map(sources, [crate] if crate else sorted(os.listdir('crates')))))
    return '\n'.join(re.findall(r'(?ms)^impl\b[^\n{]*\b' + owner + r'\b[^\n{]* \{$.*?^\}$', every))


for crate, owner, name in re.findall(r'`(?:(\w+)::)?(\w+)::(\w+)`', page):
    checked += 1
    text = within(crate, owner)
    found = text and re.search(r'fn ' + name + r'\b(.*?)\n? *\{\n', text, re.S)
    if not found:
        faults.append(f'{owner}::{name}: no such function')
    elif 'ensures' not in found.group(1) and f'ghost {name}_gives' not in text:
        faults.append(f'{owner}::{name}: promises nothing')

for crate, name in re.findall(r'`(\w+)/must-fail/(\w+)`', page):
    checked += 1
    if not os.path.exists(f'crates/{crate}/must-fail/{name}.edit'):
        faults.append(f'{crate}/must-fail/{name}: no such edit')

for path, lines in re.findall(r'\| `([\w/]+\.antt)` \| (\d+) \|', page):
    checked += 1
    text = read('crates/' + path) or ''
    said = sum(1 for line in text.split('\n') if line.strip() and not re.match(r'use | *--', line))
    if said != int(lines):
        faults.append(f'{path}: {lines} lines on the page, {said} in the tree')

for said, table in re.findall(r'(?m)^For .*?, (\d+) lines.*:\n\n((?:\|.*\n)+)', page):
    checked += 1
    total = sum(int(n) for n in re.findall(r'\.antt` \| (\d+) \|', table))
    if total != int(said):
        faults.append(f'{said} lines on the page, {total} in its table')

for path in re.findall(r'`((?:tests|scripts|docs|bench|crates|include|hosts)/[\w./-]+)`', page):
    checked += 1
    if not os.path.exists(path):
        faults.append(f'{path}: no such file')

for crate in sorted(os.listdir('crates')):
    for edit in sorted(os.listdir(f'crates/{crate}/must-fail')) if os.path.isdir(f'crates/{crate}/must-fail') else []:
        checked += 1
        if f'`{crate}/must-fail/{edit[:-5]}`' not in page:
            faults.append(f'{crate}/must-fail/{edit}: not on the page')

for fault in faults:
    print(fault)
print(f'docs/PROVED.md: {checked} names checked')
sys.exit(1 if faults else 0)
