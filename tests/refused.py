#!/usr/bin/env python3
"""Why the prover refused each must-fail edit: reads the lines that rt ci or rt must-fail printed and holds them against the
table of docs/PROVED.md. An edit that is refused for its shape alone, since the proof no longer fits the code, shows
nothing of a promise: the table has to say so.

    python3 tests/refused.py LOG [all]     compares: every edit with a line in the log, and all of them where `all` stands behind
    python3 tests/refused.py LOG --write   puts the table into the page
"""
import glob, os, re, sys

log = os.path.abspath(sys.argv[1])
os.chdir(os.path.join(os.path.dirname(os.path.abspath(__file__)), '..'))
PAGE = 'docs/PROVED.md'
BEGIN, END = '<!-- refused -->\n', '<!-- end of refused -->\n'
# what the name of a goal says of it
KINDS = ((r'returns', 'what it promises'), (r'(loop|invariant)-.*-(init|preserved)', "its loop's invariant"),
         (r'.*-smaller', 'that its loop ends'), (r'.*-requires', 'what a callee asks'), (r'.*', 'a bound'))


def edited(edit):
    """The texts of the files that an edit changes, by their path, as rt changes them."""
    crate, name = edit.split('/')
    path = old = None
    texts = {}
    with open(f'crates/{crate}/must-fail/{name}.edit', encoding='utf-8') as f:
        for line in f.read().split('\n'):
            if line.startswith('file: '):
                path = line[len('file: '):].strip()
                if path not in texts:
                    with open(f'crates/{crate}/{path}', encoding='utf-8') as source:
                        texts[path] = source.read()
            elif line.startswith('old: '):
                old = line[len('old: '):]
            elif line.startswith('new:'):
                texts[path] = texts[path].replace(old, line[len('new:'):].removeprefix(' '))
    return texts


def function_at(edit, path, line):
    """The function of a note, which gives only a line of the edited source."""
    text = edited(edit).get(path)
    if text is None:
        with open(f'crates/{edit.split("/")[0]}/{path}', encoding='utf-8') as f:
            text = f.read()
    names = []
    for n, row in enumerate(text.split('\n'), 1):
        found = re.match(r'\s*(?:pub(?:\([a-z]+\))? )?(?:const |unsafe )*(?:extern "C" )?fn (\w+)', row)
        if found and (n <= line or not names):
            names.append(found.group(1))
        line += n == line and row.startswith('#[')    # an exported function begins with what marks it
    return names[-1]


def cell(edit, said):
    """The cell of the table for an edit, from what rt says behind `refused, as it must be`."""
    why = re.sub(r'^ \(only .*?\)(?=: )', '', said).removeprefix(': ')
    note = re.match(r'note: (?:\./)?(src/\S+?):(\d+):\d+: it is not proved .*?\(`([^`]*)', why)
    fault = re.match(r'(?:\./)?proofs/(\S+)\.antt:\d+:\d+: error: `([^`]+)`: (.*)', why)
    if said.startswith(' (only by a limit'):
        return 'by a limit of the prover'
    if note:
        path, line, goal = note.groups()
        function = function_at(edit, path, int(line))
    elif fault:
        path, goal, words = fault.groups()
        folder, _, file = path.rpartition('/')
        function = folder.split('/')[-1].lstrip('+')
        if said.startswith(' (only') or goal == 'walk' or words.startswith('record `') or 'that can be named from here' in words:
            return f'its shape, at `{function or file}`'
        if not folder:
            return f'`{goal}`: a law'
    elif said.startswith(' (only'):
        return 'its shape'
    else:
        return 'nothing that is known'
    kind = next(words for pattern, words in KINDS if re.fullmatch(pattern + r'(-.*)?', goal))
    return f'`{function}`: {kind}'


edits = sorted(p[len('crates/'):-len('.edit')].replace('/must-fail/', '/') for p in glob.glob('crates/*/must-fail/*.edit'))
with open(log, encoding='utf-8', errors='replace') as f:
    lines = dict(re.findall(r'(?m)^rt: must-fail (\w+/\S+)\.edit: refused, as it must be(.*)$', f.read()))
found = {edit: cell(edit, lines[edit]) if edit in lines else None for edit in edits}
with open(PAGE, encoding='utf-8') as f:
    page = f.read()
head, table, tail = re.fullmatch(f'(.*{BEGIN})(.*)({END}.*)', page, re.S).groups()
listed = dict(re.findall(r'(?m)^\| `(\w+/\w+)` \| (.*?) \|', table))
if sys.argv[2:] == ['--write']:
    rows = ''.join(f'| `{edit}` | {found[edit] or listed.get(edit, "")} |\n' for edit in edits)
    with open(PAGE, 'w', encoding='utf-8') as f:
        f.write(head + '| edit | refused for |\n|---|---|\n' + rows + tail)
    sys.exit()
faults = [f'{edit}: the page says: {listed.get(edit)}; the log says: {found[edit]}' for edit in edits
          if listed.get(edit) != found[edit] and (found[edit] or sys.argv[2:] == ['all'])]
faults += [f'{edit}: on the page, and no such edit' for edit in listed if edit not in found]
for fault in faults:
    print(fault)
looked = sum(1 for edit in edits if found[edit])
shaped = sum(1 for edit in edits if (found[edit] or '').startswith('its shape'))
print(f'must-fail edits: {looked} of {len(edits)} lines read, {shaped} refused for their shape alone, which the page lists')
sys.exit(1 if faults else 0)
