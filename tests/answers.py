#!/usr/bin/env python3
"""Holds the answers in words against docs/REFUSALS.md, whose headings are the words, against crates/refusal and
against include/overlap.h.

    answers.py PROGRAM...     each says answers in words, as tests/c/answers.c and tests/answers.rs do

Asked are all codes of the four calls, those that a call never gives with them, and every number alone. Of the codes
with an operation's index in them, which overlap_reason_call gives, those are asked around some indexes."""
import os, re, subprocess, sys

os.chdir(os.path.join(os.path.dirname(os.path.abspath(__file__)), '..'))
faults = []


def read(path):
    with open(path, encoding='utf-8') as f:
        return f.read()


def check(holds, fault):
    if not holds:
        faults.append(fault)


page = read('docs/REFUSALS.md')
WORDS = {int(n): words for n, words in re.findall(r'(?m)^### Number (\d+): (.*)$', page)}
PLAIN = {('pair', int(n)): words for n, words in re.findall(r'(?m)^### Answer (\d+): (.*)$', page)}
REASONS = {int(n): words for n, words in re.findall(r'(?m)^### Reason (\d+): (.*)$', page)}
PLAIN |= {('reason', 0): PLAIN['pair', 1]} | {('reason', n): f'no overlap: {words}' for n, words in REASONS.items()}
PLAIN |= {('filed', int(n)): words for n, words in re.findall(r'(?m)^### Filed group, answer (\d+): (.*)$', page)}
PLAIN |= {('trailer', 0): 'trailer made'}
NAMES = {'pair': 'overlap_call', 'reason': 'overlap_reason_call', 'filed': 'overlap_filed_call', 'trailer': 'overlap_trailer_call'}
OPERATIONS = (65536 - 32) // 4   # as many fill the longest record


def given():
    """Every refusal that a call gives, but for those of overlap_reason_call: call, number and place, and the words for
    the place."""
    of_a_record = [1, 2, 3, 4, 5, 7, 8]   # 6 is withdrawn
    for number in of_a_record:
        yield 'pair', number, 1, ', first record'
        yield 'pair', number, 2, ', second record'
    for call, of_record, of_none in ('filed', [*of_a_record, 11], [9, 15, 19, 20, 21]), ('trailer', [*range(1, 5), 11], [10, 19]):
        for number in of_record:
            yield from ((call, number, place, f', record with index {place}') for place in range(256))
        yield call, 12, 256, ', record with index 256'
        yield from ((call, number, 0, '') for number in of_none)
    yield from (('pair', number, 0, '') for number in (9, 10, 15, 22))


def given_by_reason():
    """Every refusal of overlap_reason_call: its code, its number, and the words for record and operation. They are those
    for a pair, less 9, 10, 15 and 22; number 5 has the operation's index in it."""
    for call, number, place, record in given():
        if call == 'pair' and place > 0:
            for index in range(OPERATIONS if number == 5 else 1):
                operation = f', operation with index {index}' if number == 5 else ''
                yield 10000 * index + 1000 + 100 * place + number, number, record + operation


def asked(call):
    """The codes that are asked of a call."""
    yield from range(30000)
    yield from (65536, 10 ** 6, 2 ** 31, 2 ** 32 - 1)
    if call == 'reason':
        for index in 3, 9, 100, OPERATIONS - 1, OPERATIONS, 65535, 2 ** 32 // 10000:
            yield from range(10000 * index, 10000 * index + 1400)


def texts():
    """What is asked, and the text that is expected."""
    known = dict(PLAIN)
    known |= {(call, 1000 + 100 * place + number): f'refused: {WORDS[number]} (number {number}{record})'
              for call, number, place, record in given()}
    known |= {('reason', code): f'refused: {WORDS[number]} (number {number}{where})' for code, number, where in given_by_reason()}
    for call in NAMES:
        for code in asked(call):
            yield f'{call} {code}', known.get((call, code), f"answer {code} is none of {NAMES[call]}'s")
    for number in range(300):
        yield f'number {number}', WORDS.get(number, 'none')


def check_sources():
    table = {int(n) for n in re.findall(r'(?m)^REFUSAL\((\d+),', read('hosts/c/answers.def'))}
    row = r'Refusal::\w+(?:\([\w, ]+\))? => Row(?:::plain\(| \{\s*number: )(\d+),'
    numbers = {int(n) for n in re.findall(row, read('crates/refusal/src/lib.rt'))}
    withdrawn = {int(n) for n in re.findall(r'(?m)^REFUSAL\((\d+), .*"withdrawn: ', read('hosts/c/answers.def'))}
    check(withdrawn == {6}, f'the table has withdrawn {sorted(withdrawn)}')
    check(len(numbers) > 0 and numbers == table - withdrawn, f'crates/refusal has {sorted(numbers)}, the table {sorted(table)}')
    check(table == set(WORDS), f'docs/REFUSALS.md has {sorted(WORDS)}, the table {sorted(table)}')
    rows = re.findall(r'(?m)^ \* +\d+ +((?:1[012]\d\d )+) ', read('include/overlap.h'))
    declared = {int(code) for row in rows for code in row.split()}
    of_pair = {1000 + 100 * place + number for call, number, place, _ in given() if call == 'pair'}
    check(declared == of_pair, f'include/overlap.h has for a pair {sorted(declared)}, and not {sorted(of_pair)}')
    check_reasons()
    check_caps()
    room, = re.findall(r'#define OVERLAP_TEXT_SIZE (\d+)', read('hosts/c/overlap_text.h'))
    longest = max(len(text) for _, text in texts())
    check(longest < int(room), f'the longest text has {longest} bytes, and the room {room}')


def check_reasons():
    """The reasons by number and name: in the header, where each is defined and told, in the table, in hosts/rust, and in
    crates/pair_judgement."""
    header, rust = read('include/overlap.h'), read('hosts/rust/overlap.rs')
    defined = [(int(n), name) for name, n in re.findall(r'(?m)^#define OVERLAP_REASON_(\w+) (\d+)$', header)]
    told = [(int(n), name) for n, name in re.findall(r'(?m)^ \*   (\d+) +OVERLAP_REASON_(\w+): ', header)]
    variants = re.findall(r'(?m)^    (\w+)(?: = 1)?,$', re.search(r'pub enum Reason \{(.*?)\n\}', rust, re.S).group(1))
    table = [int(n) for n in re.findall(r'(?m)^ANSWER\(REASON, (\d+), "no overlap: ', read('hosts/c/answers.def'))]
    check([n for n, _ in defined] == [1, 2, 3, 4, 5] and defined == told, f'include/overlap.h defines {defined} and tells {told}')
    names = [name.title().replace('_', '') for _, name in defined]
    reasons = re.search(r'(?s)pub enum Reason \{(.*?)\n\}', read('crates/pair_judgement/src/lib.rt')).group(1)
    proved = re.findall(r'(?m)^    (\w+) = (\d+),$', reasons)
    check(variants == names, f'hosts/rust has the reasons {variants}')
    check(proved == list(zip(names, '12345')), f'crates/pair_judgement has the reasons {proved}')
    check(table == [n for n, _ in defined] == list(REASONS), f'docs/REFUSALS.md has the reasons {list(REASONS)}, the table {table}')


def check_caps():
    """The least cap and the largest: in the words of refusal 22, in the header, in hosts/rust and in crates/strategy."""
    words = re.fullmatch(r'cap outside of (\d+) to (\d+)', WORDS[22]).groups()
    for path, bound in (('include/overlap.h', r'(?m)^#define OVERLAP_CAP_M(?:IN|AX) (\d+)$'),
                        ('hosts/rust/overlap.rs', r'(?m)^pub const CAP_M(?:IN|AX): u32 = (\d+);$'),
                        ('crates/strategy/src/lib.rt', r'(?m)^pub const (?:LEAST|FULL)_CAP: u8 = (\d+);$')):
        found = tuple(re.findall(bound, read(path)))
        check(found == words, f'{path} has the caps {found}, and docs/REFUSALS.md {words}')


def check_program(program):
    asked, expected = zip(*texts())
    done = subprocess.run([program], input='\n'.join(asked) + '\n', capture_output=True, text=True)
    said = done.stdout.split('\n')[:-1]
    check(done.returncode == 0 and len(said) == len(asked), f'{program}: {len(said)} texts of {len(asked)}, {done.stderr}')
    for question, text, got in zip(asked, expected, said):
        check(text == got, f'{program}, {question}\n expected: {text}\n got:      {got}')
    return len(said)


check_sources()
compared = sum(check_program(program) for program in sys.argv[1:])
for fault in faults[:5]:
    print(fault)
print(f'answers in words: {len(WORDS)} refusals, {len(REASONS)} reasons, {compared} texts compared, {len(faults)} faults')
sys.exit(1 if faults or compared == 0 else 0)
