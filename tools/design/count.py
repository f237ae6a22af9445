#!/usr/bin/env python3
"""count.py [-l] [POINT ..]

Counts the places that docs/DESIGN-PASS.md speaks of, in crates/*/src and, for point 8, in crates/*/proofs: a line for each point, and with -l
each place. It goes by the text alone. Run it at the top of the repository.
"""
import collections
import glob
import re
import sys

FN = re.compile(r'^( *)(?:pub )?(?:const )?fn (\w+)', re.M)


def sources():
    for path in sorted(glob.glob('crates/*/src/*.rt')):
        yield path.split('/')[1], open(path).read()


def functions():
    """(crate, name, head, body): the head ends before the brace that opens the body."""
    for crate, text in sources():
        starts = [m for m in FN.finditer(text)]
        for m in starts:
            indent = m.group(1)
            end = text.find('\n' + indent + '}', m.start())
            whole = text[m.start():end]
            if whole.split('\n')[0].endswith(';'):
                continue
            brace = whole.find('\n' + indent + '{')
            if brace < 0:
                brace = whole.find(' {\n')
            yield crate, m.group(2), whole[:brace], whole[brace:]


def plain(text):
    return re.sub(r'//[^\n]*', '', text)


def point_1():
    for crate, text in sources():
        for name, body in re.findall(r'enum (\w+)(?:<[^>]*>)? \{(.*?)\n\}', plain(text), re.S):
            if re.search(r'\b(Bad|Nothing|Gap|Full|No|NoRoom|Below|Refuse|Refused|Damaged|Yes)\b', body):
                yield f'enum {crate}::{name}'
        for name, body in re.findall(r'struct (\w+)(?:<[^>]*>)? \{(.*?)\n\}', plain(text), re.S):
            if re.search(r'\b(ok|there|full|found|linked): bool|\bnumber: u8', body):
                yield f'struct {crate}::{name}'
            if re.search(r'\bkind: \w+Kind', body):
                yield f'struct {crate}::{name} (a kind beside what one kind has)'
    for crate, name, head, body in functions():
        if re.search(r'-> u8\b', head) and re.search(r'(number|refusal|check|Refus|Reads|Steps|Decodes|opened|committee|log_check)', head):
            yield f'fn {crate}::{name} answers a number'


def point_2():
    groups = collections.defaultdict(list)
    for crate, name, head, body in functions():
        text = plain(body)
        text = re.sub(r'"[^"]*"', '""', text)
        text = re.sub(r'\b(0x[0-9a-f_]+|\d[\d_]*)(u8|u32|u64|usize)?\b', '#', text)
        text = re.sub(r'\b[A-Z]\w*', 'T', text)
        text = re.sub(r'\b(?!if\b|else\b|match\b|while\b|for\b|in\b|let\b|mut\b|return\b|loop\b|as\b)[a-z_]\w*', 'v', text)
        text = re.sub(r'\s+', ' ', text)
        if len(text) >= 60:
            groups[text].append(f'{crate}::{name}')
    for members in groups.values():
        if len(members) > 1:
            yield ' ~ '.join(members)


def point_3():
    for crate, name, head, body in functions():
        for m in re.finditer(r'\b(while|loop)\b([^\n]*)', plain(body)):
            rest = plain(body)[m.start():]
            if re.search(r'\b\w+ (\+|-)= (1|4|8 \* n)\b|= \w+ \+ 1\b', rest):
                yield f'{crate}::{name}: {m.group(1)}{m.group(2).rstrip(" {")}'


def point_4():
    for crate, name, head, body in functions():
        if re.match(r'(wide|max|same_\w+|compare\w*|be_\w+|put_be|stop_word|\w+_word|number|hex_digit|missing)$', name):
            yield f'{crate}::{name}'


def clauses(head):
    for text in re.findall(r'requires(?: \w+)? \{(.*?)\}\s*(?:requires|ensures|$)', head, re.S):
        for part in re.split('×', text):
            yield re.sub(r'\s+', ' ', part).strip(' ()')


def point_5():
    facts = collections.defaultdict(set)
    for crate, name, head, body in functions():
        for fact in clauses(head):
            facts[re.sub(r'\b(t|index|table|unprocessed|pending|committed|work|image|s|out)\b', 'x', fact)].add(f'{crate}::{name}')
    for fact, members in sorted(facts.items()):
        if len(members) >= 3:
            yield f'{len(members)} functions ask: {fact}'
    sets = {
        'k, image, used': ('k: u64', 'image: &', 'used: u64'),
        'store, index': ('store: BlockStore', 'index: &'),
        'pending, unprocessed, committed, index': ('pending: &', 'unprocessed: &', 'committed: &', 'index: &'),
        'size, own': ('size: u64', 'own: u64'),
        'writer, image': ('writer: WalWriter', 'image: &'),
        'out, at': ('out: &mut', 'at: usize'),
        'index, count': ('index: &', 'count: usize'),
        't, count': ('t: &', 'count: usize'),
        'table, register': ('table: &', 'register: u32'),
        'every, author': ('every: bool', 'autho'),
    }
    for label, parts in sets.items():
        n = sum(1 for _, _, head, _ in functions() if all(p in head for p in parts))
        if n >= 3:
            yield f'{n} functions take {label}'


def point_6():
    for crate, name, head, body in functions():
        if re.search(r'\b(t|index|table|work|pending|committed|unprocessed): &(mut )?\[u64\]', head) and re.search(r'\b(count|n): usize', head):
            yield f'{crate}::{name}: words and their count'
    for crate, text in sources():
        for name, body in re.findall(r'struct (\w+)(?:<[^>]*>)? \{(.*?)\n\}', plain(text), re.S):
            if re.search(r'\b(at|start|state): usize', body) and re.search(r'\b(len|count|left): usize', body):
                yield f'struct {crate}::{name}: a place and a length'


def point_7():
    for crate, name, head, body in functions():
        if re.search(r'match (tag|variant|step_kind)\b', body):
            yield f'{crate}::{name}: a match on a number'
        if re.search(r'\b(every|later): bool', head):
            yield f'{crate}::{name}: a flag that chooses what is asked'


def point_8():
    answers = 0
    same = collections.Counter()
    for path in glob.glob('crates/*/proofs/**/Answers.antt', recursive=True):
        text = open(path).read()
        answers += len(re.findall(r'^pub \S+ : goal', text, re.M))
        for body in re.split(r'^pub \S+ : goal\S*\n(?:unfolding[^\n]*\n)?', text, flags=re.M)[1:]:
            body = re.sub(r'^\S+ ', '', re.sub(r'\s+', ' ', body))
            if len(body) > 60:
                same[(path, body)] += 1
    yield f'{answers} answers'
    for (path, body), n in sorted(same.items()):
        if n >= 3:
            yield f'{path}: the same answer {n} times'


def main():
    args = sys.argv[1:]
    listed = '-l' in args
    points = [int(a) for a in args if a != '-l'] or range(1, 9)
    for n in points:
        places = list(globals()[f'point_{n}']())
        print(f'{n}: {len(places)} places')
        if listed:
            for place in places:
                print(f'   {place}')


main()
