#!/usr/bin/env python3
"""Brings the names of definitions and lemmas to one spelling: snake case, and upper camel case for types.

usage: tools/respell.py [--dry]      at the top of the checkout

It goes by text. A name is taken from the place where it is defined in specs/ or proofs/; constructors, goals that the
prover names, and all names of src/ keep their spelling. It stops where two names would fall together.
"""
import os
import re
import sys

# names whose snake case falls together with another name, or which are no words
CHOSEN = {
    'answers-++': 'answers_append',
    'asks-for': 'asks_for_fine',
    'content-read': 'content_reads_back',
    'each-change-once': 'each_change_is_once',
    'exchangeIn': 'exchange_by_bytes',
    'exchangeOf': 'exchange_by_head',
    'extendedSize': 'extension_size',
    'holderIn': 'holder_by_bytes',
    'isOthers': 'is_of_others',
    'isRequest': 'is_of_request',
    'methodOf': 'method_by_code',
    'not-request': 'not_request_fine',
    'noting-all': 'noting_all_is',
    'officeStack': 'office_meaning',
    'option-place': 'option_place_is',
    'pathOf': 'segments_of',
    'plotAt': 'plot_by_path',
    'plotsStack': 'plots_meaning',
    'post-non': 'post_non_asked',
    'replyType': 'type_of_reply',
    'tally-line': 'tally_line_is',
    'toldAge': 'age_told',
    'countedAll-++': 'counted_all_append',
    'fed-++': 'fed_append',
    'joined-++': 'joined_append',
    'lineAfter-++': 'line_after_append',
    'linesIn-++': 'lines_in_append',
}

# a field of a definition may have the name of a field of the code
SHARED = {'maxAge'}

CHAR = r"[A-Za-z0-9_'\u03b1-\u03c9\u2080-\u2089\u00b7+\-\u25cc\u2032]"
NAME = r"[A-Za-z\u03b1-\u03c9][^\s(){}\[\],;.:=]*"
TOKEN = re.compile(CHAR + '+')


def files(kinds):
    for folder, folders, names in os.walk('crates'):
        folders[:] = sorted(f for f in folders if f not in ('out', 'target'))
        for name in sorted(names):
            if name.endswith(kinds):
                yield os.path.join(folder, name)


def defined():
    """Each name that specs/ and proofs/ define, with its kinds: type, field, constructor, value."""
    found = {}
    for path in files(('.antt',)):
        inside = None
        for line in open(path, encoding='utf-8').read().split('\n'):
            head = re.match(r'^\s*(?:abbrev )?(?:pub )?(record|data) (%s)' % NAME, line)
            if head:
                found.setdefault(head.group(2), set()).add('type')
                inside = head.group(1)
                continue
            if re.match(r'^\S', line):
                inside = None
            item = re.match(r'^\s*(?:abbrev )?(?:pub )?(%s(?: %s)*) : (.*)' % (NAME, NAME), line)
            if not item or line.lstrip().startswith('--') or item.group(2).startswith('goal.'):
                continue
            kind = 'value'
            if item.group(2).rstrip().endswith(('Type 0', 'Type 1')):
                kind = 'type'
            elif inside == 'record':
                kind = 'field'
            elif inside == 'data':
                kind = 'constructor'
            for name in item.group(1).split():
                if name not in ('let', 'where', 'in', 'module', 'elim'):
                    found.setdefault(name, set()).add(kind)
    return found


def snake(name):
    name = name.replace('-', '_')
    name = re.sub(r'([a-z0-9])([A-Z])', r'\1_\2', name)
    return name.lower()


def camel(name):
    return ''.join(part[0].upper() + part[1:] for part in name.split('-'))


def respelled(found):
    names = {}
    for name, kinds in found.items():
        if 'constructor' in kinds:
            continue
        new = CHOSEN.get(name) or (camel(name) if 'type' in kinds and name[0].isupper() else snake(name) if not name[0].isupper() else name)
        if new != name:
            names[name] = new
    return names


def main():
    dry = '--dry' in sys.argv
    found = defined()
    names = respelled(found)
    fall = 0
    taken = {}
    for name, new in sorted(names.items()):
        if new in found and new not in names:
            print('falls together with a definition:', name, '->', new)
            fall += 1
        if new in taken:
            print('fall together:', name, taken[new], '->', new)
            fall += 1
        taken[new] = name
    texts = {}
    pages = [p for p in ['README.md'] + [os.path.join('docs', f) for f in sorted(os.listdir('docs'))] if p.endswith('.md') and os.path.basename(p) != 'PORT.md']
    for path in list(files(('.antt', '.rt', '.edit'))) + pages:
        text = open(path, encoding='utf-8').read()
        tokens = set(TOKEN.findall(text))
        for name in sorted(tokens & set(names)):
            if names[name] in tokens and name not in SHARED and not path.endswith('.md'):
                print('stands there already:', path, name, '->', names[name])
                fall += 1
        texts[path] = TOKEN.sub(lambda m: names.get(m.group(0), m.group(0)), text)
    print(len(names), 'names,', fall, 'fall together')
    if dry:
        return
    for path, text in texts.items():
        if text != open(path, encoding='utf-8').read():
            open(path, 'w', encoding='utf-8').write(text)


main()
