#!/usr/bin/env python3
"""Lists the places of src/ at which the code may not yet have the form that today's Rattle allows.

usage: tools/places.py [FOLDER]      (FOLDER has crates/; the default is the folder where it is called)

It goes by text: a hit is a place to read, and not a verdict. docs/DESIGN-PASS.md says what became of each.
"""
import collections
import glob
import os
import re
import sys

TOP = sys.argv[1] if len(sys.argv) > 1 else '.'


def sources():
    """Each file below src/ with its lines before the tests."""
    for path in sorted(glob.glob(os.path.join(TOP, 'crates/*/src/*.rt'))):
        lines = open(path, encoding='utf-8').read().split('\n')
        for i, line in enumerate(lines):
            if line.startswith('#[cfg(test)]'):
                lines = lines[:i]
                break
        yield os.path.relpath(path, TOP), lines


FILES = list(sources())


def hits(title, pattern, but=None):
    found = [(p, i + 1, line.strip()) for p, lines in FILES for i, line in enumerate(lines)
             if not line.lstrip().startswith('//') and not line.startswith('ghost use')
             and re.search(pattern, line) and not (but and re.search(but, line))]
    print(f'## {title}: {len(found)}')
    for p, i, line in found:
        print(f'  {p}:{i}: {line[:110]}')


def functions():
    """Each function with the lines of its body."""
    for p, lines in FILES:
        i = 0
        while i < len(lines):
            m = re.match(r'(\s*)(?:pub(?:\([a-z]+\))? )?fn ([a-z_0-9]+)', lines[i])
            if m:
                indent = m.group(1)
                start = i
                while i < len(lines) and lines[i] != indent + '}' and not lines[i].endswith(';'):
                    i += 1
                body = lines[start:i]
                opened = [k for k, line in enumerate(body) if line == indent + '{']
                yield p, start + 1, m.group(2), body[:opened[0]] if opened else body, body[opened[0] + 1:] if opened else []
            i += 1


def shape(body):
    text = ' '.join(line.strip() for line in body if not line.strip().startswith('//'))
    text = re.sub(r'b?"[^"]*"|b?\'[^\']\'', 'S', text)
    text = re.sub(r'\b\d[\d_]*\b', 'N', text)
    return re.sub(r'\b[A-Za-z_][A-Za-z_0-9]*\b', 'x', text)


def twins():
    by_shape = collections.defaultdict(list)
    for p, line, name, _head, body in functions():
        s = shape(body)
        if len(s) > 24:
            by_shape[s].append(f'{p}:{line} {name}')
    groups = [g for g in by_shape.values() if len(g) > 1]
    print(f'## 2 functions with bodies of one shape: {len(groups)} groups')
    for g in groups:
        print('  ' + '; '.join(g))
    by_value = collections.defaultdict(list)
    for p, lines in FILES:
        for i, line in enumerate(lines):
            m = re.match(r'(?:pub(?:\([a-z]+\))? )?const ([A-Z_]+): [^=]*= (.*);', line)
            if m:
                by_value[m.group(1)].append(f'{p}:{i + 1} {m.group(2)}')
    groups = [(n, g) for n, g in by_value.items() if len(g) > 1]
    print(f'## 2 constants of one name: {len(groups)}')
    for n, g in groups:
        print(f'  {n}: ' + '; '.join(g))


def repeated_clauses():
    count = collections.defaultdict(list)
    for p, line, name, head, _body in functions():
        for text in head:
            m = re.match(r'\s*(requires|ensures)(?: [a-z_]+)? (\{.*\})$', text)
            if m:
                count[m.group(2)].append(name)
    found = [(t, n) for t, n in count.items() if len(n) > 2]
    print(f'## 5 clauses that three or more functions have: {len(found)}')
    for t, n in found:
        print(f'  {t}: ' + ', '.join(n))
    together = collections.Counter()
    where = collections.defaultdict(list)
    for p, line, name, head, _body in functions():
        text = ' '.join(h.strip() for h in head if not re.match(r'\s*(requires|ensures)', h))
        m = re.search(r'\((.*)\)', text)
        names = [x for x in re.findall(r'(?:mut )?([a-z_]+): ', m.group(1))] if m else []
        for i in range(len(names)):
            for j in range(i + 1, len(names)):
                key = tuple(sorted((names[i], names[j])))
                together[key] += 1
                where[key].append(name)
    found = [(k, n) for k, n in together.items() if n > 2]
    print(f'## 5 pairs of parameters that three or more functions have: {len(found)}')
    for k, n in sorted(found, key=lambda kn: -kn[1]):
        print(f'  {k[0]}, {k[1]}: {n} ({", ".join(where[k])})')


hits('1 flags', r'^\s*(pub(\([a-z]+\))? )?[a-z_]+: bool,')
hits('1 enums of our own', r'^(pub(\([a-z]+\))? )?enum ')
hits('1 variants and numbers in a match', r'^\s*[A-Z][A-Za-z]*::[A-Za-z]+(\([a-z_]+\))? => [0-9]+,|^\s*[0-9]+ (if .*)?=>|^\s*[A-Z]{3,} => |^const [A-Z_]+: (u8|Code) = ')
hits('1 numbers that say that a row is empty', r'\b(expiry|until|stored): 0,')
hits('1 types with no derive of a comparison', r'^#\[derive\(', r'PartialEq|Drop')
twins()
hits('3 loops', r'\b(for|while|loop)\b .*\{', r'\bimpl\b')
hits('3 indices by hand', r'\benumerate\(\)|\[i\]|\[i as|\bif [a-z]+ < [a-z.]+\.len\(\)')
hits('4 comparisons by hand', r'^impl.* (PartialEq|Eq|PartialOrd|Ord|Hash|Clone|Copy|Debug|Default) for ')
hits('4 conversions by hand', r'fn (number|cause|bits|from_bits|byte|[a-z_]*_of|of_[a-z_]+|from_[a-z]+|widened|[a-z]+_type|[a-z]+_code|method_[a-z]+|read_head|[a-z]*digit[a-z_]*|after_header)\b')
hits('4 printing by hand', r'fn (push_[a-z_]+|[a-z_]*_name|[a-z_]*_text|put_[a-z_]+)\b')
repeated_clauses()
hits('6 buffers with a length, places by index', r'^\s*(pub(\([a-z]+\))? )?(len|count|at): usize,|^\s*[a-z_]+: \[[^]]*; [0-9A-Z]+\],|let mut [a-z_]+ = \[0(u8)?; ')
hits('7 steps that are chosen, functions as values', r'\bdyn |: fn\(|\bFn(Mut|Once)?\(|enum (Step|Stage|Kind|Mode)')
