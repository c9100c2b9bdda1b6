#!/usr/bin/env python3
"""Where src/ still reads like the older language: `places.py [POINT]` lists the places of docs/DESIGN-PASS.md's points, or the places of one.

A place is a line to look at, no verdict; docs/DESIGN-PASS.md says which stay, and why."""
import collections
import glob
import re
import sys

SOURCES = sorted(glob.glob('crates/*/src/**/*.rt', recursive=True))
TEXTS = {f: open(f, encoding='utf-8').read().split('\n') for f in SOURCES}
FLAGS = 'ok|there|found|full|taken|yes|passed|out|steady|good|reads|goes|going|failed'
SENTINEL = r'const (NONE|MISSING|NO_[A-Z]+): (u8|u16|usize|u64|i32)'
KEPT_WORDS = {'fn', 'let', 'mut', 'if', 'else', 'while', 'loop', 'for', 'in', 'return', 'match', 'pub', 'as', 'self', 'Self', 'true', 'false', 'u8', 'u16', 'u32', 'u64', 'usize', 'bool', 'N', 'S'}


def lines():
    for f in SOURCES:
        for i, line in enumerate(TEXTS[f]):
            if not re.match(r'\s*//', line):
                yield f, i, line


def matching(pattern):
    return [(f, i + 1, line.strip()) for f, i, line in lines() if re.search(pattern, line)]


def items(start):
    """Each item that begins so, with its lines to the closing brace."""
    for f in SOURCES:
        text = TEXTS[f]
        for i, line in enumerate(text):
            m = re.match(r'(\s*)' + start, line)
            if m:
                end = next((j for j in range(i, len(text)) if text[j].startswith(m.group(1) + '}')), i)
                yield f, i + 1, [x.strip() for x in text[i:end + 1]]


def own_options():
    """Enums with two variants, of which one at least holds something; structs with a flag beside a value; sentinels; refusals and kinds as numbers."""
    for f, at, body in items(r'(pub(\(\w+\))? )?enum \w+'):
        variants = [x for x in body[1:-1] if re.match(r'[A-Z]', x)]
        if len(variants) == 2 and re.search(r'[({]', ''.join(variants)):
            yield f, at, 'enum: ' + ' '.join(body)[:90]
    for f, at, body in items(r'(pub(\(\w+\))? )?struct \w+'):
        fields = [x for x in body[1:-1] if re.match(r'(pub )?\w+:', x)]
        if len(fields) > 1 and any(re.match(rf'(pub )?({FLAGS}): bool,', x) for x in fields):
            yield f, at, 'flag: ' + ' '.join(body)[:90]
        if any(re.match(r'(pub )?number: (u8|usize|u64),', x) for x in fields):
            yield f, at, 'refusal: ' + ' '.join(body)[:90]
    for f, at, line in matching(SENTINEL):
        yield f, at, 'sentinel: ' + line
    for f, at, line in matching(r'\b(kind|mode|way|what): (u8|usize)\b'):
        yield f, at, 'kind: ' + line


def shape(body):
    names = {}
    text = ' '.join(x for x in body if not re.match(r'(requires|ensures)|//', x))
    text = re.sub(r'//.*', '', text)
    text = re.sub(r'b?"[^"]*"', 'S', text)
    text = re.sub(r"b?'[^']*'|\b\d+\b", 'N', text)
    return re.sub(r'\b[A-Za-z_]\w*\b', lambda m: m.group(0) if m.group(0) in KEPT_WORDS else names.setdefault(m.group(0), f'v{len(names)}'), text)


def twins():
    """Functions of five lines or more, and types of two fields or more, that are the same but for names, numbers and texts."""
    groups = collections.defaultdict(list)
    for f, at, body in items(r'(pub(\(\w+\))? )?(const )?fn \w+'):
        if len(body) >= 5:
            groups[shape(body)].append((f, at, body[0][:60]))
    fields = collections.defaultdict(list)
    for f, at, body in items(r'(pub(\(\w+\))? )?struct \w+'):
        inner = [re.sub(r'\[(\w+); [^\]]*\]', r'[\1; N]', re.sub(r'^pub ', '', x)) for x in body[1:-1] if re.match(r'(pub )?\w+:', x)]
        if len(inner) >= 2:
            fields[' '.join(sorted(inner))].append((f, at, body[0]))
    for group in list(groups.values()) + list(fields.values()):
        if len(group) > 1:
            yield group[0][0], group[0][1], '; '.join(f'{f}:{at} {name}' for f, at, name in group)


def loops():
    return matching(r'^\s*(while|loop)\b')


def by_hand():
    """Comparing, copying, filling, widening and printing of digits by hand."""
    yield from matching(r'\w+\[[^\]]+\] (==|!=) \w+\[[^\]]+\]')
    yield from matching(r'^\s*\w+\[\w+\] = (\w+\[[^\]]+\]|0|b|lent);')
    yield from matching(r'fn (wide|wider|smaller|larger|copy|fill|clear\w*|same\w*|is_same|are_same|move_to_front)\(')


def repeated():
    """Facts that stand in the `requires` of three functions or more, and runs of three parameters that travel together through three or more."""
    facts = collections.defaultdict(list)
    for f, at, line in matching(r'^\s*requires( \w+)? \{'):
        fact = re.sub(r'^requires( \w+)? \{ (.*) \}$', r'\2', line)
        word = re.match(r'[A-Z]\w+', fact)
        if word:
            facts[word.group(0)].append((f, at, line))
    for word, at in sorted(facts.items(), key=lambda x: -len(x[1])):
        if len(at) > 2:
            yield at[0][0], at[0][1], f'fact {word}: {len(at)} clauses'
    runs = collections.defaultdict(list)
    for f in SOURCES:
        text = '\n'.join(TEXTS[f])
        for m in re.finditer(r'\bfn (\w+)\(([^)]*)\)', text):
            parts = [re.sub(r'\s+', ' ', p).strip() for p in m.group(2).split(',') if ':' in p]
            for i in range(len(parts) - 2):
                runs[', '.join(parts[i:i + 3])].append((f, text[:m.start()].count('\n') + 1, m.group(1)))
    for run, at in sorted(runs.items(), key=lambda x: -len(x[1])):
        if len(at) > 2:
            yield at[0][0], at[0][1], f'parameters {run}: {len(at)} functions'


def buffers():
    """An array beside its length in one struct; bytes with ends and a count as parameters."""
    for f, at, body in items(r'(pub(\(\w+\))? )?struct \w+'):
        inner = ' '.join(body)
        if re.search(r': \[[^\]]+;', inner) and re.search(r'(len|length|count|depth|deep|open|long): usize', inner):
            yield f, at, inner[:110]
    for f in SOURCES:
        text = '\n'.join(TEXTS[f])
        for m in re.finditer(r'\bfn (\w+)\(([^)]*)\)', text):
            if re.search(r'\bends: &(mut )?\[', m.group(2)) or re.search(r'\w*ends: &(mut )?\[', m.group(2)):
                yield f, text[:m.start()].count('\n') + 1, 'rows as bytes and ends: fn ' + m.group(1)


def switches():
    """A number or an enum without data that says which step to run, given as a parameter."""
    return matching(r'\bfn \w+\(.*\b(what|way|which): (usize|u8)\b')


def answers():
    """Answers that only say what the check tries by itself."""
    for f in sorted(glob.glob('crates/*/proofs/**/Answers.antt', recursive=True)):
        for i, line in enumerate(open(f, encoding='utf-8').read().split('\n')):
            if re.search(r' c = search rules$', line):
                yield f, i + 1, line


POINTS = {'1': own_options, '2': twins, '3': loops, '4': by_hand, '5': repeated, '6': buffers, '7': switches, '8': answers}


def main():
    asked = sys.argv[1:]
    for point, find in POINTS.items():
        found = list(find())
        if not asked:
            print(f'point {point}: {len(found)}')
        elif point in asked:
            for f, at, line in found:
                print(f'{f}:{at}: {line}')


main()
