#!/usr/bin/env python3
"""Content models from a DTD (§6): the definitions of crate models once more, against libxml2.

    python3 tests/models.py [SEED [MODELS]]          tells how many words, texts and worked examples agree; the exit status says whether all do
    python3 tests/models.py --run [SEED [MODELS]]    the same of declarations that bin/wickpollen reads, and of documents that it tries under their rules

A model is drawn by lot, with words of its children and characters. Three opinions on each word: the rows that the model matches (`Valid.Valid`), the language of the
expression that it becomes (`Expressions.specContent`), and `xmllint --dtdvalid`. Texts that are nearly declarations are read by the machine of `Reader`, and xmllint
says whether they are well-formed. The answers 50 to 56 are compared with those worked out by hand. Without xmllint only the opinions of this file are compared.

With --run the program itself is asked: `wickpollen models` of declarations must end with the number, and print the text, that tests/partners.py, sheets.py and rules.py give them; where that is 0,
`wickpollen try` of a document under the text must end with 0 exactly where xmllint finds it valid, and `Valid.Valid` too. What libxml2 calls ambiguous must be 9.
"""
import os
import random
import re
import shutil
import subprocess
import sys
import tempfile

import partners
import rules
import sheets

NAMES = 'abcd'


# ---------------------------------------------------------------------------------------------------------------------
# Models as trees: ('called', n), ('sequence', x, y), ('choice', x, y), ('optional', x), ('any-number', x), ('at-least-one', x);
# contents: ('nothing',), ('mixed', names), ('children', x). A word is a string of names, and t for a character.

def matches(x, w):
    kind = x[0]
    if kind == 'called':
        return w == x[1]
    if kind == 'sequence':
        return any(matches(x[1], w[:i]) and matches(x[2], w[i:]) for i in range(len(w) + 1))
    if kind == 'choice':
        return matches(x[1], w) or matches(x[2], w)
    if kind == 'optional':
        return w == '' or matches(x[1], w)
    if kind == 'any-number':
        return w == '' or any(matches(x[1], w[:i]) and matches(x, w[i:]) for i in range(1, len(w) + 1))
    return matches(x[1], w) or any(matches(x[1], w[:i]) and matches(x, w[i:]) for i in range(1, len(w)))


def valid(c, w):
    if c[0] == 'nothing':
        return w == ''
    if c[0] == 'mixed':
        return all(k == 't' or k in c[1] for k in w)
    return matches(c[1], w)


# The expression, as document 01's nodes: (1, n), (2,), (3, e, f), (4, e, f), (5, e), (6,).

def expression(x):
    kind = x[0]
    if kind == 'called':
        return (1, x[1])
    e = expression(x[1])
    if kind == 'sequence':
        return (3, e, expression(x[2]))
    if kind == 'choice':
        return (4, e, expression(x[2]))
    return {'optional': (4, e, (6,)), 'any-number': (5, e), 'at-least-one': (3, e, (5, e))}[kind]


def content(c):
    if c[0] == 'nothing':
        return None
    if c[0] == 'children':
        return expression(c[1])
    e = (2,)
    for n in c[1]:
        e = (4, e, (1, n))
    return (5, e)


def is_leaf(e):
    return e is None or e[0] in (1, 2, 6)


def letter(e):
    """What a leaf stands for: nothing, a child by its name, or a character."""
    if e is None or e[0] == 6:
        return ''
    return e[1] if e[0] == 1 else 't'


def pattern(e):
    if is_leaf(e):
        return letter(e)
    if e[0] == 3:
        return pattern(e[1]) + pattern(e[2])
    if e[0] == 4:
        return '(?:%s|%s)' % (pattern(e[1]), pattern(e[2]))
    return '(?:%s)*' % pattern(e[1])


def nodes(e):
    return 0 if e is None else 1 + sum(nodes(f) for f in e[1:] if isinstance(f, tuple))


def depth(e):
    return 0 if e is None else 1 + max([depth(f) for f in e[1:] if isinstance(f, tuple)] or [0])


# ---------------------------------------------------------------------------------------------------------------------
# The family: productions 45 to 51 as a machine of bytes, which keeps what the shortest continuation would be.

class Stop(Exception):
    pass


class Reader:
    """Reads as far as the grammar goes; `limits` are nodes, depth and open parentheses, or None."""

    def __init__(self, text, nodes=None, deep=None, parens=None):
        self.text, self.at, self.most = text, 0, (nodes, deep, parens)
        self.done, self.element, self.content_at = [], None, False

    def peek(self):
        if self.at == len(self.text):
            raise Stop
        return self.text[self.at]

    def take(self, byte):
        if self.peek() != byte:
            raise Stop
        self.at += 1

    def word(self, w):
        for b in w:
            self.take(b)

    def blanks(self):
        while self.at < len(self.text) and self.text[self.at] in ' \t\r\n':
            self.at += 1

    def space(self):
        if self.peek() not in ' \t\r\n':
            raise Stop
        self.blanks()

    def name(self):
        if not re.match('[A-Za-z_]', self.peek()):
            raise Stop
        start = self.at
        self.at += 1
        while self.at < len(self.text) and re.match('[A-Za-z0-9_.-]', self.text[self.at]):
            if self.at - start == 15:
                raise Stop
            self.at += 1
        return self.text[start:self.at]

    def keeps(self, c):
        """Whether the shortest continuation, which has content c, keeps the limits; else the byte just taken is refused."""
        most, deep, _ = self.most
        e = content(c)
        if (most is not None and nodes(e) > most) or (deep is not None and depth(e) > deep):
            self.at -= 1
            raise Stop

    def mark(self, x, around):
        if self.at < len(self.text) and self.text[self.at] in '?*+':
            x = ({'?': 'optional', '*': 'any-number', '+': 'at-least-one'}[self.text[self.at]], x)
            self.at += 1
            self.keeps(('children', around(x)))
        return x

    def group(self, around, opened):
        """Behind a (, with `opened` of them; around(x) is the whole content where x stands here."""
        self.blanks()
        left, sign = None, None
        while True:
            inner = (lambda x, l=left, s=sign: around(x if l is None else (s, l, x)))
            if self.peek() == '(':
                if self.most[2] is not None and opened == self.most[2]:
                    raise Stop
                self.at += 1
                x = self.mark(self.group(inner, opened + 1), inner)
            else:
                x = self.mark(('called', self.name()), inner)
            x = x if left is None else (sign, left, x)
            self.blanks()
            b = self.peek()
            if b == ')':
                self.at += 1
                return x
            kind = {',': 'sequence', '|': 'choice'}.get(b)
            if kind is None or (sign is not None and kind != sign):
                raise Stop
            self.at += 1
            left, sign = x, kind
            self.keeps(('children', around((sign, left, ('called', 'a')))))
            self.blanks()

    def content(self):
        self.content_at = True
        b = self.peek()
        if b == 'E':
            self.content_at = False
            self.word('EMPTY')
            return ('nothing',)
        if b != '(':
            raise Stop
        self.content_at = False
        self.at += 1
        self.blanks()
        if self.peek() != '#':
            whole = self.group(lambda x: x, 1)
            return ('children', self.mark(whole, lambda x: x))
        self.at += 1
        self.word('PCDATA')
        names = []
        while True:
            self.blanks()
            if self.peek() == ')':
                break
            self.take('|')
            self.keeps(('mixed', names + ['a']))
            self.blanks()
            names.append(self.name())
        self.at += 1
        if names:
            self.take('*')
        elif self.at < len(self.text) and self.text[self.at] == '*':
            self.at += 1
        return ('mixed', names)

    def declarations(self):
        self.blanks()
        while True:
            self.word('<!ELEMENT')
            self.space()
            n = self.name()
            self.space()
            c = self.content()
            self.blanks()
            self.take('>')
            self.done.append((n, c, self.at - 1))
            self.blanks()
            if self.at == len(self.text):
                return self.done


def reach(text, *limits):
    """How many bytes of the text go on, and its declarations where it is one itself."""
    r = Reader(text, *limits)
    try:
        return len(text), r.declarations(), r
    except Stop:
        return r.at, None, r


def mentions(ds):
    names = []
    for n, c, _ in ds:
        for m in [n] + (c[1] if c[0] == 'mixed' else in_model(c[1]) if c[0] == 'children' else []):
            if m not in names:
                names.append(m)
    return names


def in_model(x):
    return [x[1]] if x[0] == 'called' else [n for y in x[1:] for n in in_model(y)]


def answer(text):
    k, ds, r = reach(text, 32, 12, 32)
    if ds is not None:
        for i in range(1, len(ds) + 1):
            some = ds[:i]
            if i > 64 or len(mentions(some)) > 64 or sum(nodes(content(c)) for _, c, _ in some) > 256:
                return 56, some[-1][2]
        return 0, ds
    if k < len(text):
        grammar = reach(text[:k + 1])[0]
        if grammar == k + 1:
            return (53 if reach(text[:k + 1], 32)[0] == k else 54), k
        if text[k] in '%&' or (text[:k].endswith('<!E') and re.match(r'NTITY(?![A-Za-z0-9_.-])', text[k:])):
            return 51, k
        if text[:k].endswith('<!') and re.match(r'ATTLIST(?![A-Za-z0-9_.-])', text[k:]):
            return 52, k
        if r.content_at and re.match(r'ANY(?![A-Za-z0-9_.-])', text[k:]):
            return 50, k
    return 55, k


# ---------------------------------------------------------------------------------------------------------------------
# Worked answers.

def row(names, sign):
    return '<!ELEMENT a (' + sign.join('n%d' % i for i in range(names)) + ')>'


WORKED = [
    ('<!ELEMENT a ANY>', 50, 12), ('<!ELEMENT a ANYTHING>', 55, 12), ("<!ENTITY x 'y'>", 51, 3), ('<!ELEMENT a (%x;)>', 51, 13), ('<!ATTLIST a b CDATA #IMPLIED>', 52, 2),
    ('<!ELEMENT a ((((b)+)+)+)+>', 53, 24), (row(13, ','), 54, row(13, ',').rindex(',')), (row(13, '|'), 54, row(13, '|').rindex('|')), ('', 55, 0), ('<!ELEMENT a (b,c|d)>', 55, 16),
    ('<!ELEMENT a (#PCDATA|b)>', 55, 23), ('<!ELEMENT a (b) *>', 55, 16), ('<!ELEMENT a(b)>', 55, 11), ('<!ELEMENT a ()>', 55, 13), ('<!ENTITYx', 55, 3), ('<!ELEMENT a (b))>', 55, 15),
    ('<!ELEMENT a ' + '(' * 33, 54, 44), ('<!ELEMENT a (&x;)>', 51, 13), ('<!-- c -->', 55, 2), ('<!ELEMENT a:b EMPTY>', 55, 11), ('<!ELEMENT abcdefghijklmnop EMPTY>', 55, 25),
    ('<!ELEMENT a (#PCDATA|' + '|'.join('n%d' % i for i in range(11)) + ')*>', 54, 50), ('<!ELEMENT a EMPTY>' * 65, 56, 18 * 65 - 1), ('<!ELEMENT a (((a,a,a,a),(a,a,a,a)),((a,a,a,a),(a,a,a,a)))>' * 9, 56, 59 * 9 - 1 - 9),
]
PASSES = [row(12, ','), row(12, '|'), ' <!ELEMENT a EMPTY> ', '<!ELEMENT a (#PCDATA)*>', '<!ELEMENT a ( #PCDATA | b )* >', '<!ELEMENT a ' + '(' * 32 + 'b' + ')' * 32 + '>', '<!ELEMENT a EMPTY>' * 64]


def worked():
    wrong = 0
    for text, number, byte in WORKED:
        if answer(text) != (number, byte):
            wrong += 1
            print('%r: %s, and not %s' % (text[:60], answer(text), (number, byte)))
    for text in PASSES:
        if answer(text)[0] != 0:
            wrong += 1
            print('%r: %s, and not 0' % (text[:60], answer(text)))
    return len(WORKED) + len(PASSES), wrong


# ---------------------------------------------------------------------------------------------------------------------
# By lot.

def some_model(lot, left):
    kind = lot.choice(['called'] * 3 + ['sequence', 'choice', 'optional', 'any-number', 'at-least-one'] * (left > 0))
    if kind == 'called':
        return (kind, lot.choice(NAMES))
    if kind in ('sequence', 'choice'):
        return (kind, some_model(lot, left - 1), some_model(lot, left - 1))
    return (kind, some_model(lot, left - 1))


def gap(lot):
    return lot.choice(['', '', '', ' ', '\n', '\t ', '\r\n'])


def spelled(lot, x):
    """A particle; a group where parentheses are needed, and now and then where not."""
    kind = x[0]
    if kind == 'called':
        return x[1] if lot.random() < 0.8 else '(' + gap(lot) + x[1] + gap(lot) + ')'
    if kind in ('sequence', 'choice'):
        sign = ',' if kind == 'sequence' else '|'
        row = [x[2]]
        while x[1][0] == kind and lot.random() < 0.7:
            x = x[1]
            row.append(x[2])
        row.append(x[1])
        return '(' + gap(lot) + (gap(lot) + sign + gap(lot)).join(spelled(lot, y) for y in reversed(row)) + gap(lot) + ')'
    y = spelled(lot, x[1])
    if y[-1] in '?*+':
        y = '(' + y + ')'
    return y + {'optional': '?', 'any-number': '*', 'at-least-one': '+'}[kind]


def some_content(lot):
    kind = lot.random()
    if kind < 0.1:
        return ('nothing',), 'EMPTY'
    if kind < 0.3:
        names = lot.sample(NAMES, lot.randrange(4))
        text = '(' + gap(lot) + '#PCDATA' + ''.join(gap(lot) + '|' + gap(lot) + n for n in names) + gap(lot) + ')' + ('*' if names or lot.random() < 0.5 else '')
        return ('mixed', names), text
    x = some_model(lot, 4)
    text = spelled(lot, x)
    return ('children', x), text if '(' in text[:1] else '(' + text + ')'


def some_word(lot, c):
    """A word of the content, perhaps with one letter changed, put in or left out."""
    w = grown(lot, content(c))
    if lot.random() < 0.5 or len(w) > 12:
        i = lot.randrange(len(w) + 1)
        w = w[:i] + lot.choice(['', lot.choice(NAMES + 't')]) + w[i + lot.randrange(2):]
    return w[:12]


def grown(lot, e):
    if is_leaf(e):
        return letter(e)
    if e[0] == 3:
        return grown(lot, e[1]) + grown(lot, e[2])
    if e[0] == 4:
        return grown(lot, e[1 + lot.randrange(2)])
    return ''.join(grown(lot, e[1]) for _ in range(lot.randrange(4)))


def as_document(w):
    return '<r>' + ''.join('x' if k == 't' else '<%s/>' % k for k in w) + '</r>'


def xmllint(folder, dtd, documents):
    """Whether the declarations are well-formed, the documents found valid, and whether libxml2 calls the model ambiguous."""
    with open(os.path.join(folder, 'd.dtd'), 'w', newline='') as f:
        f.write(dtd)
    for i, d in enumerate(documents):
        with open(os.path.join(folder, '%d.xml' % i), 'w') as f:
            f.write(d)
    out = subprocess.run(['xmllint', '--noout', '--dtdvalid', 'd.dtd'] + ['%d.xml' % i for i in range(len(documents))], cwd=folder, capture_output=True, text=True).stderr
    bad = set(int(i) for i in re.findall(r'Document (\d+)\.xml does not validate', out))
    return 'Could not parse DTD' not in out, [i not in bad for i in range(len(documents))], 'not determinist' in out


# ---------------------------------------------------------------------------------------------------------------------
# The program itself. The elements that a model is over have contents of their own, so that a document is a tree.

HERE = os.path.join(os.path.dirname(os.path.abspath(__file__)), '..')
INSIDE = {'a': ('nothing',), 'b': ('mixed', []), 'c': ('mixed', ['a', 'b']), 'd': ('children', ('sequence', ('called', 'a'), ('optional', ('called', 'b'))))}
DECLARED = '<!ELEMENT a EMPTY><!ELEMENT b (#PCDATA)><!ELEMENT c (#PCDATA|a|b)*><!ELEMENT d (a,b?)>'


def some_tree(lot, name, c, changes):
    """An element as text, and whether it is valid. White space between children is no character where the content has none."""
    w = grown(lot, content(c))[:8]
    if lot.random() < changes:
        i = lot.randrange(len(w) + 1)
        w = w[:i] + lot.choice(['', lot.choice(NAMES + 't')]) + w[i + lot.randrange(2):]
    right, parts = valid(c, w), []
    for k in w:
        text, fine = ('x', True) if k == 't' else some_tree(lot, k, INSIDE[k], changes / 4)
        right = right and fine
        parts.append(text)
    if c[0] != 'nothing' or lot.random() < 0.2:
        parts = [p + gap(lot) for p in [''] + parts]
    inside = ''.join(parts)
    if c[0] == 'nothing' and inside:
        right = False
    return '<%s>%s</%s>' % (name, inside, name), right


def wickpollen(folder, *words):
    done = subprocess.run([os.path.join(HERE, 'bin', 'wickpollen')] + list(words), cwd=folder, capture_output=True)
    return done.returncode, done.stdout


def expected(declarations):
    """The number, and the text that is printed with 0, 7, 8 and 9."""
    number, _, sheet = partners.declare(declarations.encode())
    return (number, b'') if number else (sheets.check(sheet, 65536)[0], rules.print_(sheet)[2])


def program_tries(folder, lot, c, declarations):
    """How many documents were tried, whether libxml2 was asked, and what differs."""
    number, text = expected(declarations)
    with open(os.path.join(folder, 'd.dtd'), 'w', newline='') as f:
        f.write(declarations)
    told = wickpollen(folder, 'models', 'd.dtd')
    if told != (number, text):
        return 0, False, ['%r: %s, and not %s' % (declarations, told, (number, text))]
    documents = [some_tree(lot, 'r', c, 0.5) for _ in range(8)]
    _, judged, unclear = xmllint(folder, declarations, [d for d, _ in documents])
    wrong = ['%r is ambiguous in libxml2, and %d here' % (declarations, number)] if unclear and number not in (9, 53, 54) else []
    if number:
        return 0, False, wrong
    with open(os.path.join(folder, 'rules'), 'wb') as f:
        f.write(text)
    for i, (document, right) in enumerate(documents):
        taken = wickpollen(folder, 'try', 'rules', '%d.xml' % i)[0] == 0
        if not taken == right == judged[i]:
            wrong.append('%r under %r: %s' % (document, declarations, [taken, right, judged[i]]))
    return len(documents), True, wrong


def against_the_program(seed, count):
    lot, tried, asked, wrong = random.Random(seed), 0, 0, []
    with tempfile.TemporaryDirectory() as folder:
        for _ in range(count):
            c, text = some_content(lot)
            more, passed, differs = program_tries(folder, lot, c, '<!ELEMENT r %s>' % text + gap(lot) + DECLARED)
            tried, asked, wrong = tried + more, asked + passed, wrong + differs
    print('\n'.join(wrong + ['%d documents under %d of %d models; %d differ' % (tried, asked, count, len(wrong))]))
    return 1 if wrong else 0


def changed(lot, text):
    i = lot.randrange(len(text))
    return text[:i] + lot.choice(['', lot.choice("()|,?*+ #>a.")]) + text[i + lot.randrange(2):]


def main():
    numbers = [int(word) for word in sys.argv[1:] if word != '--run']
    seed, count = (numbers + [1])[0], (numbers[1:] + [300])[0]
    if '--run' in sys.argv:
        return against_the_program(seed, count)
    lot = random.Random(seed)
    there = shutil.which('xmllint') is not None
    words = asked = ambiguous = texts = wrong = 0
    with tempfile.TemporaryDirectory() as folder:
        for _ in range(count):
            c, text = some_content(lot)
            declaration = '<!ELEMENT r %s>' % text
            _, ds, _ = reach(declaration)
            if ds is None or ds[0][1] != c:
                wrong += 1
                print('%r is read as %s, and not as %s' % (declaration, ds, c))
            rows = [some_word(lot, c) for _ in range(12)]
            judged = None
            if there:
                _, judged, unclear = xmllint(folder, declaration + ''.join('<!ELEMENT %s EMPTY>' % n for n in NAMES), [as_document(w) for w in rows])
                if unclear:
                    ambiguous += 1
                    judged = None
            form = re.compile(pattern(content(c)))
            for i, w in enumerate(rows):
                words += 1
                opinions = [valid(c, w), form.fullmatch(w) is not None] + ([judged[i]] if judged else [])
                asked += len(opinions) - 2
                if len(set(opinions)) > 1:
                    wrong += 1
                    print('%r in %r: %s' % (w, declaration, opinions))
            near = changed(lot, declaration)
            if there and near.startswith('<!ELEMENT') and '%' not in near:
                texts += 1
                k, ds, _ = reach(near)
                if (ds is not None) != xmllint(folder, near, [as_document('')])[0]:
                    wrong += 1
                    print('%r: %s here, and not in libxml2' % (near, 'well-formed' if ds is not None else 'refused at %d' % k))
    examples, off = worked()
    print('%d words of %d models, %d of them asked of libxml2 too (%d models it calls ambiguous); %d texts; %d worked examples; %d differ' % (words, count, asked, ambiguous, texts, examples, wrong + off))
    return 1 if wrong + off else 0


if __name__ == '__main__':
    sys.exit(main())
