#!/usr/bin/env python3
"""Rules typed as text: a second writer and a second printer, and the cases of the part `texts` of the program `trials`.

    python3 tests/rules.py            writes data/texts.txt, data/texts.md and the part `texts` of stdout, in crates/trials
    python3 tests/rules.py --check    says whether they are what it would write

Made from the change requests and docs/DECISIONS.md, section 9. A recursive descent over the bytes: each function is told which tokens may follow what it reads, so the byte of a
refusal is the first at which no allowed token goes on.
"""
import struct
import sys

import sheets

NONE = 0xFFFF
WORD_BYTES = frozenset(b'ABCDEFGHIJKLMNOPQRSTUVWXYZabcdefghijklmnopqrstuvwxyz0123456789_')
NAME_FIRST = frozenset(b'ABCDEFGHIJKLMNOPQRSTUVWXYZabcdefghijklmnopqrstuvwxyz_')
NAME_BYTES = WORD_BYTES | frozenset(b'.-')
MOST_TAGS, MOST_PROGRAMS, MOST_STRINGS = 64, 16384, 8192


class Refused(Exception):
    """Number 40, with the byte."""


# ---------------------------------------------------------------------------------------------------------------------
# Tokens. A matcher is given the text and a place. It answers (end, value) of a whole token there, or the place at which no token of its sort goes on.

def fixed(spelling, value, joins):
    """One spelling; a word is followed by no letter, digit or _."""
    def match(text, at):
        i = 0
        while i < len(spelling) and at + i < len(text) and text[at + i] == spelling[i]:
            i += 1
        if i < len(spelling) or joins and at + i < len(text) and text[at + i] in WORD_BYTES:
            return at + i
        return at + i, value
    return match


def name_end(text, at):
    """Where a name that begins at `at` ends, and whether there is one."""
    if at >= len(text) or text[at] not in NAME_FIRST:
        return at, False
    i = at + 1
    while i < len(text) and i - at < 15 and text[i] in NAME_BYTES:
        i += 1
    return i, True


def name(text, at):
    end, there = name_end(text, at)
    if not there or end < len(text) and text[end] in NAME_BYTES:
        return end
    return end, text[at:end]


def tag(before, behind):
    def match(text, at):
        start = fixed(before, None, False)(text, at)
        if isinstance(start, int):
            return start
        end, there = name_end(text, start[0])
        if not there:
            return end
        close = fixed(behind, None, False)(text, end)
        if isinstance(close, int):
            return close
        return close[0], text[start[0]:end]
    return match


ESCAPES = {ord('"'): b'"', ord('\\'): b'\\', ord('t'): b'\t', ord('n'): b'\n', ord('r'): b'\r'}


def begins_character(front):
    """Whether bytes begin the UTF-8 form of a character that stands in a string as itself."""
    first = front[0]
    if first < 0x80:
        return first >= 0x20
    size = 2 if 0xC2 <= first <= 0xDF else 3 if 0xE0 <= first <= 0xEF else 4 if 0xF0 <= first <= 0xF4 else 0
    if size == 0 or len(front) > size or any(b & 0xC0 != 0x80 for b in front[1:]):
        return False
    lowest, highest = front + b'\x80' * (size - len(front)), front + b'\xBF' * (size - len(front))
    return any_character(lowest, highest, size)


def code_of(form):
    first = form[0] & (0x1F, 0x0F, 0x07)[len(form) - 2]
    for b in form[1:]:
        first = first << 6 | b & 0x3F
    return first


def any_character(lowest, highest, size):
    """Whether one of the codes between two forms of a size is a character with just that size."""
    low, high = max(code_of(lowest), (0, 0, 0x80, 0x800, 0x10000)[size]), code_of(highest)
    ranges = ((0x20, 0xD7FF), (0xE000, 0xFFFD), (0x10000, 0x10FFFF))
    return any(max(low, a) <= min(high, b) for a, b in ranges)


def string(text, at):
    if at >= len(text) or text[at] != ord('"'):
        return at
    i, value = at + 1, b''
    while True:
        if i == len(text):
            return i
        if text[i] == ord('"'):
            return i + 1, value
        if text[i] == ord('\\'):
            if len(value) == 255:
                return i
            if i + 1 == len(text) or text[i + 1] not in ESCAPES:
                return i + 1
            value += ESCAPES[text[i + 1]]
            i += 2
            continue
        first = text[i]
        size = 1 if first < 0x80 else 2 if first < 0xE0 else 3 if first < 0xF0 else 4
        if len(value) + size > 255:
            return i
        for n in range(1, size + 1):
            if i + n > len(text):
                return len(text)
            if not begins_character(text[i:i + n]):
                return i + n - 1
        value += text[i:i + size]
        i += size


NONTERMINALS = [('nonterminal', fixed(b'n%d' % n, n, True)) for n in range(64)]
VALUES = [('value', fixed(b'%d' % v, v, True)) for v in range(sheets.HIGHEST + 1)]
START_TAG, END_TAG, EMPTY_TAG = ('start-tag', tag(b'<', b'>')), ('end-tag', tag(b'</', b'>')), ('empty-tag', tag(b'<', b'/>'))


def word(spelling):
    return (spelling, fixed(spelling.encode(), None, True))


def sign(spelling):
    return (spelling, fixed(spelling.encode(), None, False))


def attributes(kind, mark):
    return [(kind, fixed(mark + b'a%d' % a, a, True)) for a in range(sheets.ATTRIBUTE + 1)]


# ---------------------------------------------------------------------------------------------------------------------
# The reader.

class Reader:
    """Reads a text into rules: start, and productions (nonterminal, tag, first program, second program, tree or None). A tree is [kind, argument, first, second, children]."""

    def __init__(self, text):
        self.text, self.at, self.last = text, 0, 0
        self.mentions = []  # ('tag' or 'string' or 'program', what, its last byte), in the order in which they end
        self.nodes = 0      # of the productions before

    def gap(self):
        while self.at < len(self.text):
            if self.text[self.at] in b' \t\r\n':
                self.at += 1
            elif self.text[self.at] == ord('#'):
                while self.at < len(self.text) and self.text[self.at] != 10:
                    if self.text[self.at] == 0:
                        raise Refused(self.at)
                    self.at += 1
            else:
                return

    def token(self, options, may_end=False):
        """The kind and the value of the next token, one of the options; ('stop', None) where the text may end there and does."""
        self.gap()
        if self.at == len(self.text):
            if may_end:
                return 'stop', None
            raise Refused(self.at)
        stuck = self.at
        for kind, match in options:
            answer = match(self.text, self.at)
            if isinstance(answer, int):
                stuck = max(stuck, answer)
            else:
                start, (self.at, value) = self.at, answer
                self.mention(kind, value, start)
                return kind, value
        raise Refused(stuck)

    def mention(self, kind, value, start):
        last = {'name': 0, 'start-tag': 1, 'end-tag': 2, 'empty-tag': 1}.get(kind)
        if last is not None:
            for _ in range(2 if kind == 'empty-tag' else 1):
                self.mentions.append(('tag', value, start + last + len(value) - 1))
        if kind == 'string':
            self.mentions.append(('string', value, self.at - 1))

    # The whole text.

    def rules(self):
        start = self.token(NONTERMINALS)[1]
        kind, value = self.token(NONTERMINALS + [sign('::=')])
        nonterminal = start
        if kind == 'nonterminal':
            nonterminal = value
            self.token([sign('::=')])
        productions = []
        while True:
            production, following = self.production(nonterminal, len(productions) < 63)
            productions.append(production)
            if following[0] == 'stop':
                return start, productions
            nonterminal = following[1]
            self.token([sign('::=')])

    def production(self, nonterminal, another):
        """Behind its ::=; and the token that follows it."""
        kind, value = self.token([sign('{'), ('name', name)])
        first = second = None
        if kind == '{':
            first = self.program(1)
            kind, value = self.token([('name', name)])
        tag_name = value
        self.token([sign('(')])
        tree = Expression(self).content()
        self.nodes += size(tree)
        more = NONTERMINALS if another else []
        following = self.token([sign('{')] + more, may_end=True)
        if following[0] == '{':
            second = self.program(2)
            following = self.token(more, may_end=True)
        return (nonterminal, tag_name, first, second, tree), following

    # Programs. `size` is the bytes of the shortest program that goes on from here, `around` the if, not, and, or that lie around.

    def program(self, visit):
        self.visit, self.size = visit, 1
        statements = self.list('}', 0)
        self.mentions.append(('program', statements, self.at - 1))
        return statements

    def costs(self, bytes_, options):
        return options if self.size + bytes_ <= 256 else []

    def operands(self):
        kinds = VALUES + attributes('current', b'$.')
        if self.visit == 1:
            return kinds + attributes('current', b'$[.')
        return kinds + attributes('current', b'$].') + attributes('recalled', b'$[.')

    def starts(self, around):
        echo = [word('ECHO'), word('ECHO_OFF')] if self.visit == 1 else []
        target = attributes('target', b'$.') + attributes('target', b'$[.' if self.visit == 1 else b'$].')
        return (self.costs(1, echo + [word('reject')]) + self.costs(2, [word('print')]) + self.costs(3, target)
                + (self.costs(8, [word('if')]) if around < 8 else []))

    def list(self, closer, around):
        """Statements up to the closer, which is read too."""
        close = [word('end')] if closer == 'end' else [sign('}')]
        following = self.token(self.starts(around) + close)
        statements = []
        while following[0] != closer:
            if following[0] == ';':
                following = self.token(self.starts(around))
            more, following = self.statement(following, around, lambda: self.costs(1, [sign(';')]) + close)
            statements += more
        return statements

    def statement(self, start, around, follow):
        """The statements that one is (a print is several), and the token behind it."""
        kind, value = start
        if kind == 'reject' or kind.startswith('ECHO'):
            self.size += 1
            return [(kind,)], self.token(follow())
        if kind == 'print':
            return self.items(follow)
        if kind == 'target':
            self.size += 3
            self.token([sign(':=')])
            operand = self.token(self.operands())
            statement = {'value': 'become', 'current': 'copy', 'recalled': 'recall'}[operand[0]]
            return [(statement, value, operand[1])], self.token(follow())
        self.size += 8
        condition, _, _ = self.condition(around + 1, 0, lambda nested: [word('then')])
        first, following = self.branch(around + 1, lambda: [word('else')] + follow())
        second = []
        if following[0] == 'else':
            second, following = self.branch(around + 1, follow)
        return [('if', condition, first, second)], following

    def branch(self, around, follow):
        start = self.token(self.starts(around) + [word('begin')])
        if start[0] == 'begin':
            return self.list('end', around), self.token(follow())
        return self.statement(start, around, follow)

    def items(self, follow):
        self.size += 2
        given, statements = 2, []  # the first item's bytes are counted already
        while True:
            allowed = []
            if self.size + 2 - given <= 256:
                allowed += [START_TAG, END_TAG]
            if self.size + 4 - given <= 256:
                allowed += [EMPTY_TAG, ('string', string)]
            item = self.token(allowed + ([] if given else follow()))
            if item[0] not in ('start-tag', 'end-tag', 'empty-tag', 'string'):
                return statements, item
            self.size += (2 if item[0] in ('start-tag', 'end-tag') else 4) - given
            given = 0
            statements += {'start-tag': [('start', item[1])], 'end-tag': [('end', item[1])], 'string': [('text', item[1])],
                           'empty-tag': [('start', item[1]), ('end', item[1])]}[item[0]]

    # Conditions: what was read, how deep not, and, or nest in it, and the token behind. `follow` is told how deep what was just read nests.

    def condition(self, around, open_, follow):
        return self.chain('or', self.both, around, open_, follow)

    def both(self, around, open_, follow):
        return self.chain('and', self.single, around, open_, follow)

    def chain(self, joiner, operand, around, open_, follow):
        def behind(nested):
            joined = nested if left is None else 1 + max(left[1], nested)
            return (self.costs(6, [word(joiner)]) if around + joined < 8 else []) + follow(joined)
        left = None
        while True:
            condition, nested, following = operand(around if left is None else around + 1, open_, behind)
            if left is not None:
                condition, nested = (joiner, left[0], condition), 1 + max(left[1], nested)
            left = (condition, nested)
            if following[0] != joiner:
                return condition, nested, following
            self.size += 6

    def single(self, around, open_, follow):
        start = self.token((self.costs(1, [word('not')]) if around < 8 else []) + ([sign('(')] if open_ < 32 else []) + self.operands())
        if start[0] == 'not':
            self.size += 1
            condition, nested, following = self.single(around + 1, open_, lambda nested: follow(nested + 1))
            return ('not', condition), nested + 1, following
        if start[0] == '(':
            condition, nested, _ = self.condition(around, open_ + 1, lambda nested: [sign(')')])
            return condition, nested, self.token(follow(nested))
        self.token([sign('=')])
        other = self.token(self.operands())
        return ('=', start, other), 0, self.token(follow(0))


def size(tree):
    return 0 if tree is None else 1 + sum(size(child) for child in tree[4])


def depth(tree):
    return 0 if tree is None else 1 + max([depth(child) for child in tree[4]], default=0)


def node(kind, argument=0, *children):
    return [kind, argument, None, None, list(children)]


class Expression:
    """What stands between a tag's parentheses. A level, for each open pair: [program in front or None, left of a |, left of a .]; the innermost is last. A token is taken only if
    the smallest tree that can come of it keeps the limits."""

    def __init__(self, reader):
        self.reader, self.levels, self.operand, self.over = reader, [[None, None, None]], None, False

    def content(self):
        fresh = True  # just behind a parenthesis
        while True:
            kind, value = self.reader.token(self.options(fresh))
            if kind == ')' and len(self.levels) == 1:
                return None if self.operand is None else self.whole()
            self.take(kind, value)
            fresh = kind == '('

    def options(self, fresh):
        if self.over:
            return [sign(')')]
        if self.operand is not None:
            return self.behind_operand()
        options = []
        if self.keeps(self.smallest(node(1))):
            options += NONTERMINALS + [word('CHAR'), word('EMPTY')] + ([sign('(')] if len(self.levels) <= 32 else [])
        if fresh:
            trial = self.levels[-1][0]
            self.levels[-1][0] = 'program'
            if self.keeps(self.smallest(node(1))):
                options.append(sign('{'))
            self.levels[-1][0] = trial
            if len(self.levels) == 1:
                options.append(sign(')'))
        return options

    def behind_operand(self):
        options = []
        if self.keeps(self.smallest(node(5, 0, self.operand))):
            options.append(sign('*'))
        _, union, row = self.levels[-1]
        joined = self.operand if row is None else node(3, 0, row, self.operand)
        if self.keeps(self.around(self.levels[:-1], self.sealed(self.levels[-1][0], self.under(union, node(3, 0, joined, node(1)))))):
            options.append(sign('.'))
        if self.keeps(self.around(self.levels[:-1], self.sealed(self.levels[-1][0], node(4, 0, self.under(union, joined), node(1))))):
            options.append(sign('|'))
        whole = self.under(union, joined)
        if self.levels[-1][0] is None or whole[2] is None:
            options.append(sign(')'))
            if whole[3] is None:
                options.append(sign('{'))
        return options

    def take(self, kind, value):
        level = self.levels[-1]
        if kind in ('nonterminal', 'CHAR', 'EMPTY'):
            self.operand = node({'nonterminal': 1, 'CHAR': 2, 'EMPTY': 6}[kind], value or 0)
        elif kind == '(':
            self.levels.append([None, None, None])
        elif kind == '{' and self.operand is None:
            level[0] = self.reader.program(1)
        elif kind == '{':
            self.operand = self.whole()
            self.levels[-1] = [None, None, None]
            self.operand[3] = self.reader.program(2)
            self.over = True
        elif kind == '*':
            self.operand = node(5, 0, self.operand)
        elif kind in '.|':
            joined = self.operand if level[2] is None else node(3, 0, level[2], self.operand)
            level[1], level[2] = (level[1], joined) if kind == '.' else (self.under(level[1], joined), None)
            self.operand = None
        else:
            self.operand, self.over = self.whole(), False
            self.levels.pop()

    @staticmethod
    def under(union, tree):
        return tree if union is None else node(4, 0, union, tree)

    def whole(self):
        """The innermost pair's tree, with the program in front."""
        front, union, row = self.levels[-1]
        tree = self.under(union, self.operand if row is None else node(3, 0, row, self.operand))
        if front is not None:
            tree[2] = front
        return tree

    @staticmethod
    def sealed(front, tree):
        """With the program in front; a star makes room where there is one already."""
        if front is None:
            return tree
        if tree[2] is not None:
            return [5, 0, front, None, [tree]]
        return [tree[0], tree[1], front, tree[3], tree[4]]

    def around(self, levels, tree):
        for front, union, row in reversed(levels):
            tree = self.sealed(front, self.under(union, tree if row is None else node(3, 0, row, tree)))
        return tree

    def smallest(self, operand):
        return self.around(self.levels, operand)

    def keeps(self, tree):
        return size(tree) <= 32 and self.reader.nodes + size(tree) <= 256 and depth(tree) <= 12


# ---------------------------------------------------------------------------------------------------------------------
# The writer.

def encode_operand(operand):
    return bytes([{'value': 0, 'current': 1, 'recalled': 2}[operand[0]], operand[1]])


def encode_condition(condition):
    if condition[0] == '=':
        return b'\0' + encode_operand(condition[1]) + encode_operand(condition[2])
    return bytes([{'not': 1, 'and': 2, 'or': 3}[condition[0]]]) + b''.join(map(encode_condition, condition[1:]))


class Stores:
    """Tags, strings and programs, each once."""

    def __init__(self):
        self.tags, self.strings, self.programs = [], [], []

    def mention(self, sort, what):
        """Stores it, and answers whether there is room."""
        rows = {'tag': self.tags, 'string': self.strings, 'program': self.programs}[sort]
        row = self.program(what) if sort == 'program' else what
        if row not in rows:
            rows.append(row)
        return len(self.tags) <= MOST_TAGS and sum(map(len, self.strings)) <= MOST_STRINGS and sum(map(len, self.programs)) <= MOST_PROGRAMS

    @staticmethod
    def offset(rows, row):
        return sum(map(len, rows[:rows.index(row)]))

    def statement(self, statement):
        kind = statement[0]
        if kind in ('become', 'copy', 'recall'):
            return bytes([('become', 'copy', 'recall').index(kind) + 1, statement[1], statement[2]])
        if kind in ('start', 'end'):
            return bytes([5 if kind == 'start' else 6, self.tags.index(statement[1])])
        if kind == 'text':
            return b'\7' + struct.pack('<HB', self.offset(self.strings, statement[1]), len(statement[1]))
        if kind == 'if':
            return b'\12' + encode_condition(statement[1]) + self.program(statement[2]) + self.program(statement[3])
        return bytes([{'reject': 4, 'ECHO': 8, 'ECHO_OFF': 9}[kind]])

    def program(self, statements):
        return b''.join(map(self.statement, statements)) + b'\0'

    def field(self, statements):
        return NONE if statements is None else self.offset(self.programs, self.program(statements))

    def nodes(self, tree):
        if tree is None:
            return b''
        return struct.pack('<BBHH', tree[0], tree[1], self.field(tree[2]), self.field(tree[3])) + b''.join(map(self.nodes, tree[4]))


def write(text):
    """The number, its count, and the sheet with 0."""
    reader = Reader(text)
    try:
        start, productions = reader.rules()
    except Refused as refused:
        return 40, refused.args[0], b''
    stores = Stores()
    for sort, what, last in reader.mentions:
        if not stores.mention(sort, what):
            return 41, last, b''
    records, nodes = b'', b''
    for nonterminal, tag_name, first, second, tree in productions:
        records += struct.pack('<BBHBBHHH', nonterminal, stores.tags.index(tag_name), len(nodes) // 6, size(tree), 0, stores.field(first), stores.field(second), 0)
        nodes += stores.nodes(tree)
    sections = [b''.join(sheets.tag_record(t) for t in stores.tags), records, nodes, b''.join(stores.programs), b''.join(stores.strings)]
    numbers, at = [], 0
    for (unit, _, _), section in zip(sheets.SECTIONS, sections):
        numbers += [at, len(section) // unit]
        at += len(section)
    sheet = b''.join(sections) + struct.pack('<11H', *numbers, start) + b'XS'
    return 0, len(sheet), sheet


# ---------------------------------------------------------------------------------------------------------------------
# The printer.

class Printer:
    """Prints a sheet that keeps 1 to 6."""

    def __init__(self, sheet):
        trailer = struct.unpack('<12H', sheet[-24:])
        cut = [sheet[offset:offset + unit * count] for (unit, _, _), offset, count in zip(sheets.SECTIONS, trailer[0::2], trailer[1::2])]
        self.tags = [cut[0][i + 1:i + 1 + cut[0][i]] for i in range(0, len(cut[0]), 16)]
        self.productions = [struct.unpack('<BBHBBHHH', cut[1][i:i + 12]) for i in range(0, len(cut[1]), 12)]
        self.nodes = [struct.unpack('<BBHH', cut[2][i:i + 6]) for i in range(0, len(cut[2]), 6)]
        self.programs, self.strings, self.start = cut[3], cut[4], trailer[10]
        self.printed = set()

    def text(self):
        return b'n%d\n' % self.start + b''.join(self.line(p) + b'\n' for p in self.productions)

    def line(self, production):
        nonterminal, tag_number, first_node, count, _, first, second, _ = production
        inside = b''
        if count:
            self.at = first_node
            kind, f, g, form, _ = self.tree()
            inside = self.braced(f, form, g)
        return b'n%d ::= ' % nonterminal + self.braced(first, self.tags[tag_number] + b'(' + inside + b')', second)

    def braced(self, first, inner, second):
        return (self.program(first) + b' ' if first != NONE else b'') + inner + (b' ' + self.program(second) if second != NONE else b'')

    def tree(self):
        """Kind, fields, the text without its own parentheses, and how tightly it binds."""
        kind, argument, f, g = self.nodes[self.at]
        self.at += 1
        if kind in (1, 2, 6):
            return kind, f, g, b'n%d' % argument if kind == 1 else {2: b'CHAR', 6: b'EMPTY'}[kind], 3
        if kind == 5:
            return kind, f, g, self.operand(3) + b'*', 2
        binds = {3: 1, 4: 0}[kind]
        left = self.operand(binds)
        return kind, f, g, left + {3: b'.', 4: b'|'}[kind] + self.operand(binds + 1), binds

    def operand(self, asked):
        _, f, g, form, binds = self.tree()
        if f != NONE or g != NONE or binds < asked:
            return b'(' + self.braced(f, form, g) + b')'
        return form

    def program(self, at):
        statements, _ = self.decode(at)
        return b'{' + self.statements(statements) + b'}'

    def decode(self, at):
        """The list at a place, and where it ends."""
        statements = []
        while True:
            code = self.programs[at]
            if code == 0:
                return statements, at + 1
            if code == 10:
                condition, at = self.condition(at + 1)
                first, at = self.decode(at)
                second, at = self.decode(at)
                statements.append((10, condition, first, second))
                continue
            length = {1: 3, 2: 3, 3: 3, 5: 2, 6: 2, 7: 4}.get(code, 1)
            statements.append(tuple(self.programs[at:at + length]))
            at += length

    def condition(self, at):
        """(binds, text) and where it ends."""
        code = self.programs[at]
        if code == 0:
            operands = [{0: b'%d', 1: b'$.a%d', 2: b'$[.a%d'}[self.programs[at + i]] % self.programs[at + i + 1] for i in (1, 3)]
            return (3, b' = '.join(operands)), at + 5
        if code == 1:
            inner, at = self.condition(at + 1)
            return (3, b'not (' + inner[1] + b')'), at
        left, at = self.condition(at + 1)
        right, at = self.condition(at)
        binds, joiner = (2, b' and ') if code == 2 else (1, b' or ')
        sides = [b'(' + side[1] + b')' if side[0] < asked else side[1] for side, asked in ((left, binds), (right, binds + 1))]
        return (binds, joiner.join(sides)), at

    def statements(self, statements):
        groups = []
        for statement in statements:
            if statement[0] in (5, 6, 7):
                if groups and groups[-1][0]:
                    groups[-1][1].append(self.item(statement))
                else:
                    groups.append((True, [b'print', self.item(statement)]))
            else:
                groups.append((False, [self.statement(statement)]))
        return b'; '.join(b' '.join(words) for _, words in groups)

    def item(self, statement):
        if statement[0] != 7:
            return {5: b'<%s>', 6: b'</%s>'}[statement[0]] % self.tags[statement[1]]
        offset, length = statement[1] + 256 * statement[2], statement[3]
        value = self.strings[offset:offset + length]
        self.printed.add(value)
        for plain, escaped in ((b'\\', b'\\\\'), (b'"', b'\\"'), (b'\t', b'\\t'), (b'\n', b'\\n'), (b'\r', b'\\r')):
            value = value.replace(plain, escaped)
        return b'"' + value + b'"'

    def statement(self, statement):
        if statement[0] in (1, 2, 3):
            return b'$.a%d := ' % statement[1] + {1: b'%d', 2: b'$.a%d', 3: b'$[.a%d'}[statement[0]] % statement[2]
        if statement[0] == 10:
            _, condition, first, second = statement
            text = b'if ' + condition[1] + b' then ' + self.branch(first, self.one(first) and first[0][0] != 10)
            return text + (b' else ' + self.branch(second, self.one(second)) if second else b'')
        return {4: b'reject', 8: b'ECHO', 9: b'ECHO_OFF'}[statement[0]]

    @staticmethod
    def one(statements):
        return len(statements) == 1 or bool(statements) and all(s[0] in (5, 6, 7) for s in statements)

    def branch(self, statements, bare):
        if bare:
            return self.statements(statements)
        return b'begin ' + (self.statements(statements) + b' ' if statements else b'') + b'end'


def print_(sheet):
    """The number, its count, and the text with 0."""
    number = sheets.check(sheet, 65536)[0]
    if 1 <= number <= 6:
        return number, 0, b''
    printer = Printer(sheet)
    text = printer.text()
    if sum(map(len, printer.printed)) > MOST_STRINGS:
        return 42, 0, b''
    return 0, len(text), text


# ---------------------------------------------------------------------------------------------------------------------
# The cases.

CASES = []  # 'w' or 'p', room, bytes, number, count, what is written, what it is
HEADINGS = {}


def heading(text):
    HEADINGS[len(CASES)] = text


def case(command, what, given, room=None, number=None, count=None):
    """A case; where its number or count is stated by hand, the writer or printer above has to agree."""
    answer, told, written = (write if command == 'w' else print_)(given)
    if room is None:
        room = len(written) + 3
    if answer == 0 and room < len(written):
        answer, told, written = 43, len(written), b''
    assert number is None or number == answer, (what, answer, told, number)
    assert count is None or count == told, (what, answer, told, count)
    CASES.append((command, room, given, answer, told, written, what))


def text(what, given, number=None, count=None, room=None):
    case('w', what, given if isinstance(given, bytes) else given.encode(), room, number, count)


def inside(content):
    return 'n0 ::= a(' + content + ')'


def program(statements):
    return 'n0 ::= {' + statements + '} a()'


PAPER = {
    'Example 27': 'n0 ::= {print <bib>} bib((n1|n2)*) {print </bib>}\nn1 ::= {if $[.a0 = 1 then print <book/>; $[.a0 := 2} book()\nn2 ::= {print <article/>; $[.a0 := 1} article()\n',
    'Example 27, its rejecting form': 'n0 ::= {print <bib>} bib((n1|n2)*) {print </bib>}\nn1 ::= {if $[.a0 = 1 then begin print <book/>; $[.a0 := 2 end\n'
                                      '        else if $[.a0 = 2 then reject else $[.a0 := 2} book()\nn2 ::= {print <article/>; $[.a0 := 1} article()\n',
    'Example 28': 'n0 ::= {ECHO} bib(n1*)\nn1 ::= book(n2.n3.({ECHO_OFF}(n3*)).n4)\nn2 ::= title(CHAR*)\nn3 ::= author(CHAR*)\nn4 ::= year(CHAR*)\n',
}
# between them all kinds of token
DAMAGED = ('n1 n0 ::= {if not ($[.a0=12) and 0=$.a1 or $.a7=63 then begin print <a/> "x\\"" end else ECHO_OFF} a(({}CHAR*.n0{})|EMPTY) {$].a0:=$[.a1; reject}\n# end',
           'n0::={ECHO;print </b>} b((n2.n1)*)\n\tn1 ::= c() {if $[.a2=3 then $.a1:=4}')


def worked():
    heading('The worked table')
    for given, number, count in (
            ('n0 ::= a()', 0, 52), ('', 40, 0), ('n64', 40, 2), ('n01', 40, 2), ('n0n0 ::= a()', 40, 2), ('n0 ::= a(', 40, 9), (b'\xef\xbb\xbfn0 ::= a()', 40, 0),
            ('n0 ::= {reject;} a()', 40, 15), ('n0 ::= {if 0=0 then reject; else reject} a()', 40, 28), ('n0 ::= a(){ECHO}', 40, 11),
            ('n0 ::= {$].a0:=1} a()', 40, 9), ('n0 ::= a(){$[.a0:=1}', 40, 12), ('n0 ::= {$.a8:=1} a()', 40, 11), ('n0 ::= {$.a0:=64} a()', 40, 15),
            ('n0 ::= {print </a/>} a()', 40, 17), ('n0 ::= {print <a />} a()', 40, 16), ('n0 ::= a({})', 40, 11), ('n0 ::= a(n0{}.n0)', 40, 13),
            ('n0 ::= a({}n0.n0{}*)', 40, 18), ('n0 ::= a(({} ({} n0)))', 40, 20), ('n0 ::= a(({} ({} n0)*))', 0, None), ('n0 ::= a((({} n0) {}))', 0, None),
            ('n0 ::= a(((n0 {}) {}))', 40, 18), ('n0 ::= abcdefghijklmnop()', 40, 22), ('n0 ::= {prnt <a>} a()', 40, 10), ('n0 ::= {print <a>} a(EMPTY) # all', 0, None)):
        text(repr(given), given, number, count)
    text('a sheet of 52 bytes into 51', 'n0 ::= a()', 43, 52, room=51)
    text('and into 52', 'n0 ::= a()', 0, 52, room=52)
    for what, given in PAPER.items():
        text("the paper's " + what, given, 0)


def limits():
    heading('Limits, met and missed by one')
    text('12 names in a row', inside('.'.join(['n0'] * 12)), 0)
    text('13', inside('.'.join(['n0'] * 13)), 40, 44)
    text('11 times n0.(', inside('n0.(' * 11 + 'n0' + ')' * 11), 0)
    text('12 times', inside('n0.(' * 12 + 'n0' + ')' * 12), 40, 55)
    row = '(n1.n2.n3.n4).(n5.n6.n7.n8).(n9.n10.n11.n12).(n13.n14.n15.n16)'
    text('31 nodes', inside(row), 0)
    text('32 nodes', inside('(' + row + ')*'), 0)
    text('33 nodes', inside('(' + row + ')**'), 40)
    text('32 parentheses in an expression', inside('(' * 32 + 'n0' + ')' * 32), 0)
    text('33', inside('(' * 33 + 'n0' + ')' * 33), 40, 41)
    text('255 rejects', program(';'.join(['reject'] * 255)), 0)
    text('256', program(';'.join(['reject'] * 256)), 40, 1792)
    text('127 tags and a reject', program('print ' + '<a>' * 127 + ';reject'), 0)
    text('128 tags', program('print ' + '<a>' * 128), 40)
    text('125 tags and a tag that is empty', program('print ' + '<a>' * 125 + '<a/>'), 0)
    text('126', program('print ' + '<a>' * 126 + '<a/>'), 40)
    text('8 ifs', program('if 0=0 then ' * 8 + 'reject'), 0)
    text('9', program('if 0=0 then ' * 9 + 'reject'), 40, 104)
    text('an if and 7 nots', program('if ' + 'not ' * 7 + '0=0 then reject'), 0)
    text('8 nots', program('if ' + 'not ' * 8 + '0=0 then reject'), 40)
    text('an if and 8 comparisons', program('if ' + ' and '.join(['0=0'] * 8) + ' then reject'), 0)
    text('9', program('if ' + ' and '.join(['0=0'] * 9) + ' then reject'), 40)
    text('or over and over not', program('if 0=0 or 1=1 and not not not not not 2=2 then reject'), 0)
    text('one not more', program('if 0=0 or 1=1 and not not not not not not 2=2 then reject'), 40)
    text('32 parentheses in a condition', program('if ' + '(' * 32 + '0=0' + ')' * 32 + ' then reject'), 0)
    text('33', program('if ' + '(' * 33 + '0=0' + ')' * 33 + ' then reject'), 40)
    text('a name of 15 bytes', 'n0 ::= abcdefghijklmno()', 0)
    text('a string of 255 bytes', program('print "' + 'x' * 255 + '"'), 0)
    text('of 256', program('print "' + 'x' * 256 + '"'), 40)
    text('253 bytes and a character of two', program('print "' + 'x' * 253 + '\u00e9"'), 0)
    text('254', program('print "' + 'x' * 254 + '\u00e9"'), 40)
    text('64 productions', '\n'.join('n%d::=a()' % n for n in range(64)), 0)
    text('65', '\n'.join('n%d::=a()' % (n % 64) for n in range(65)), 40)
    text('256 nodes', '\n'.join('n%d::=a((%s)*)' % (n, row) for n in range(8)), 0)
    text('257', '\n'.join('n%d::=a((%s)*)' % (n, row) for n in range(8)) + 'n8::=a(n0)', 40)
    for n, number in ((64, 0), (65, 41)):
        given = program('print ' + ' '.join('<t%d>' % i for i in range(n))).replace('a()', 't0()')
        text('%d tags' % n, given, number, given.index('<t64>') + 3 if number else None)
    rows = ['"%03d%s"' % (i, 'x' * 252) for i in range(32)]
    for last, number in (('"%s"' % ('y' * 32), 0), ('"%s"' % ('y' * 33), 41), (rows[0], 0)):
        given = program('print ' + ' '.join(rows) + ' ' + last)
        text('32 strings of 255 bytes and one of %d' % (len(last) - 2), given, number, len(given) - 6 if number else None)
    sixty = ['n%d::={print %s<t%d>}a()' % (i, '<a>' * 126, i) for i in range(63)]  # 63 programs of 255 bytes, 16,065
    for n, number in ((159, 0), (160, 41)):
        given = '\n'.join(sixty) + '\nn63::={%s}a(){%s}' % (';'.join(['ECHO'] * 158), ';'.join(['reject'] * n))
        text('programs of %d bytes' % (16065 + 159 + n + 1), given, number, len(given) - 1 if number else None)


def each_damaged(case, texts, others, left_out):
    """Good texts, and each with one byte cut off there, left out or replaced: others are the bytes that take its place, by turns."""
    for given in texts:
        case('whole', given, 0)
        given = given.encode()
        for i in range(len(given)):
            case('cut at %d' % i, given[:i])
            if left_out:
                case('without byte %d' % i, given[:i] + given[i + 1:])
            for b in others[i % len(others)]:
                if given[i:i + 1] != b:
                    case('%r at %d' % (b, i), given[:i] + b + given[i + 1:])


def damaged():
    heading('Each byte of a good text cut off there, and replaced')
    each_damaged(text, DAMAGED, ((b'(', b'n', b'\x80'), (b'}',), (b'0', b' ')), False)


def strings():
    heading('Strings')
    for value in ('\\n\\t\\r\\"\\\\', '\u00e9\u20ac\U0001F600', '\\x', '\t', '\ud7ff\ue000\ufffd\U0010ffff', '', '<&>'):
        text(ascii(value), program('print "' + value + '"'))
    for value in (b'\xed\xa0\x80', b'\xef\xbf\xbe', b'\xc0\x80', b'\xf4\x90\x80\x80', b'\xe0\x80\x80', b'\xf0\x80\x80\x80', b'\xc3', b'\xff', b'\x7f', b'\x1f', b'\0'):
        text(repr(value), b'n0 ::= {print "' + value + b'"} a()')
    text('equal strings once, and one that is a part of another', program('print "ab" "b" "ab"; print "" "a" ""'), 0)
    text('equal programs once, for both visits', 'n0 ::= {reject} a(({reject} n0 {reject})) {reject}', 0)
    text('programs that are equal in another spelling', 'n0 ::= {$.a0 := 1} a({$[.a0:=1}n0)', 0)
    text('a zero in a comment', b'n0 ::= a() # x\0y', 40, 14)


def printed():
    heading('Sheets printed, and the texts written again')
    sheets.files()
    seen = set()
    for _, sheet, *_, what in sheets.CASES:
        if sheet in seen or len(sheet) > 8000:
            continue
        seen.add(sheet)
        case('p', what, sheet)
        number, _, told = print_(sheet)
        if number == 0:
            again = write(told)
            assert again[0] == 0 and print_(again[2])[2] == told and write(told)[2] == again[2], what
            assert sheets.check(sheet, 65536)[:2] == sheets.check(again[2], 65536)[:2], what
            if len(told) < 1200:
                text('its text', told, 0)
                case('p', 'and the sheet of that', again[2], number=0)
    windows = bytes(32 + i % 95 for i in range(300))
    for n, number in ((32, 0), (33, 42)):
        body = b''.join(b'\7' + struct.pack('<HB', i, 255) for i in range(n)) + b'\0'
        case('p', '%d windows of 255 bytes' % n, sheets.smallest(programs=body, strings=windows).production(0, first=0).bytes(), number=number)
    case('p', 'a text of 14 bytes into 13', sheets.smallest().bytes(), room=13, number=43, count=14)


SAID = """# The cases of texts.txt

Written by `tests/rules.py`, as is the expected output. A line is: case, w (written) or p (printed), number, count, what it is."""


def mark(written):
    """A number of eight hex digits by which bytes are told apart."""
    total = 0
    for b in written:
        total = (total * 31 + b + 1) % 2 ** 32
    return '%08x' % total


def files():
    """The cases, what is said of them, and what they must answer."""
    for group in (worked, limits, damaged, strings, printed):
        group()
    cases = ''.join('%x %x %s\n' % (command == 'p', room, given.hex()) for command, room, given, *_ in CASES)
    lines, said = [], [SAID]
    for i, (command, room, given, number, count, written, what) in enumerate(CASES):
        if i in HEADINGS:
            said += ['', '## ' + HEADINGS[i], '']
        lines.append('%d: %d %d %s kept\n' % (i + 1, number, count, mark(written)))
        said.append('- %d: %s %d %d, %s' % (i + 1, command, number, count, what))
    return cases, '\n'.join(said) + '\n', ''.join(lines)


def main():
    return sheets.write_files('texts', *files(), [number for _, _, _, number, *_ in CASES])


if __name__ == '__main__':
    sys.exit(main())
