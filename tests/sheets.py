#!/usr/bin/env python3
"""Rule sheets: a second checker, written from the paper alone, and the cases of the part `sheets` of the program `trials`.

    python3 tests/sheets.py            writes data/sheets.txt, data/sheets.md and the part `sheets` of stdout, in crates/trials
    python3 tests/sheets.py --check    says whether they are what it would write

One case to a line of sheets.txt: the bytes of the lent list as a hexadecimal number, a space, the sheet in hex digits. The program fills
the lent list with AA, has the sheet checked, and writes one line a case: its number from 1, ": ", the answer's number, a space,
the fault count, each entry written (a space and its 8 hex digits), and " kept" if every byte past them is still AA.
"""
import collections
import os
import re
import struct
import sys

NONE = 0xFFFF


# ---------------------------------------------------------------------------------------------------------------------
# The checker: numbers 0 to 10 and the fault list, as the paper has them. Nothing here is taken from the proved code.

def check(sheet, room):
    """The number, the fault count and the entries written, with a lent list of `room` bytes."""
    try:
        parts = read(sheet)
    except Defect as defect:
        return defect.args[0], 0, []
    faults = t_faults(parts) + s_faults(parts)
    if not faults:
        return 0, 0, []
    if room < 4 * len(faults):
        return 10, len(faults), []
    return faults[0][0], len(faults), faults


class Defect(Exception):
    """One of the numbers 1 to 7."""


def need(number, condition):
    if not condition:
        raise Defect(number)


class Parts:
    """What the later tests ask of a sheet: tag count, productions (nonterminal, tag, tree), program bytes, strings, start."""


ATTRIBUTE, HIGHEST = 7, 63  # the highest attribute and the highest value
SECTIONS = ((16, 1, 64), (12, 1, 64), (6, 0, 256), (1, 0, 16384), (1, 0, 8192))  # bytes of one, fewest, most


def read(sheet):
    """The sheet's parts, after the tests 1 to 7, each over the whole sheet."""
    need(1, 24 <= len(sheet) <= 27928)
    trailer = struct.unpack('<12H', sheet[-24:])
    sections, at = [], 0
    for (size, least, most), offset, count in zip(SECTIONS, trailer[0::2], trailer[1::2]):
        need(2, offset == at and least <= count <= most)
        sections.append([sheet[at + size * i:at + size * (i + 1)] for i in range(count)])
        at += size * count
    need(2, at + 24 == len(sheet) and sheet[-2:] == bytes.fromhex('5853'))
    tags, productions, nodes, programs, strings = sections
    parts = Parts()
    parts.start, parts.tags = trailer[10], len(tags)
    parts.programs, parts.strings = b''.join(programs), b''.join(strings)

    names = [tag[1:1 + tag[0]] for tag in tags]
    for tag, name in zip(tags, names):
        need(3, 1 <= tag[0] <= 15 and re.fullmatch(rb'[A-Za-z_][A-Za-z0-9_.-]*', name) and not any(tag[1 + tag[0]:]))
    need(3, len(set(names)) == len(names))

    productions = [struct.unpack('<BBHBBHHBB', p) for p in productions]
    used = 0
    for nonterminal, tag, first, count, zero, _, _, *zeros in productions:
        need(4, nonterminal <= 63 and tag < parts.tags and first == used and count <= 32)
        need(4, zero == 0 and zeros == [0, 0])
        used += count
    need(4, used == len(nodes) and parts.start <= 63)

    nodes = [struct.unpack('<BBHH', n) for n in nodes]
    parts.productions = [(p[0], p[1], tree_of(nodes[p[2]:p[2] + p[3]])) for p in productions]

    starts = programs_of(parts)
    for first, second in [(p[5], p[6]) for p in productions] + [(n[2], n[3]) for n in nodes]:
        need(6, first == NONE or first in starts and 2 not in starts[first])
        need(6, second == NONE or second in starts and 1 not in starts[second])

    have = {p[0] for p in productions}
    need(7, parts.start in have and all(n[1] in have for n in nodes if n[0] == 1))
    return parts


def tree_of(nodes):
    """A run of nodes as one whole tree in preorder, None where it is empty: (kind, argument, children)."""
    def tree(at, depth):
        need(5, at < len(nodes) and depth <= 12)
        kind, argument = nodes[at][:2]
        need(5, 1 <= kind <= 6 and (argument <= 63 if kind == 1 else argument == 0))
        children, at = [], at + 1
        for _ in range((0, 0, 2, 2, 1, 0)[kind - 1]):
            child, at = tree(at, depth + 1)
            children.append(child)
        return (kind, argument, children), at
    if not nodes:
        return None
    whole, end = tree(0, 1)
    need(5, end == len(nodes))
    return whole


def programs_of(parts):
    """Where the programs start, and for each the visits, 1 and 2, that it has statements or operands of."""
    starts, at = {}, 0
    while at < len(parts.programs):
        program = Program(parts, at)
        program.statements(0)
        need(6, program.at - at <= 256)
        starts[at] = program.visits
        at = program.at
    return starts


class Program:
    """One pass over a program's bytes."""

    def __init__(self, parts, at):
        self.parts, self.at, self.visits = parts, at, set()

    def byte(self, most=255):
        need(6, self.at < len(self.parts.programs) and self.parts.programs[self.at] <= most)
        self.at += 1
        return self.parts.programs[self.at - 1]

    def statements(self, around):
        """A list with its closing 0; `around` counts the if, not, and, or that it lies in."""
        while True:
            statement = self.byte(most=10)
            if statement == 0:
                return
            if statement == 1:
                self.byte(most=ATTRIBUTE), self.byte(most=HIGHEST)
            elif statement in (2, 3):
                self.byte(most=ATTRIBUTE), self.byte(most=ATTRIBUTE)
            elif statement in (5, 6):
                self.byte(most=self.parts.tags - 1)
            elif statement == 7:
                offset = self.byte() + 256 * self.byte()
                end = offset + self.byte()
                need(6, end <= len(self.parts.strings) and is_text(self.parts.strings[offset:end]))
            elif statement == 10:
                need(6, around < 8)
                self.condition(around + 1), self.statements(around + 1), self.statements(around + 1)
            self.visits |= {3: {2}, 8: {1}, 9: {1}}.get(statement, set())

    def condition(self, around):
        kind = self.byte(most=3)
        if kind == 0:
            self.operand(), self.operand()
            return
        need(6, around < 8)
        for _ in range(1 if kind == 1 else 2):
            self.condition(around + 1)

    def operand(self):
        kind = self.byte(most=2)
        self.byte(most=HIGHEST if kind == 0 else ATTRIBUTE)
        self.visits |= {2} if kind == 2 else set()


def is_text(bytes_):
    """Whole UTF-8 characters of XML 1.0's Char set."""
    try:
        text = bytes_.decode('utf-8')
    except UnicodeDecodeError:
        return False
    return all(c in '\t\n\r' or ' ' <= c <= '\ud7ff' or '\ue000' <= c <= '\ufffd' or c >= '\U00010000' for c in text)


def t_faults(parts):
    pairs = [p[:2] for p in parts.productions]
    return [bytes([8, n, t, 0]) for n, t in sorted(set(pairs)) if pairs.count((n, t)) > 1]


def s_faults(parts):
    faults = []
    for number, (_, _, tree) in enumerate(parts.productions):
        ways = ways_through(tree)
        for place in sorted(ways):
            symbols = {}
            for target, count in ways[place].items():
                for symbol in symbols_of(target, parts):
                    symbols[symbol] = symbols.get(symbol, 0) + count
            faults += [bytes([9, number, place, x]) for x in sorted(symbols) if symbols[x] > 1]
    return faults


def symbols_of(target, parts):
    """What comes next at the end of the expression (None), or at an atom (its number, kind and argument)."""
    if target is None:
        return {255}
    _, kind, argument = target
    return {254} if kind == 2 else {p[1] for p in parts.productions if p[0] == argument}


def ways_through(tree):
    """For each place, and each atom or the end (None), by how many bracket strings one gets there: 0, 1, or 2 for more.

    Every symbol of the bracketed expression stands in it once, so its words are the paths of a graph over the symbols: a word
    starts with a symbol of `first`, goes on from symbol to symbol by `follow`, and ends with one of `last`. Two bracket strings
    are two paths over brackets. Where there are two there are two of at most twice as many steps as there are symbols, for a
    path that goes round a loop goes round it once somewhere."""
    if tree is None:
        return {0: {None: 1}}
    follow, atoms, brackets = {}, [], [0]

    def sequence(parts):  # each part: whether it can be empty, its first symbols, its last symbols
        empty, first, last = True, set(), set()
        for e, f, l in parts:
            for x in last:
                follow.setdefault(x, set()).update(f)
            first, last = first | f if empty else first, last | l if e else l
            empty = empty and e
        return empty, first, last

    def walk(node):
        kind, argument, children = node
        brackets[0] += 1
        opening, closing = ('[', brackets[0]), (']', brackets[0])
        if kind <= 2:
            atoms.append((len(atoms) + 1, kind, argument))
            inside = False, {atoms[-1]}, {atoms[-1]}
        elif kind == 3:
            inside = sequence([walk(c) for c in children])
        elif kind == 4:
            (e, f, l), (e2, f2, l2) = [walk(c) for c in children]
            inside = e or e2, f | f2, l | l2
        elif kind == 6:
            inside = True, set(), set()
        else:
            e, f, l = walk(children[0])
            for x in l:
                follow.setdefault(x, set()).update(f)
            inside = True, f, l
        return sequence([(False, {opening}, {opening}), inside, (False, {closing}, {closing})])

    _, first, last = walk(tree)
    ways = {}
    for place, reach in [(0, first)] + [(a[0], follow[a]) for a in atoms]:
        found, reach = {}, {x: 1 for x in reach}
        for _ in range(2 * (2 * brackets[0] + len(atoms))):
            after = {}
            for x, n in reach.items():
                if len(x) == 3:
                    found[x] = min(2, found.get(x, 0) + n)
                    continue
                if x in last:
                    found[None] = min(2, found.get(None, 0) + n)
                for y in follow.get(x, ()):
                    after[y] = min(2, after.get(y, 0) + n)
            reach = after
        ways[place] = found
    return ways


# ---------------------------------------------------------------------------------------------------------------------
# A writer of sheets. A case starts from a sheet that is right, or nearly, and changes one thing.

class Sheet:
    """Tags by name, rules (nonterminal, tag, expression), start, programs, strings. Every method that changes answers the sheet."""

    def __init__(self, tags, rules, start=0, programs=(), strings=b''):
        self.tags = [tag_record(name.encode()) for name in tags]
        self.productions, self.nodes = [], []
        for nonterminal, tag, text in rules:
            nodes = expression(text)
            self.productions.append(dict(nonterminal=nonterminal, tag=tag, run=len(self.nodes), count=len(nodes), zero=0,
                                         first=NONE, second=NONE, zero2=0, zero3=0))
            self.nodes += [node(kind, argument) for kind, argument in nodes]
        self.programs, self.strings, self.start = b''.join(programs), strings, start
        self.words, self.gap = {}, b''

    def tag(self, i, record):
        self.tags[i] = record
        return self

    def production(self, i, **fields):
        self.productions[i].update(fields)
        return self

    def node(self, i, **fields):
        self.nodes[i].update(fields)
        return self

    def part(self, **parts):
        """Other nodes, programs, strings or start, or bytes between the strings and the trailer (gap)."""
        vars(self).update(parts)
        return self

    def word(self, i, value):
        """Another number in the trailer."""
        self.words[i] = value
        return self

    def bytes(self):
        sections = [self.tags, [struct.pack('<BBHBBHHBB', *p.values()) for p in self.productions],
                    [struct.pack('<BBHH', *n.values()) for n in self.nodes],
                    [bytes([b]) for b in self.programs], [bytes([b]) for b in self.strings]]
        trailer, laid = [], b''
        for section in sections:
            trailer += [len(laid), len(section)]
            laid += b''.join(section)
        trailer += [self.start, 0x5358]
        trailer = [self.words.get(i, word) for i, word in enumerate(trailer)]
        return laid + self.gap + struct.pack('<12H', *trailer)


def tag_record(name):
    return bytes([len(name)]) + name + bytes(15 - len(name))


def node(kind, argument=0):
    return dict(kind=kind, argument=argument, first=NONE, second=NONE)


def expression(text):
    """The nodes, in preorder, of an expression written with n0 to n63, CHAR, EMPTY, `.`, `|`, `*` and parentheses."""
    words = re.findall(r'n\d+|CHAR|EMPTY|[().|*]', text)

    def group(kind, sign, part):
        nodes = part()
        while words and words[0] == sign:
            words.pop(0)
            nodes = [(kind, 0)] + nodes + part()
        return nodes

    def union():
        return group(4, '|', lambda: group(3, '.', starred))

    def starred():
        word = words.pop(0)
        if word == '(':
            nodes = union()
            words.pop(0)
        else:
            nodes = [(2, 0)] if word == 'CHAR' else [(6, 0)] if word == 'EMPTY' else [(1, int(word[1:]))]
        while words and words[0] == '*':
            words.pop(0)
            nodes = [(5, 0)] + nodes
        return nodes

    return union() if words else []


# Programs, spelled out.
SET = lambda a, v: bytes([1, a, v])
COPY = lambda a, b: bytes([2, a, b])
RECALL = lambda a, b: bytes([3, a, b])
REJECT, ECHO, ECHO_OFF, END = b'\4', b'\x08', b'\x09', b'\0'
OPEN = lambda t: bytes([5, t])
CLOSE = lambda t: bytes([6, t])
TEXT = lambda o, n: bytes([7, o % 256, o // 256, n])
IF = lambda c, then, other=b'': b'\x0a' + c + then + END + other + END
EQUAL = lambda x, y: b'\0' + x + y
NOT = lambda c: b'\1' + c
AND = lambda c, d: b'\2' + c + d
OR = lambda c, d: b'\3' + c + d
VALUE = lambda v: bytes([0, v])
NOW = lambda a: bytes([1, a])
THEN = lambda a: bytes([2, a])  # the value just after this node's first visit
SAME = EQUAL(NOW(0), VALUE(0))


# ---------------------------------------------------------------------------------------------------------------------
# The cases.

CASES = []  # room, sheet, number, count, entries, what it is
HEADINGS = {}


def heading(text):
    HEADINGS[len(CASES)] = text


def case(number, what, sheet, room=None, faults=None):
    """A case whose number, and list if given, is stated here by hand; the checker above has to agree."""
    sheet = sheet if isinstance(sheet, bytes) else sheet.bytes()
    if room is None:
        room = 4 * check(sheet, 1 << 16)[1] + 8
    answer, count, written = check(sheet, room)
    assert answer == number, (what, answer, number)
    if faults is not None:
        assert written == [bytes(f) for f in faults], (what, [f.hex() for f in written])
    CASES.append((room, sheet, answer, count, written, what))


def smallest(**parts):
    return Sheet(['a'], [(0, 0, '')]).part(**parts)


def over_ab(text):
    """r with an expression; a and b empty. n0, n1, n2 and tags 0, 1, 2 are r, a, b."""
    return Sheet(['r', 'a', 'b'], [(0, 0, text), (1, 1, ''), (2, 2, '')])


def worked():
    heading('Worked on paper')
    small = bytes.fromhex('0161' + 14 * '00' + '00000000 0000FFFF FFFF0000' '00000100 10000100 1C000000 1C000000 1C000000 00005853')
    assert small == smallest().bytes() and len(small) == 52
    case(0, 'the smallest sheet, 52 bytes', small)
    s = lambda *faults: [(9, 0, place, x) for place, x in faults]
    case(9, 'a*.a', over_ab('n1*.n1'), faults=s((0, 1), (1, 1)))
    case(9, 'a* | b*', over_ab('n1*|n2*'), faults=s((0, 255)))
    case(0, 'a.a* | b*', over_ab('n1.n1*|n2*'))
    case(0, '(a*.b)*', over_ab('(n1*.n2)*'))
    case(9, '(a | b)*.a.a*', over_ab('(n1|n2)*.n1.n1*'), faults=s((0, 1), (1, 1), (2, 1)))
    case(9, '(a | b)*.(a.a*), grouped the other way', over_ab('(n1|n2)*.(n1.n1*)'), faults=s((0, 1), (1, 1), (2, 1)))
    case(9, '(a*)* with tags r, a; the plain automaton is deterministic', Sheet(['r', 'a'], [(0, 0, '(n1*)*'), (1, 1, '')]),
         faults=s((0, 1), (0, 255), (1, 1), (1, 255)))
    case(9, 'book | cited, both with tag book', Sheet(['r', 'book'], [(0, 0, 'n1|n2'), (1, 1, ''), (2, 1, '')]), faults=s((0, 1)))
    case(0, 'publication* with tags book and article', Sheet(['r', 'book', 'article'], [(0, 0, 'n1*'), (1, 1, ''), (1, 2, '')]))

    for rejecting in (False, True):
        prev = lambda v: EQUAL(NOW(0), VALUE(v))
        book = IF(prev(1), OPEN(1) + CLOSE(1)) + SET(0, 2)
        if rejecting:
            book = IF(prev(1), OPEN(1) + CLOSE(1) + SET(0, 2), IF(prev(2), REJECT, SET(0, 2)))
        programs = [p + END for p in (OPEN(0), CLOSE(0), book, OPEN(2) + CLOSE(2) + SET(0, 1))]
        sheet = Sheet(['bib', 'book', 'article'], [(0, 0, '(n1|n2)*'), (1, 1, ''), (2, 2, '')], programs=programs)
        sheet.production(0, first=0, second=3).production(1, first=6).production(2, first=6 + len(programs[2]))
        case(0, "the paper's Example 27" + (', its rejecting form' if rejecting else ''), sheet)
    for text, star in (('n1.n2.n2*.n3', 7), ('n1.(n2.(n2*.n3))', 7)):
        sheet = Sheet(['bib', 'book', 'title', 'author', 'year'],
                      [(0, 0, 'n4*'), (4, 1, text), (1, 2, 'CHAR*'), (2, 3, 'CHAR*'), (3, 4, 'CHAR*')],
                      programs=[ECHO + END, ECHO_OFF + END])
        assert sheet.nodes[star]['kind'] == 5
        case(0, "the paper's Example 28, book grouped as " + text, sheet.production(0, first=0).node(star, first=2))


def rule_s():
    heading('Rule S')
    s = lambda *faults: [(9, 0, place, x) for place, x in faults]
    for text, faults in (
            ('', []), ('n1', []), ('CHAR*', []), ('(n1.n1)*', []), ('n1*.n2*', []),
            ('(n1|n2)*', []), ('(CHAR|n1)*', []), ('(CHAR*.n1)*', []), ('n1.CHAR*.n2', []), ('(n1.n2*)*', []),
            ('n1|n1', s((0, 1))), ('CHAR|CHAR', s((0, 254))), ('CHAR*.CHAR', s((0, 254), (1, 254))),
            ('n1.n2|n1.n1', s((0, 1))), ('n1.(n2|n2)', s((1, 2))), ('n1.(n2*|n1*)', s((1, 255))), ('n1*.n2*.n1*', s((0, 1), (1, 1))),
            ('(CHAR*|n1)*', s((0, 254), (0, 255), (0, 1), (1, 254), (1, 255), (1, 1), (2, 254), (2, 255), (2, 1))),
            ('(n1*.n2*)*', s(*[(p, x) for p in (0, 1, 2) for x in (1, 2, 255)])),
            ('(n1*|n2)*', s(*[(p, x) for p in (0, 1, 2) for x in (1, 2, 255)])),
            ('((n1*)*)*', s((0, 1), (0, 255), (1, 1), (1, 255))), ('(n1**|n2).n1', s((0, 1), (1, 1))),
            ('(n1|n2*).(n1*|n2)', s((0, 1), (0, 2), (2, 2))), ('n1.(n2.n1)*.n2.n1', s((1, 2), (3, 2))),
            ('((n1|n2).(n1|n2))*.n1', s((0, 1), (3, 1), (4, 1))), ('(n1.(n2|CHAR*))*', []),
            ('(CHAR.n1*)*.CHAR', s((0, 254), (1, 254), (2, 254))),
            ('EMPTY', []), ('EMPTY.EMPTY', []), ('EMPTY|EMPTY', s((0, 255))), ('EMPTY*', s((0, 255))), ('n1.EMPTY', []), ('EMPTY.n1', []),
            ('n1|EMPTY', []), ('CHAR|EMPTY', []), ('(n1|EMPTY).(n2|EMPTY)', []), ('(n1.n1*)|EMPTY', []), ('((n1|EMPTY).n2).((n1|EMPTY).n2)*', []),
            ('n1*|EMPTY', s((0, 255))), ('(n1|EMPTY)*', s((0, 1), (0, 255), (1, 1), (1, 255))), ('((n1|EMPTY).(n2|EMPTY))|EMPTY', s((0, 255))),
            ('(n1|EMPTY).(n1|EMPTY)*', s(*[(p, x) for p in (0, 1, 2) for x in (1, 255)])), ('(n1|EMPTY)|(n2|EMPTY)', s((0, 255))),
            ('(EMPTY.n1)*', []), ('(EMPTY|n1).n1', s((0, 1)))):
        case(9 if faults else 0, 'r with ' + (text or 'the empty expression'), over_ab(text), faults=sorted(faults))
    case(9, 'two places with the same next symbols in two productions',
         Sheet(['r', 'a'], [(0, 0, 'n1*.n1'), (1, 1, 'n1|n1')]), faults=[(9, 0, 0, 1), (9, 0, 1, 1), (9, 1, 0, 1)])
    case(9, 'an atom with three tags: one entry for each', Sheet(['r', 'a', 'b', 'c'], [(0, 0, 'n1*.n1'), (1, 3, ''), (1, 1, ''), (1, 2, '')]),
         faults=[(9, 0, p, x) for p in (0, 1) for x in (1, 2, 3)])
    case(9, 'two atoms that share one tag of two', Sheet(['r', 'a', 'b', 'c'], [(0, 0, 'n1|n2'), (1, 1, ''), (1, 2, ''), (2, 2, ''), (2, 3, '')]),
         faults=[(9, 0, 0, 2)])
    case(9, 'a production that nothing reaches has faults', Sheet(['r', 'a'], [(0, 0, ''), (7, 1, 'n7*.n7')]),
         faults=[(9, 1, 0, 1), (9, 1, 1, 1)])
    case(0, 'a production that nothing reaches has none', Sheet(['r', 'a'], [(0, 0, ''), (7, 1, 'n7*')]))
    case(0, 'a start that no finite stream fits', Sheet(['r'], [(0, 0, 'n0')]))
    sixteen = '({0}|{0}|{0}|{0})'.format('(n1|n1|n1|n1)') + '*'
    case(9, '16 atoms under one star, 32 nodes: places 0 to 16', over_ab(sixteen), faults=[(9, 0, p, 1) for p in range(17)])
    case(0, '16 atoms in a row, 31 nodes, 8 deep', over_ab('({0}).({0}).({0}).({0})'.format('n1.n2.n1.n2')))
    wide = [(0, t, '(n0|n0)*') for t in range(64)]
    names = ['t%d' % t for t in range(64)]
    case(9, '64 productions of (n0|n0)*, n0 with 64 tags: 12,288 faults, 49,152 bytes, the longest list known', Sheet(names, wide), 49152)
    case(10, 'the same with one byte too few', Sheet(names, wide), 49151)
    case(9, 'only the last of them, 65,536 bytes lent', Sheet(names, [(0, t, '') for t in range(63)] + wide[63:]), 65536,
         faults=[(9, 63, place, tag) for place in range(3) for tag in range(64)])


def rule_t():
    heading('Rule T, both rules, the order of the list')
    case(8, 'two productions alike', Sheet(['r'], [(0, 0, ''), (0, 0, '')]), faults=[(8, 0, 0, 0)])
    case(8, 'three alike: one entry', Sheet(['r'], [(0, 0, '')] * 3), faults=[(8, 0, 0, 0)])
    case(8, '64 alike: one entry', Sheet(['r'], [(0, 0, '')] * 64), faults=[(8, 0, 0, 0)])
    case(8, 'two pairs, the later nonterminal first', Sheet(['r', 'a'], [(5, 1, ''), (0, 1, ''), (5, 1, ''), (0, 1, '')]),
         faults=[(8, 0, 1, 0), (8, 5, 1, 0)])
    case(8, 'two tags of one nonterminal, the later first', Sheet(['r', 'a'], [(0, 1, ''), (0, 0, ''), (0, 0, ''), (0, 1, '')]),
         faults=[(8, 0, 0, 0), (8, 0, 1, 0)])
    case(8, 'nonterminal 63, tag 63', Sheet(['t%d' % t for t in range(64)], [(0, 0, ''), (63, 63, ''), (63, 63, '')]),
         faults=[(8, 63, 63, 0)])
    case(8, '32 pairs', Sheet(['r'], [(n // 2, 0, '') for n in range(64)]), faults=[(8, n, 0, 0) for n in range(32)])
    case(0, 'the same nonterminal with other tags, the same tag with other nonterminals',
         Sheet(['r', 'a'], [(0, 0, ''), (0, 1, ''), (1, 0, ''), (1, 1, '')]))
    case(8, 'alike but for the expression: T only, the atom still leads one way', Sheet(['r', 'a'], [(0, 0, 'n1'), (1, 1, ''), (1, 1, 'n1')]),
         faults=[(8, 1, 1, 0)])
    case(8, 'both rules: a*.a where a has its tag twice', Sheet(['r', 'a'], [(0, 0, 'n1*.n1'), (1, 1, ''), (1, 1, '')]),
         faults=[(8, 1, 1, 0), (9, 0, 0, 1), (9, 0, 1, 1)])
    case(8, 'both rules, in productions that nothing reaches', Sheet(['r', 'a'], [(0, 0, ''), (9, 1, 'CHAR|CHAR'), (9, 1, 'n9|n9')]),
         faults=[(8, 9, 1, 0), (9, 1, 0, 254), (9, 2, 0, 1)])


def rooms():
    heading('The lent list: long enough, too short')
    t = Sheet(['r'], [(0, 0, ''), (0, 0, '')])
    both = Sheet(['r', 'a'], [(0, 0, 'n1*.n1'), (1, 1, ''), (1, 1, '')])
    for what, sheet, number, count in (('one T fault', t, 8, 1), ('two S faults', over_ab('n1*.n1'), 9, 2), ('one T and two S', both, 8, 3)):
        for room in (0, 1, 4 * count - 1, 4 * count, 4 * count + 1, 4 * count + 4):
            case(number if room >= 4 * count else 10, '%s, %d bytes lent' % (what, room), sheet, room)
    case(0, 'no fault, nothing lent', smallest(), 0)
    case(0, 'no fault, 65,536 bytes lent', smallest(), 65536)


def sizes():
    heading('1: the size')
    for size in (0, 1, 23):
        case(1, '%d bytes, the last of the smallest sheet' % size, smallest().bytes()[52 - size:])
    case(1, '23 bytes, nothing lent', bytes(23), 0)
    case(2, '24 bytes: a trailer alone, no tag and no production', smallest().bytes()[28:])
    case(2, '24 zeros', bytes(24))
    case(0, '27,928 bytes: every section, name, tree, program and nesting at its limit', full())
    case(1, '27,929 bytes: the same with one more before the trailer', full().part(gap=b'\0'))
    case(2, 'a byte less than the smallest, taken from the front', smallest().bytes()[1:])
    case(2, 'a byte less than the smallest, taken from the end', smallest().bytes()[:-1])


def full():
    """As large as a sheet can be, and without a fault."""
    deep = '(' + '.'.join(11 * ['n63']) + ')*'  # 12 deep
    wide = '((n1.n2.n3.n4).(n5.n6.n7.n8).((n9.n10.n11.n12).(n13.n14.n15.n16)))*'  # 32 nodes
    texts = [deep, wide] + 16 * ['(n1.n2)*'] + 46 * ['n3.n4']
    prints = [TEXT(offset, 128) for offset in range(0, 8192, 128)]
    nested = SET(ATTRIBUTE, HIGHEST)
    for _ in range(8):
        nested = IF(EQUAL(THEN(ATTRIBUTE), VALUE(HIGHEST)), nested)
    programs = [b''.join(prints[:32]), b''.join(prints[32:]), nested + RECALL(ATTRIBUTE, ATTRIBUTE) + OPEN(63) + CLOSE(63)] + 61 * [b'']
    sheet = Sheet(['abcdefghijkl_%02d' % t for t in range(64)], [(63 - i, 63 - i, text) for i, text in enumerate(texts)], start=63,
                  programs=[p + (255 - len(p)) * REJECT + END for p in programs], strings=4096 * 'é'.encode())
    for part in sheet.productions + sheet.nodes:
        part.update(first=256, second=512)
    return sheet.production(63, first=0, second=63 * 256)


def trailers():
    heading('2: mark, offsets, counts')
    case(2, 'the mark 53 58', smallest().word(11, 0x5853))
    case(2, 'the mark 58 52', smallest().word(11, 0x5258))
    case(2, 'the mark 59 53', smallest().word(11, 0x5359))
    plain = lambda: Sheet(['r', 'a'], [(0, 0, 'n1*'), (1, 1, '')], programs=[REJECT + END, END], strings=b'abc')
    case(0, 'a sheet with all five sections', plain())
    names = ['tag offset', 'tag count', 'production offset', 'production count', 'node offset', 'node count', 'program offset',
             'program bytes', 'string offset', 'string bytes']
    laid = struct.unpack('<12H', plain().bytes()[-24:])
    for i, name in enumerate(names):
        for step in (-1, 1):
            if laid[i] + step >= 0:
                case(2, '%s %+d' % (name, step), plain().word(i, laid[i] + step))
    case(2, 'a byte between strings and trailer', smallest(gap=b'\0'))
    case(2, 'a string byte more than is said, the trailer right after', smallest(strings=b'ab').word(9, 1))
    case(2, 'the trailer over the last string byte', smallest(strings=b'ab').word(9, 3))
    case(2, 'a byte after the trailer', smallest().bytes() + b'\0')
    case(2, 'no tag', Sheet([], [(0, 0, '')]))
    case(2, 'no production', Sheet(['a'], []))
    case(0, '64 tags', Sheet(['t%d' % t for t in range(64)], [(0, 63, '')]))
    case(2, '65 tags', Sheet(['t%d' % t for t in range(65)], [(0, 0, '')]))
    case(0, '64 productions', Sheet(['a'], [(n, 0, '') for n in range(64)]))
    case(2, '65 productions', Sheet(['a'], [(n % 64, 0, '') for n in range(65)]))
    eights = [(n, 0, 'n0.n0.n0.n0*') for n in range(32)]
    case(0, '256 nodes', Sheet(['a'], eights))
    case(2, '257 nodes', Sheet(['a'], eights + [(32, 0, 'n0')]))
    case(0, '16,384 bytes of programs', smallest(programs=64 * (255 * REJECT + END)))
    case(2, '16,385 bytes of programs', smallest(programs=64 * (255 * REJECT + END) + END))
    case(0, '8,192 bytes of strings', smallest(strings=8192 * b'a'))
    case(2, '8,193 bytes of strings', smallest(strings=8193 * b'a'))


def tags():
    heading('3: tags')
    letter = lambda b: smallest().tag(0, tag_record(b))
    case(3, 'a name of 0 bytes', letter(b''))
    case(0, 'a name of 1 byte', letter(b'Z'))
    case(0, 'a name of 15 bytes', letter(b'a23456789-_.xyz'))
    case(3, 'length 16', smallest().tag(0, bytes([16]) + 15 * b'a'))
    case(3, 'length 255', smallest().tag(0, bytes([255]) + 15 * b'a'))
    case(3, 'length 2, name of 1 byte', smallest().tag(0, b'\2a' + bytes(14)))
    case(3, 'length 1, name of 2 bytes', smallest().tag(0, b'\1ab' + bytes(13)))
    case(3, 'fill not zero in the last byte', smallest().tag(0, b'\1a' + bytes(13) + b'\1'))
    case(3, 'fill not zero after 14 bytes of name', smallest().tag(0, b'\x0e' + 14 * b'a' + b'a'))
    case(0, 'every first byte of a range, and every range after it', Sheet(['A', 'Z', 'a', 'z', '_', '_AZaz', '_09', '_.-'], [(0, 0, '')]))
    for b in b'@[`{-.0 ':
        case(3, 'a name that starts with ' + ascii(chr(b)), letter(bytes([b])))
    for b in b'@[`{/:, ':
        case(3, 'a name whose second byte is ' + ascii(chr(b)), letter(bytes([97, b])))
    for b in (0, 128, 255):
        case(3, 'a name with the byte %02X' % b, letter(bytes([97, b, 97])))
    case(3, 'a letter over 7F: é', letter('é'.encode()))
    case(3, 'two tags alike', Sheet(['a', 'a'], [(0, 0, '')]))
    case(3, 'the first and the last of 64 alike', Sheet(['t%d' % (t % 63) for t in range(64)], [(0, 0, '')]))
    case(3, 'the last two of 64 alike', Sheet(['t%d' % min(t, 62) for t in range(64)], [(0, 0, '')]))
    case(0, 'tags that differ in case, in length, in the last byte', Sheet(['a', 'A', 'aa', 'ab', 'abcdefghijklmno', 'abcdefghijklmnp'], [(0, 0, '')]))
    case(3, 'the last of three tags is bad', Sheet(['a', 'b', 'c'], [(0, 0, '')]).tag(2, tag_record(b'1')))


def productions():
    heading('4: productions, start')
    case(0, 'nonterminal 63, start 63', Sheet(['a'], [(63, 0, '')], start=63))
    case(4, 'nonterminal 64', Sheet(['a'], [(0, 0, ''), (64, 0, '')]))
    case(4, 'nonterminal 255', Sheet(['a'], [(0, 0, ''), (255, 0, '')]))
    case(4, 'nonterminal 64, start 64', Sheet(['a'], [(64, 0, '')], start=64))
    case(4, 'start 64', smallest(start=64))
    case(4, 'start 256', smallest(start=256))
    case(4, 'start 65535', smallest(start=65535))
    case(0, 'the last tag number', Sheet(['a', 'b'], [(0, 1, '')]))
    case(4, 'a tag number at the count', Sheet(['a', 'b'], [(0, 2, '')]))
    case(4, 'tag number 64 of 64', Sheet(['t%d' % t for t in range(64)], [(0, 64, '')]))
    case(4, 'tag number 255', smallest().production(0, tag=255))
    for name in ('zero', 'zero2', 'zero3'):
        case(4, 'reserved byte %d is not 0' % dict(zero=5, zero2=10, zero3=11)[name], smallest().production(0, **{name: 128}))
    three = lambda: Sheet(['r', 'a'], [(0, 0, 'n1*'), (1, 1, ''), (2, 1, 'n1.n1')])
    case(0, 'runs 0 to 1, none at 2, 2 to 4', three())
    for i, runs in ((0, (1, 256)), (1, (0, 1, 3, 258)), (2, (1, 3, 0))):
        for run in runs:
            case(4, 'run %d starts at %d' % (i, run), three().production(i, run=run))
    case(4, 'the runs leave the last node over', three().production(2, count=2))
    case(4, 'the runs go past the last node', three().production(2, count=4))
    case(4, 'the runs overlap', three().production(1, count=1))
    case(4, 'the runs leave a node out in the middle', three().production(0, count=1))
    case(4, 'no run, one node', Sheet(['a'], [(0, 0, 'n0')]).production(0, count=0))
    case(4, 'an empty run at the end that starts at 0', Sheet(['a'], [(0, 0, 'n0'), (1, 0, '')]).production(1, run=0))
    balanced = '(n0.n0.n0.n0).(n0.n0.n0.n0).((n0.n0.n0.n0).(n0.n0.n0.n0))'
    case(0, '32 nodes', Sheet(['a'], [(0, 0, '(' + balanced + ')*')]))
    case(4, '33 nodes', Sheet(['a'], [(0, 0, balanced + '.n0')]))
    case(4, '255 nodes', Sheet(['a'], [(0, 0, '.'.join(128 * ['n0']))]))


def trees():
    heading('5: nodes and trees')
    one = lambda kind, argument=0: Sheet(['a'], [(0, 0, 'n0')]).node(0, kind=kind, argument=argument)
    for kind in (0, 7, 255):
        case(5, 'kind %d' % kind, one(kind))
    case(0, 'kind 1, argument 0', one(1))
    case(0, 'kind 1, argument 63', Sheet(['a'], [(63, 0, 'n63')], start=63))
    case(5, 'kind 1, argument 64', one(1, 64))
    case(5, 'kind 1, argument 255', one(1, 255))
    case(0, 'kind 2, argument 0', one(2))
    case(5, 'kind 2, argument 1', one(2, 1))
    case(5, 'kind 3, argument 1', Sheet(['a'], [(0, 0, 'n0.n0')]).node(0, argument=1))
    case(5, 'kind 4, argument 1', Sheet(['a'], [(0, 0, 'n0|CHAR')]).node(0, argument=1))
    case(5, 'kind 5, argument 1', Sheet(['a'], [(0, 0, 'n0*')]).node(0, argument=1))
    case(0, 'kind 6, argument 0', one(6))
    case(5, 'kind 6, argument 1', one(6, 1))
    case(5, 'kind 6, argument 255', one(6, 255))
    for what, kinds in (('a star and nothing', (5,)), ('a concatenation of one', (3, 1)), ('a concatenation of none', (3,)),
                        ('a union of one', (4, 2)), ('a star of a union of one', (5, 4, 1)), ('a node too many', (1, 1)),
                        ('a star with a node too many', (5, 1, 1)), ('a concatenation of three', (3, 1, 1, 1)),
                        ('a tree, then a bad kind', (1, 0)), ('a bad kind below a star', (5, 7)), ('a bad kind last of three', (3, 1, 0)),
                        ('a bad kind with one child', (0, 1)), ('an empty node with one child', (6, 1)), ('an empty node with two', (6, 1, 1)),
                        ('an empty node too many', (6, 6)), ('a concatenation of one empty node', (3, 6))):
        case(5, what + ': ' + ' '.join(map(str, kinds)), smallest(nodes=[node(kind) for kind in kinds]).production(0, count=len(kinds)))
    case(5, "a star that would need the next production's node",
         Sheet(['a'], [(0, 0, 'n0*'), (1, 0, 'n0')]).production(0, count=1).production(1, run=1, count=2))
    case(5, 'a star that would need the first bytes of the programs', smallest(nodes=[node(5)], programs=SET(0, 0) + END).production(0, count=1))
    case(5, 'only the last production is bad', Sheet(['a', 'b'], [(0, 0, 'n0*'), (1, 1, 'n0')]).node(2, kind=7))
    chain = lambda sign, n: ''.join('(' * (n - 1)) + 'n0' + ''.join(sign + 'n1)' for _ in range(n - 1))
    right = lambda sign, n: 'n0' if n == 1 else 'n0' + sign + '(' + right(sign, n - 1) + ')'
    two = lambda text: Sheet(['a', 'b'], [(0, 0, text), (1, 1, '')])
    case(0, 'concatenations 12 deep, to the left', two(chain('.', 12)))
    case(5, 'concatenations 13 deep, to the left', two(chain('.', 13)))
    case(0, 'concatenations 12 deep, to the right', two(right('.', 12)))
    case(5, 'concatenations 13 deep, to the right', two(right('.', 13)))
    case(9, 'unions 12 deep', two(right('|', 12)))
    case(5, 'unions 13 deep', two(right('|', 13)))
    case(9, 'stars 12 deep', two('n0' + 11 * '*'))
    case(5, 'stars 13 deep', two('n0' + 12 * '*'))
    case(5, '32 nodes, 32 deep', two('n0' + 31 * '*'))
    case(0, 'an empty node 12 deep', two('n0.(' * 10 + 'n1|EMPTY' + ')' * 10))
    case(5, 'an empty node 13 deep', two('n0.(' * 11 + 'n1|EMPTY' + ')' * 11))
    case(5, '13 deep in the second branch only', two('n0.(' + right('.', 11) + ')*'))


def programs():
    heading('6: programs')
    first = lambda body, **parts: smallest(programs=body + END, **parts).production(0, first=0)
    second = lambda body, **parts: smallest(programs=body + END, **parts).production(0, second=0)
    case(0, 'a program with no statement', first(b''))
    top, over = ATTRIBUTE, ATTRIBUTE + 1
    for what, body in (('1: attribute %d, value %d' % (top, HIGHEST), SET(top, HIGHEST)), ('2: attributes %d, %d' % (top, top), COPY(top, top)), ('4', REJECT), ('5: tag 0', OPEN(0)),
                       ('6: tag 0', CLOSE(0)), ('7: no byte', TEXT(0, 0)), ('10: an if with two empty lists', IF(SAME, b'')),
                       ('10: operands constant %d and attribute %d' % (HIGHEST, top), IF(EQUAL(VALUE(HIGHEST), NOW(top)), b'')),
                       ('attributes 4 to 6, values 16 to 62', SET(4, 16) + COPY(5, 4) + IF(EQUAL(NOW(6), VALUE(62)), SET(3, 15))),
                       ('10: not, and, or', IF(OR(AND(SAME, NOT(SAME)), SAME), REJECT, OPEN(0))), ('statements after reject', REJECT + SET(0, 0))):
        case(0, 'both visits, ' + what, first(body).production(0, second=0))
    for what, body in (('8', ECHO), ('9', ECHO_OFF), ('8 in a branch', IF(SAME, b'', ECHO)), ('9 in a branch of a branch', IF(SAME, IF(SAME, ECHO_OFF)))):
        case(0, 'first visit, ' + what, first(body))
        case(6, 'second visit, ' + what, second(body))
    for what, body in (('3: attributes %d, %d' % (top, top), RECALL(top, top)), ('operand 2 on the left', IF(EQUAL(THEN(top), NOW(0)), b'')),
                       ('operand 2 on the right', IF(EQUAL(NOW(0), THEN(0)), b'')), ('3 in the else list', IF(SAME, b'', RECALL(0, 1))),
                       ('operand 2 below not, and, or', IF(NOT(AND(SAME, OR(SAME, EQUAL(NOW(0), THEN(0))))), b''))):
        case(6, 'first visit, ' + what, first(body))
        case(0, 'second visit, ' + what, second(body))
    case(6, 'first visit, both 8 and 3', first(ECHO + RECALL(0, 0)))
    case(6, 'second visit, both 8 and 3', second(ECHO + RECALL(0, 0)))
    case(6, 'one program in both fields, with 8', second(ECHO).production(0, first=0))
    case(6, 'one program in both fields, with 3', second(RECALL(0, 0)).production(0, first=0))
    for what, body in (('attribute %d in 1' % over, SET(over, 0)), ('value %d in 1' % (HIGHEST + 1), SET(0, HIGHEST + 1)), ('value 255', SET(0, 255)), ('attribute 255', SET(255, 0)),
                       ('attribute %d in 2, to' % over, COPY(over, 0)), ('attribute %d in 2, from' % over, COPY(0, over)),
                       ('attribute %d in 3, to' % over, RECALL(over, 0)), ('attribute %d in 3, from' % over, RECALL(0, over)),
                       ('5 with a tag number at the count', OPEN(1)), ('6 with a tag number at the count', CLOSE(1)), ('statement 11', b'\x0b'),
                       ('statement 255', b'\xff'), ('condition 4 of two operands', IF(b'\4' + VALUE(0) + VALUE(0), b'')),
                       ('condition 4 of one condition', IF(b'\4' + SAME, b'')), ('condition 4 of two', IF(b'\4' + SAME + SAME, b'')), ('operand 3', IF(EQUAL(b'\3\0', NOW(0)), b'')),
                       ('operand 3 on the right', IF(EQUAL(NOW(0), b'\3\0'), b'')), ('constant %d' % (HIGHEST + 1), IF(EQUAL(VALUE(HIGHEST + 1), NOW(0)), b'')),
                       ('constant %d on the right' % (HIGHEST + 1), IF(EQUAL(NOW(0), VALUE(HIGHEST + 1)), b'')), ('operand attribute %d' % over, IF(EQUAL(NOW(over), NOW(0)), b'')),
                       ('operand 2, attribute %d' % over, IF(EQUAL(NOW(0), THEN(over)), b'')), ('a bad statement in the then list', IF(SAME, SET(over, 0))),
                       ('a bad statement in the else list', IF(SAME, b'', SET(over, 0))), ('a bad statement after a branch', IF(SAME, b'') + SET(over, 0))):
        case(6, what, second(body))
    many = Sheet(['t%d' % t for t in range(64)], [(0, 0, '')], programs=[OPEN(63) + CLOSE(63) + END])
    case(0, '5 and 6 with tag 63 of 64', many.production(0, first=0))
    case(6, '5 with tag 64 of 64', Sheet(['t%d' % t for t in range(64)], [(0, 0, '')], programs=[OPEN(64) + END]))
    whole = SET(1, 2) + TEXT(0, 1) + IF(AND(SAME, NOT(EQUAL(THEN(1), VALUE(3)))), COPY(0, 1) + IF(SAME, b''), OPEN(0)) + RECALL(2, 3) + END
    case(0, 'a program with most statements, %d bytes' % len(whole), smallest(programs=whole, strings=b'x').production(0, second=0))
    for n in range(0, len(whole), 3):
        case(6, 'its first %d bytes' % n, smallest(programs=whole[:n], strings=b'x').production(0, second=0))
    case(6, 'a second program that lacks its closing 0', smallest(programs=END + REJECT))
    case(0, '256 bytes with the closing 0', first(255 * REJECT))
    case(6, '257 bytes with the closing 0', first(256 * REJECT))
    case(0, '256 bytes, the last statement of 4 bytes', first(251 * REJECT + TEXT(0, 0)))
    case(6, '257 bytes, the last statement of 4 bytes', first(252 * REJECT + TEXT(0, 0)))
    case(0, '256 bytes that end inside branches', first(245 * REJECT + IF(SAME, b'') + OPEN(0)))
    case(6, '257 bytes that end inside branches', first(246 * REJECT + IF(SAME, b'') + OPEN(0)))
    case(6, 'the second of three programs has 257 bytes', smallest(programs=END + 256 * REJECT + END + END))
    case(6, '300 bytes and no closing 0', smallest(programs=300 * REJECT))
    nesting()
    print_ranges()
    fields()


def nesting():
    heading('6: nesting')
    ifs = lambda n, inside=b'', c=SAME: inside if n == 0 else IF(c, ifs(n - 1, inside, c))
    elses = lambda n: b'' if n == 0 else IF(SAME, b'', elses(n - 1))
    nest = lambda wrap, n: SAME if n == 0 else wrap(nest(wrap, n - 1))
    sheet = lambda body: smallest(programs=body + END).production(0, first=0)
    for number, total in ((0, 8), (6, 9)):
        case(number, 'if in the then list, %d' % total, sheet(ifs(total)))
        case(number, 'if in the else list, %d' % total, sheet(elses(total)))
        for what, wrap in (('not', NOT), ('and, to the left', lambda c: AND(c, SAME)), ('and, to the right', lambda c: AND(SAME, c)),
                           ('or, to the left', lambda c: OR(c, SAME)), ('or, to the right', lambda c: OR(SAME, c))):
            case(number, '%s below one if, %d in all' % (what, total), sheet(IF(nest(wrap, total - 1), b'')))
        case(number, 'all four, %d in all' % total, sheet(ifs(total - 7, IF(nest(lambda c: NOT(OR(SAME, AND(c, SAME))), 2), b''))))
        case(number, 'if %d times around a condition with not' % (total - 1), sheet(ifs(total - 2, IF(NOT(SAME), b''))))
        case(number, 'a shallow if, then one nested %d' % total, sheet(IF(SAME, b'') + ifs(total)))
        case(number, 'unnamed, nested %d' % total, smallest(programs=END + ifs(total) + END))
    case(0, '8 if, a statement in each list of the innermost and after it', sheet(ifs(7, IF(SAME, REJECT, REJECT) + REJECT)))
    case(0, '20 if in a row', sheet(20 * IF(SAME, b'')))
    case(6, '200 times not', sheet(IF(200 * b'\1' + SAME, b'')))


def print_ranges():
    heading('6: print ranges')
    strings = 'aé€𝄞<&>'.encode()  # characters at 0, 1, 3, 6, 10, 11, 12; 13 bytes
    def prints(number, what, offset, count, strings=strings):
        case(number, what, smallest(programs=TEXT(offset, count) + END, strings=strings).production(0, first=0))
    prints(0, 'all 13 bytes', 0, 13)
    ranges = ((0, 1), (1, 2), (3, 3), (6, 4), (10, 3), (1, 5), (3, 7), (12, 1), (0, 0), (2, 0), (8, 0))
    case(0, 'whole characters, and none at all inside one', smallest(programs=b''.join(TEXT(*r) for r in ranges) + END, strings=strings))
    prints(0, 'nothing from the very end', 13, 0)
    for offset, count in ((0, 2), (1, 1), (2, 1), (2, 4), (3, 2), (4, 2), (6, 3), (7, 3), (9, 4)):
        prints(6, 'cut characters: %d from %d' % (count, offset), offset, count)
    for offset, count in ((0, 14), (12, 2), (13, 1), (14, 0), (65535, 0), (65535, 255)):
        prints(6, 'past the end: %d from %d of 13' % (count, offset), offset, count)
    prints(0, 'no strings, nothing printed from 0', 0, 0, b'')
    prints(6, 'no strings, nothing printed from 1', 1, 0, b'')
    prints(6, 'no strings, one byte', 0, 1, b'')
    prints(0, '255 bytes', 0, 255, 255 * b'x')
    prints(0, 'from offset 258, low byte first', 258, 1, 258 * b'\xff' + b'x')
    prints(6, 'a bad byte that is printed', 1, 1, b'a\xff')
    prints(0, 'a bad byte that is not printed', 0, 1, b'a\xff')
    case(0, 'strings of bad bytes that no program prints', smallest(strings=bytes(range(128, 160))))
    case(6, 'an unnamed program prints a bad byte', smallest(programs=TEXT(0, 1) + END, strings=b'\xff'))
    case(6, 'a print in a branch goes past the end', smallest(programs=IF(SAME, b'', TEXT(0, 1)) + END).production(0, first=0))
    good = (0x9, 0xA, 0xD, 0x20, 0x7F, 0x80, 0x9F, 0x7FF, 0x800, 0xD7FF, 0xE000, 0xFEFF, 0xFFFD, 0x10000, 0x1FFFE, 0x10FFFF)
    text = ''.join(map(chr, good)).encode()
    prints(0, ' '.join('U+%04X' % c for c in good), 0, len(text), text)
    for text in ('00', '08', '0B', '1F', 'EFBFBE', 'EFBFBF', 'EDA080', 'EDBFBF', 'C080', 'C1BF', 'E08080', 'E09FBF', 'F0808080',
                 'F08FBFBF', 'F4908080', 'F5808080', 'FF', '80', 'C2', 'C241', 'E282', 'E28241', 'F09F98', 'F09F9841', '4180'):
        prints(6, 'the bytes ' + text, 0, len(text) // 2, bytes.fromhex(text))


def fields():
    heading('6: fields')
    body = OPEN(0) + END + ECHO + END + RECALL(0, 0) + END  # programs at 0, 3, 5; 9 bytes
    sheet = lambda: Sheet(['a', 'b'], [(0, 0, 'n1*'), (1, 1, '')], programs=[body])
    case(0, 'three programs, none named', sheet())
    for part, i in (('production', 0), ('production', 1), ('node', 0), ('node', 1)):
        for visit in ('first', 'second'):
            for field, number in ((0, 0), (3, 0 if visit == 'first' else 6), (5, 6 if visit == 'first' else 0), (1, 6), (4, 6), (9, 6)):
                if (part, i) == ('production', 0) or field in (3, 5):
                    case(number, '%s %d, %s visit: %d' % (part, i, visit, field), getattr(sheet(), part)(i, **{visit: field}))
    for field in (8, 10, 256, 0xFFFE):
        case(6, 'a field of %d' % field, sheet().production(0, first=field))
    case(6, 'no programs, a field of 0', smallest().production(0, first=0))
    case(6, 'no programs, a second-visit field of 0', smallest().production(0, second=0))
    case(0, 'an unnamed program of both visits', smallest(programs=ECHO + RECALL(0, 0) + END))
    case(6, 'an unnamed program with statement 11', smallest(programs=b'\x0b' + END))
    case(0, 'a field that names the last program of one byte', smallest(programs=REJECT + END + END).production(0, first=2, second=2))
    case(6, 'a field on the 0 that ends a branch', smallest(programs=IF(SAME, b'') + END).production(0, first=7))


def nonterminals():
    heading('7: nonterminals without a production')
    case(7, 'the start', smallest(start=1))
    case(7, 'the start, 63', smallest(start=63))
    case(0, 'the start is of a later production', Sheet(['a'], [(3, 0, ''), (5, 0, '')], start=5))
    case(7, 'a lone atom', Sheet(['a'], [(0, 0, 'n1')]))
    case(7, 'an atom of nonterminal 63', Sheet(['a'], [(0, 0, 'n63')]))
    case(7, 'an atom below a star, a union and a concatenation', over_ab('(n1|n2.n3)*'))
    case(7, 'an atom of a production that nothing reaches', Sheet(['a'], [(0, 0, ''), (1, 0, 'n2')]))
    case(7, 'both the start and an atom', Sheet(['a'], [(0, 0, 'n1')], start=2))
    case(0, 'an atom of its own nonterminal', Sheet(['a'], [(9, 0, 'n9*')], start=9))


DAMAGE = {
    2: lambda sheet: sheet.word(11, 0x5353),
    3: lambda sheet: sheet.tag(1, tag_record(b'-')),
    4: lambda sheet: sheet.production(2, zero=1),
    5: lambda sheet: sheet.node(3, argument=1),
    6: lambda sheet: sheet.part(programs=b'\x0b\0'),
    7: lambda sheet: sheet.part(start=9),
    8: lambda sheet: sheet.production(3, nonterminal=0),
    9: lambda sheet: sheet.node(0, kind=4),
}


def order():
    heading('Number order: each pair of defects, then all from one on')
    def broken(numbers):
        sheet = Sheet(['r', 'a'], [(0, 0, 'n1.n2'), (1, 1, 'n1*'), (2, 1, ''), (3, 0, '')])
        for number in numbers:
            DAMAGE[number](sheet)
        return sheet
    case(0, 'none', broken([]))
    for low in range(2, 10):
        case(low, '%d alone' % low, broken([low]))
        for high in range(low + 1, 10):
            case(low, '%d and %d' % (low, high), broken([low, high]))
    for low in range(2, 8):
        case(low, '%d to 9, nothing lent' % low, broken(range(low, 10)), 0)
    case(8, '8 and 9, room for both', broken([8, 9]), 8)
    case(10, '8 and 9, room for one', broken([8, 9]), 7)
    case(10, '9, no room', broken([9]), 3)
    case(1, '1 and 2: 27,929 zeros but for the mark', bytes(27927) + b'XX')
    case(1, '1 and 2: 23 bytes', bytes(23))


def lot(seed):
    """Numbers below n by a small generator of its own, so that they stay the same whatever runs it."""
    state = [seed]

    def below(n):
        state[0] = (state[0] * 1103515245 + 12345) % 2 ** 31
        return (state[0] >> 8) % n

    return below


def drawn_expression(below, atoms, size):
    if size == 1:
        return atoms[below(len(atoms))]
    if below(3) == 0:
        return '(' + drawn_expression(below, atoms, size - 1) + ')*'
    left = 1 + below(size - 1)
    return '(' + drawn_expression(below, atoms, left) + '.|.'[below(3)] + drawn_expression(below, atoms, size - left) + ')'


def drawn():
    """Sheets by lot."""
    heading('Drawn by lot: expressions over r, a, b and characters, some tags shared')
    below = lot(20011)
    atoms = ('n0', 'n1', 'n2', 'n2', 'CHAR', 'EMPTY')
    for _ in range(20):
        rules = [(n, below(3), drawn_expression(below, atoms, 1 + below(7))) for n in (0, 1, 2)] + [(below(3), below(3), '')]
        sheet = Sheet(['r', 'a', 'b'], rules)
        case(check(sheet.bytes(), 1 << 16)[0], ', '.join('n%d %s %s' % (n, 'rab'[t], e or 'empty') for n, t, e in rules), sheet)


# ---------------------------------------------------------------------------------------------------------------------

SAID = '''# The cases of sheets.txt

Written by `tests/sheets.py`, as is the expected output. A line is: case, number, fault count, what it is.

Where the paper leaves room the cases take it so: a section over its limit is 2; a production of over 32 nodes is 4; an atom's
nonterminal over 63 is 5; a print range has to lie in the strings even if it is empty; a program that no field names is read like the
others, but may hold statements of both visits; three productions alike are one fault.'''


def files():
    """The cases, what is said of them, and what they must answer."""
    for group in (worked, rule_s, rule_t, rooms, sizes, trailers, tags, productions, trees, programs, nonterminals, order, drawn):
        group()
    cases = ''.join('%x %s\n' % (room, sheet.hex()) for room, sheet, *_ in CASES)
    lines, said = [], [SAID]
    for i, (room, sheet, number, count, written, what) in enumerate(CASES):
        if i in HEADINGS:
            said += ['', '## ' + HEADINGS[i], '']
        lines.append('%d: %d %d%s kept\n' % (i + 1, number, count, ''.join(' ' + entry.hex() for entry in written)))
        said.append('- %d: %d %d, %s' % (i + 1, number, count, what))
    return cases, '\n'.join(said) + '\n', ''.join(lines)


PARTS = ('sheets', 'streams', 'texts', 'partners', 'days')  # of the program `trials`, in its order


def read_file(path):
    """A file's text to the byte, with no byte for one that is not there."""
    if not os.path.exists(path):
        return ''
    with open(path, encoding='utf-8', newline='') as file:
        return file.read()


def with_part(stdout, part, answers):
    """The program's whole output with one part of it replaced; before each part stands a line with its name."""
    pieces = re.split('^(%s)\n' % '|'.join(PARTS), stdout, flags=re.MULTILINE)
    texts = dict(zip(pieces[1::2], pieces[2::2])) | {part: answers}
    return ''.join('%s\n%s' % (name, texts.get(name, '')) for name in PARTS)


def write_files(part, cases, said, answers, numbers):
    """Writes the files of a part of the program `trials`, or with --check says whether they are these. The numbers are those that are answered: each, or how often each is."""
    crate = os.path.join(os.path.dirname(os.path.abspath(__file__)), '..', 'crates', 'trials')
    expected = os.path.join(crate, 'stdout')
    texts = {os.path.join(crate, 'data', part + '.txt'): cases, os.path.join(crate, 'data', part + '.md'): said, expected: with_part(read_file(expected), part, answers)}
    same = True
    for path, text in texts.items():
        if '--check' in sys.argv:
            same = same and read_file(path) == text
        else:
            os.makedirs(os.path.dirname(path), exist_ok=True)
            with open(path, 'w', encoding='utf-8', newline='') as file:
                file.write(text)
    counts = collections.Counter(numbers)
    print('%d cases; by number: %s' % (sum(counts.values()), ', '.join('%d: %d' % (n, counts[n]) for n in sorted(counts))))
    return 0 if same else 1


def main():
    return write_files('sheets', *files(), [number for _, _, number, *_ in CASES])


if __name__ == '__main__':
    sys.exit(main())
