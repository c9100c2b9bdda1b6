#!/usr/bin/env python3
"""Content models from a DTD (§6): a second reader of declarations, and the cases of the part `partners` of the program `trials`.

    python3 tests/partners.py            writes data/partners.txt, data/partners.md and the part `partners` of stdout, in crates/trials
    python3 tests/partners.py --check    says whether they are what it would write

Made from the change requests and docs/DECISIONS.md, section 10, and not from the definitions. Whole texts only are read here, by regular expressions that take one pair of parentheses
after the other out of a model. Whether the front of a text goes on is found by trying what could be put behind it, and the byte of a refusal by halving.

One case to a line of partners.txt: the bytes of the lent memory as a hexadecimal number, a space, the text in hex digits.
"""
import itertools
import re
import struct
import sys

import rules
import sheets

BLANK = rb'[ \t\r\n]'
NAME = rb'[A-Za-z_][A-Za-z0-9_.-]*'
NO_NAME_BYTE = rb'(?![A-Za-z0-9_.-])'
LIMITS = dict(nodes=32, deep=12, open=32)  # of one model
NAMED, CHARACTER, SEQUENCE, CHOICE, STAR, EMPTY = 1, 2, 3, 4, 5, 6


class Tree:
    """A node of an expression, with how many there are from it on, and how deep they go."""

    def __init__(self, kind, *below, name=None):
        self.kind, self.below, self.name = kind, below, name
        self.nodes = 1 + sum(t.nodes for t in below)
        self.deep = 1 + max((t.deep for t in below), default=0)

    def preorder(self):
        return [(self.kind, self.name)] + [pair for t in self.below for pair in t.preorder()]


# ---------------------------------------------------------------------------------------------------------------------
# Whole texts.

DECLARATION = re.compile(rb'(?s)<!ELEMENT%s+(%s)%s+(EMPTY|\(.*\)[?*+]?)%s*' % (BLANK, NAME, BLANK, BLANK))
MIXED = re.compile(rb'\(%s*#PCDATA((?:%s*\|%s*%s)*)%s*\)(\*?)' % (BLANK, BLANK, BLANK, NAME, BLANK))
ITEM = rb'(?:%s|\{\d+\})[?*+]?' % NAME
GROUP = re.compile(rb'\(%s*(%s(?:%s*,%s*%s)*|%s(?:%s*\|%s*%s)*)%s*\)' % (BLANK, ITEM, BLANK, BLANK, ITEM, ITEM, BLANK, BLANK, ITEM, BLANK))


def is_name(name):
    return re.fullmatch(NAME, name) and len(name) <= 15


def marked(tree, mark):
    if mark == b'?':
        return Tree(CHOICE, tree, Tree(EMPTY))
    if mark == b'*':
        return Tree(STAR, tree)
    if mark == b'+':
        return Tree(SEQUENCE, tree, Tree(STAR, tree))
    return tree


def item_tree(item, groups):
    """A name or {number of a group}, perhaps with a mark; None where a name is too long."""
    body, mark = (item[:-1], item[-1:]) if item[-1:] in (b'?', b'*', b'+') else (item, b'')
    if body.startswith(b'{'):
        return marked(groups[int(body[1:-1])], mark)
    return marked(Tree(NAMED, name=body), mark) if is_name(body) else None


def children(content):
    """The tree of a model of children, or None: pairs of parentheses without any inside them become {number}, until one is left."""
    if b'{' in content or b'}' in content:
        return None
    groups = []
    while True:
        pair = GROUP.search(content)
        if pair is None:
            break
        trees = [item_tree(item, groups) for item in re.split(rb'%s*[,|]%s*' % (BLANK, BLANK), pair[1])]
        if None in trees:
            return None
        whole = trees[0]
        for tree in trees[1:]:
            whole = Tree(SEQUENCE if b',' in pair[1] else CHOICE, whole, tree)
        groups.append(whole)
        content = content[:pair.start()] + b'{%d}' % (len(groups) - 1) + content[pair.end():]
    return item_tree(content, groups) if re.fullmatch(rb'\{\d+\}[?*+]?', content) else None


def mixed(content):
    form = MIXED.fullmatch(content)
    if form is None:
        return None
    names = re.findall(NAME, form[1])
    if names and not form[2] or not all(map(is_name, names)):
        return None
    tree = Tree(CHARACTER)
    for name in names:
        tree = Tree(CHOICE, tree, Tree(NAMED, name=name))
    return Tree(STAR, tree)


def most_open(content):
    return max(itertools.accumulate({40: 1, 41: -1}.get(b, 0) for b in content))


def declarations(text, limits):
    """The declarations of a text, (name, tree or None, its last byte); None where it is none of the family."""
    found, at = [], 0
    for end in [m.start() for m in re.finditer(rb'>', text)]:
        form = DECLARATION.fullmatch(text[at:end].lstrip(b' \t\r\n'))
        if form is None or not is_name(form[1]):
            return None
        tree = None
        if form[2] != b'EMPTY':
            tree = mixed(form[2]) or children(form[2])
            if tree is None or most_open(form[2]) > limits.get('open', 1 << 30):
                return None
            if tree.nodes > limits.get('nodes', tree.nodes) or tree.deep > limits.get('deep', tree.deep):
                return None
        found.append((form[1], tree, end))
        at = end + 1
    return found if found and not text[at:].strip(b' \t\r\n') else None


# ---------------------------------------------------------------------------------------------------------------------
# Fronts of texts.

def endings(word):
    return [word[i:] for i in range(len(word) + 1)]


BEHIND = sorted(set(endings(b'<!ELEMENT a EMPTY') + endings(b'EMPTY') + endings(b'#PCDATA') + endings(b' EMPTY') + [b'a']), key=len)


def goes_on(front, limits):
    """Whether a text of the family begins so: words, names or nothing, then what closes a model and a declaration."""
    if declarations(front, limits) is not None:
        return True
    model = front[max(front.rfind(b'<'), 0):]
    unclosed = max(0, model.count(b'(') - model.count(b')'))
    return any(declarations(front + word + b')' * unclosed + star + b'>', limits) is not None for word in BEHIND for star in (b'', b'*'))


def refused_at(text):
    """How many of its first bytes go on."""
    low, high = 0, len(text) + 1
    while high - low > 1:
        middle = (low + high) // 2
        if goes_on(text[:middle], LIMITS):
            low = middle
        else:
            high = middle
    return low


def told_at(text, k):
    """The number that goes with the byte."""
    if k < len(text) and goes_on(text[:k + 1], {}):
        return 54 if goes_on(text[:k + 1], dict(nodes=LIMITS['nodes'])) else 53
    before, there = text[:k], text[k:]
    if there[:1] in (b'%', b'&') or before.endswith(b'<!E') and re.match(rb'NTITY' + NO_NAME_BYTE, there):
        return 51
    if before.endswith(b'<!') and re.match(rb'ATTLIST' + NO_NAME_BYTE, there):
        return 52
    if re.match(rb'ANY' + NO_NAME_BYTE, there) and declarations(before + b'EMPTY>', LIMITS) is not None:
        return 50
    return 55


# ---------------------------------------------------------------------------------------------------------------------
# The sheet.

def first_ones(names):
    return list(dict.fromkeys(names))


def mentioned(found):
    return first_ones(name for declared, tree, _ in found for name in [declared] + [n for _, n in (tree.preorder() if tree else []) if n is not None])


def too_many(found):
    """The > of the first declaration that a sheet has no room for, or None."""
    nodes = 0
    for i, (_, tree, end) in enumerate(found):
        nodes += tree.nodes if tree else 0
        if i >= 64 or nodes > 256 or len(mentioned(found[:i + 1])) > 64:
            return end
    return None


def sheet(found):
    names, tags = mentioned(found), first_ones(declared for declared, _, _ in found)
    productions = nodes = b''
    for declared, tree, _ in found:
        row = tree.preorder() if tree else []
        productions += struct.pack('<BBHBBHHBB', names.index(declared), tags.index(declared), len(nodes) // 6, len(row), 0, 0xFFFF, 0xFFFF, 0, 0)
        nodes += b''.join(struct.pack('<BBHH', kind, 0 if name is None else names.index(name), 0xFFFF, 0xFFFF) for kind, name in row)
    laid = b''.join(bytes([len(tag)]) + tag + bytes(15 - len(tag)) for tag in tags)
    counts = [len(laid), len(tags)]
    offsets = [0, counts[0], counts[0] + len(productions), counts[0] + len(productions) + len(nodes)]
    trailer = (offsets[0], len(tags), offsets[1], len(found), offsets[2], len(nodes) // 6, offsets[3], 0, offsets[3], 0, 0, 0x5358)
    return laid + productions + nodes + struct.pack('<12H', *trailer)


def declare(text):
    """The number, what goes with it, and the sheet with 0."""
    found = declarations(text, LIMITS)
    if found is None:
        k = refused_at(text)
        return told_at(text, k), k, b''
    end = too_many(found)
    if end is not None:
        return 56, end, b''
    written = sheet(found)
    return 0, len(written), written


# ---------------------------------------------------------------------------------------------------------------------
# The cases.

CASES = []  # room, text, number, count, what is written, what it is
HEADINGS = {}


def heading(text):
    HEADINGS[len(CASES)] = text


def written_again(sheet_):
    """The sheet of the text that a sheet is printed as, where it keeps numbers 1 to 6."""
    number, _, text = rules.print_(sheet_)
    return rules.write(text)[2] if number == 0 else None


def case(what, given, number=None, count=None, room=None):
    """A case; where its number or count is stated by hand, the reader above has to agree. A sheet has a text, which is written as the same sheet."""
    given = given if isinstance(given, bytes) else given.encode()
    answer, told, written = declare(given)
    if room is None:
        room = len(written) + 3
    if answer == 0 and room < len(written):
        answer, told, written = 43, len(written), b''
    assert number is None or number == answer, (what, answer, told, number)
    assert count is None or count == told, (what, answer, told, count)
    assert answer or written_again(written) == written, what
    CASES.append((room, given, answer, told, written, what))


def element(content, name='a'):
    return '<!ELEMENT %s %s>' % (name, content)


def shown(content, number=None):
    case(content, element(content), number)


def row(count, sign, first=0):
    return sign.join('n%d' % i for i in range(first, first + count))


DAMAGED = ('<!ELEMENT list (head?,(entry|note.1)+,end*)>\n<!ELEMENT entry EMPTY >',
           '\t<!ELEMENT\r\np ( #PCDATA | b_2 |\ti-3 )* ><!ELEMENT b_2 ( p | ( b_2 , p ? ) * )+>'.replace(' ?', '?').replace(' *', '*'))
PARTNER = '<!ELEMENT name (year,title,author+)>'


def worked():
    heading('The worked table')
    for given, number, count in (
            (PARTNER, 0, 100), (element('ANY'), 50, 12), (element('ANYTHING'), 55, 12), ("<!ENTITY x 'y'>", 51, 3), (element('(%x;)'), 51, 13),
            ('<!ATTLIST a b CDATA #IMPLIED>', 52, 2), (element('((((b)+)+)+)+'), 53, 24), (element('((((b)+)+)+)'), 0, None), ('', 55, 0), (element('(b,c|d)'), 55, 16),
            (element('(#PCDATA|b)'), 55, 23), (element('(b) *'), 55, 16), ('<!ELEMENT a(b)>', 55, 11), (element('()'), 55, 13), (element('EMPTY'), 0, 52),
            (element('(#PCDATA)'), 0, 64), (element('(#PCDATA)*'), 0, 64), (element('(#PCDATA|a|b)*'), 0, 88), (element('(a)'), 0, 58), (element('(a,b,c)'), 0, 82), (element('(a|b|c)'), 0, 82),
            (element('(a*)'), 0, 64), (element('(a+)'), 0, 76), (element('(a?)'), 0, 70)):
        case(given, given, number, count)


def limits():
    heading('Limits of one model, met and missed by one')
    for sign in ',|':
        case('12 names with %s' % sign, element('(' + row(12, sign) + ')'), 0)
        given = element('(' + row(13, sign) + ')')
        case('13', given, 54, given.rindex(sign))
    case('16 names in groups of four', element('(' + ','.join('(%s)' % row(4, ',', 4 * i) for i in range(4)) + ')'), 0)
    given = element('(#PCDATA|%s)*' % row(11, '|'))
    case('10 names in mixed content', element('(#PCDATA|%s)*' % row(10, '|')), 0)
    case('11', given, 54, given.rindex('|'))
    case('8 names in a sequence that comes once or more', element('(' + row(8, ',') + ')+'), 0)
    case('9', element('(' + row(9, ',') + ')+'), 53, 12 + 2 * 9 + 9 + 1)
    sixteen = '((%s),(%s)),((%s),(%s))' % tuple(row(4, ',', 4 * i) for i in range(4))  # 31 nodes
    case('31 nodes', element('(' + sixteen + ')'), 0)
    case('32', element('(' + sixteen + ')*'), 0)
    case('33', element('(' + sixteen + ')?'), 53)
    case('33 by two stars', element('((' + sixteen + ')*)*'), 53)
    case('64, and 5 deep', element('(' + sixteen + ')+'), 53)
    case('32 nodes, and a name behind them', element('((' + sixteen + ')*,x)'), 53)
    case('15 nodes twice', element('(((n0,n1,n2,n3),(n4,n5,n6,n7))+)'), 0)
    case('16', element('((((n0,n1,n2,n3),(n4,n5,n6,n7))*)+)'), 53)
    for n in (11, 12):
        case('%d stars, one around the other' % n, element('(' * n + 'b' + '*)' * n), 0 if n == 11 else 54)
        case('%d question marks' % n, element('(' * n + 'b' + '?)' * n), 0 if n == 11 else 54)
    case('10 stars and a plus', element('(' * 11 + 'b' + '*)' * 10 + '+)'), 0 if 2 * 11 + 2 <= 32 and 11 + 2 <= 12 else 54)
    case('9 stars and a plus', element('(' * 10 + 'b' + '*)' * 9 + '+)'), 0)
    case('both too large and too deep', element('((' + row(12, ',') + ')+)'), 53)
    case('too deep, and too large at the next byte', element('(' + '(' * 11 + 'b' + '*)' * 11 + '+)'), 54)
    for n in (32, 33):
        case('%d parentheses' % n, element('(' * n + 'b' + ')' * n), 0 if n == 32 else 54, None if n == 32 else 44)
        case('%d parentheses, one after the other' % n, element('(' + ','.join(['(b)'] * 8) + ',(' * (n - 8 - 1) + 'b'), 55)
    case('11 times (b, and a name', element('(b,' * 11 + 'c' + ')' * 11), 0)
    case('12 times', element('(b,' * 12 + 'c' + ')' * 12), 54, 47)
    case('33 parentheses with white space', element('( ' * 33), 54, 12 + 64)
    case('32 parentheses twice', element('(' * 32 + 'b' + ')' * 31 + ',' + '(' * 31 + 'c' + ')' * 32), 0)
    case('33 the second time', element('(' * 32 + 'b' + ')' * 31 + ',' + '(' * 32 + 'c'), 54)
    for what, form in (('declared', '<!ELEMENT %s EMPTY>'), ('in a model', '<!ELEMENT a (%s)>'), ('in mixed content', '<!ELEMENT a (#PCDATA|%s)*>'), ('last in a row', '<!ELEMENT a (b,c,%s?)>')):
        case('a name of 15 bytes, ' + what, form % 'abcdefghijklmno', 0)
        case('of 16', form % 'abcdefghijklmnop', 55, form.index('%') + 15)
        case('of 15 bytes that are no letters', form % '_0123456789.-_.', 0)
        case('of one byte', form % '_', 0)
        for b in '0-.:%&\u00e9':
            case('a name that begins with %s' % ascii(b), form % (b + 'x'))
            case('one that goes on with it', form % ('x' + b))


def sheets_full():
    heading('What a sheet can hold')
    empty = ''.join(element('EMPTY', 'n%d' % i) for i in range(65))
    case('64 declarations', empty[:empty.rindex('<')], 0)
    case('65', empty, 56, len(empty) - 1)
    case('65, the last of them declared before', empty[:empty.rindex('<')] + element('EMPTY', 'n0'), 56)
    case('66 and white space', empty + element('EMPTY', 'n0') + ' \n', 56, len(empty) - 1)
    for tail, number in ((element('ANY'), 50), ('%', 51), (element('(' + row(13, ',') + ')'), 54), ('x', 55)):
        case('65, then %s' % tail[:20], empty + tail, number)
    names = ''.join(element('(%s)' % row(8, ',', 8 * i), 'n%d' % (8 * i)) for i in range(8))
    case('64 names', names, 0)
    case('65', names + element('(n64)', 'n0'), 56, len(names) + 18)
    case('65, the last of them declared', names + element('(n0)', 'n64'), 56)
    case('65, in mixed content', names + element('(#PCDATA|n3|x|n4)*', 'n0'), 56)
    case('names again', names + element('(#PCDATA|n3|n9|n63)*', 'n62'), 0)
    thirty_two = '((%s),(%s),(%s),(%s))*' % tuple(row(4, '|', 4 * i) for i in range(4))
    nodes = ''.join(element(thirty_two, 'n%d' % i) for i in range(8))
    case('256 nodes', nodes, 0)
    case('257', nodes + element('(a)'), 56, len(nodes) + 15)
    case('256 nodes and EMPTY', nodes + element('EMPTY'), 0)
    case('256 nodes and mixed content', nodes + element('(#PCDATA)'), 56)
    largest = ''.join(element('(n%d,n%d*)' % ((i + 1) % 64, (i + 7) % 64), 'n%d' % i) for i in range(64))
    case('3,352 bytes', largest, 0, 3352)
    case('3,352 bytes into 3,351', largest, 43, 3352, room=3351)
    case('3,352 bytes into 3,352', largest, 0, 3352, room=3352)
    case('over 64 of all', largest + element('(#PCDATA|x)*', 'y'), 56)


def marks():
    heading('Marks and groups')
    signs = ('', '?', '*', '+')
    for inner, outer in itertools.product(signs, signs):
        shown('(b%s)%s' % (inner, outer), 0)
        shown('((b%s)%s)' % (inner, outer), 0)
        for sign in ',|':
            shown('(b%s%sc%s)' % (inner, sign, outer), 0)
            shown('(b%s(c%sd)%s)%s' % (sign, ',|'[sign == ','], inner, outer), 0)
            shown('((c%sd)%s%sb%s)' % (',|'[sign == ','], inner, sign, outer), 0)
    for a, b in itertools.product(',|', ',|'):
        for form in ('(b%sc%sd)', '((b%sc)%sd)', '(b%s(c%sd))', '((b%sc)%s(d,e))'):
            shown(form % (a, b), 0 if a == b or form != '(b%sc%sd)' else 55)
    for wrong in ('b', 'b*', '(b', 'b)', '(b))', '((b)', '(b)(c)', '(b c)', '(b,)', '(,b)', '(b||c)', '(b,,c)', '(b**)', '(b*?)', '(b)**', '(b)+?', '(b ?)', '(b)\t?', '(?)', '()', '(())', '((),b)',
                  '(b|)', '(|b)', '(b,c)d', '(b),c', '(b);', '[b]', '{b}', '(b&c)', '(b & c)', '(b-c)', '(b.c)', '(b;c)', '(#b)', '(b,#PCDATA)', '(b|#PCDATA)', 'EMPTY*', '(EMPTY)', '(ANY)', '(ANY|b)*', 'EMPTY EMPTY'):
        shown(wrong)


def mixtures():
    heading('Mixed content')
    for names, star in itertools.product(('', '|b', '|b|c', '|b|b', '|a'), ('', '*', '?', '+', ' *', '**')):
        shown('(#PCDATA%s)%s' % (names, star))
    for wrong in ('#PCDATA', '(#pcdata)', '(#PCDATAb)', '(#PCDATA b)', '(#PCDATA,b)', '(#PCDATA|)*', '(#PCDATA||b)*', '(#PCDATA|b*)*', '(#PCDATA|(b))*', '((#PCDATA))', '((#PCDATA|b)*)', '(# PCDATA)',
                  '(#PCDATA*)', '(PCDATA)', '(#PCDAT)', '(#)', '(#PCDATA|#PCDATA)*', '(#PCDATA|b,c)*', '(#PCDATA b)*', '(#PCDATA|1)*'):
        shown(wrong)
    shown('(#PCDATA|%s|%s)*' % (row(5, '|'), row(5, '|')), 0)


def spaces():
    heading('White space at every place, and where it must or must not be')
    for pieces in (('<!ELEMENT', 'a', 'EMPTY', '>', '<!ELEMENT', 'b', '(', 'a', ',', '(', 'b', '|', 'a', ')', ')', '>'), ('<!ELEMENT', 'a', '(', '#PCDATA', '|', 'b', '|', 'c', ')*', '>'),
                   ('<!ELEMENT', 'a', '(', '(', 'b', ')?', ',', 'c+', ')*', '>')):
        needed = [i for i in range(1, len(pieces)) if pieces[i - 1] == '<!ELEMENT' or i > 1 and pieces[i - 2] == '<!ELEMENT']
        for i in range(len(pieces) + 1):
            for blank in (' ', '\t', '\r', '\n', '\r\n \t', '\x0b', '\x00', '\u00a0', ''):
                between = [blank if j == i else ' ' if j in needed else '' for j in range(len(pieces) + 1)]
                case('%s before piece %d' % (ascii(blank), i), ''.join(s + p for s, p in zip(between, pieces)) + between[-1])
    for inside in ('<! ELEMENT a EMPTY>', '<!ELE MENT a EMPTY>', '<!ELEMENT a EM PTY>', '< !ELEMENT a EMPTY>', '<!ELEMENT a (# PCDATA)>', '<!ELEMENT a (b c)>', '<!ELEMENT a b EMPTY>', ' ', '\r\n\t '):
        case(ascii(inside), inside, 55)


def words():
    heading('ANY, entities, attribute lists and other words')
    for word, number, byte in (('ANY', 50, 0), ('<!ENTITY', 51, 3), ('<!ATTLIST', 52, 2)):
        before = '<!ELEMENT a ' if word == 'ANY' else ''
        for behind in ('', ' ', '>', '\t', '\r', '%', '&', '(', '"', '<', ':', ';', '\u00e9', '\x00'):
            case('%s, then %s' % (word, ascii(behind)), before + word + behind, number, len(before) + byte)
        for behind in 'Xx0_.-':
            case('%s, then %s' % (word, behind), before + word + behind, 55, len(before) + byte)
        for n in range(1, len(word)):
            case('%s cut off' % word, before + word[:n], 55)
            case('%s with another letter' % word, before + word[:n] + 'x' + word[n + 1:], 55)
        case('%s in small letters' % word, before + word.lower(), 55)
        case('%s behind a declaration' % word, element('EMPTY') + before + word, number)
        case('%s inside a declaration' % word, '<!ELEMENT ' + word)
        case('%s inside a model' % word, '<!ELEMENT a (' + word + ')>')
    given = element('(b?,c)') + ' '
    for i in range(len(given) + 1):
        for sign in '%&':
            case('%s at byte %d' % (sign, i), given[:i] + sign + given[i:], 51, i)
    for other in ('<!--c-->', '<?xml version="1.0"?>', '<!NOTATION a>', '<!DOCTYPE a>', '<![INCLUDE[', ']]>', '<a/>', '<!ELEMENT', '<!element a EMPTY>', '<!ELEMENTS a EMPTY>', b'\xef\xbb\xbf<!ELEMENT a EMPTY>', b'\xff\xfe<\0!\0',
                  '#', 'n0 ::= a()', '<!ELEMENT a EMPTY', '<!ELEMENT a EMPTY>>', '<!ELEMENT a - - (b)>', '<!ELEMENT (a|b) EMPTY>', '<!ELEMENT a:b EMPTY>', '<!ELEMENT a EMPTYX>', '<!ELEMENT a EMPTY.>', '\x00'):
        case(ascii(other), other, 55)


def damaged():
    heading('Each byte of a good text cut off there, left out, and replaced')
    rules.each_damaged(case, DAMAGED, ((b'(', b'%'), (b')', b'|'), (b'>', b'+'), (b' ', b','), (b'A', b'\x80'), (b'N', b'<')), True)


def rooms():
    heading('Rooms')
    for given, length in ((element('EMPTY'), 52), (PARTNER, 100)):
        for room in (0, 1, 23, length - 1):
            case('%d bytes into %d' % (length, room), given, 43, length, room=room)
        for room in (length, length + 1, 4096):
            case('%d bytes into %d' % (length, room), given, 0, length, room=room)
    for given, number in ((element('ANY'), 50), ('%', 51), ('<!ATTLIST', 52), (element('((((b)+)+)+)+'), 53), (element('(' * 33), 54), ('', 55), (element('EMPTY') * 65, 56)):
        case('refused, and no room', given, number, room=0)
        case('refused, and room for any sheet', given, number, room=3352)


def drawn_model(below, size):
    """A name or a group, perhaps with a mark."""
    mark = ('', '', '', '', '?', '*', '+')[below(7)]
    if size == 1:
        return 'abcdef'[below(6)] + mark
    sign, parts = ',|'[below(2)], []
    while size > 0:
        part = 1 + below(size)
        parts.append(drawn_model(below, min(part, size)))
        size -= part
    return '(' + sign.join(parts) + ')' + mark


def drawn_content(below):
    kind = below(8)
    if kind == 0:
        return 'EMPTY'
    if kind == 1:
        return '(#PCDATA%s)*' % ''.join('|' + 'abcdef'[below(6)] for _ in range(below(5)))
    model = drawn_model(below, 1 + below(7))
    return model if model.startswith('(') else '(' + model + ')'


def drawn():
    heading('Drawn by lot')
    below = sheets.lot(20026)
    for _ in range(100):
        case('drawn', ''.join(element(drawn_content(below), 'abcdefgh'[below(8)]) + ('', '\n')[below(2)] for _ in range(1 + below(6))))


SAID = """# The cases of partners.txt

Written by `tests/partners.py`, as is the expected output. A line is: case, number, count, what it is."""


def files():
    """The cases, what is said of them, and what they must answer."""
    for group in (worked, limits, sheets_full, marks, mixtures, spaces, words, damaged, rooms, drawn):
        group()
    cases = ''.join('%x %s\n' % (room, given.hex()) for room, given, *_ in CASES)
    lines, said = [], [SAID]
    for i, (_, _, number, count, written, what) in enumerate(CASES):
        if i in HEADINGS:
            said += ['', '## ' + HEADINGS[i], '']
        lines.append('%d: %d %d %s kept\n' % (i + 1, number, count, rules.mark(written)))
        said.append('- %d: %d %d, %s' % (i + 1, number, count, what))
    return cases, '\n'.join(said) + '\n', ''.join(lines)


def main():
    return sheets.write_files('partners', *files(), [number for _, _, number, *_ in CASES])


if __name__ == '__main__':
    sys.exit(main())
