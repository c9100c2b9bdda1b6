#!/usr/bin/env python3
# The fronts that the program `fronts` is run on (crates/fronts/stdin) and what it must answer (crates/fronts/stdout). The answers are worked out
# here from documents 01 and 02 (request 2) alone, by regular expressions and Python's own UTF-8 codec; nothing of the program is read.
# Run at the top of the repository: `python3 crates/fronts/expected.py` writes both files, with `--check` it only compares them.
import re
import sys

NAME = rb'[A-Za-z_][A-Za-z0-9_.-]*'
BLANK = rb'[ \t\r\n]*'
TAG = re.compile(rb'<(?P<start>' + NAME + rb')' + BLANK + rb'(?P<slash>/?)>|</(?P<end>' + NAME + rb')' + BLANK + rb'>')
TAG_BEGUN = re.compile(rb'<(|' + NAME + BLANK + rb'/?|/|/' + NAME + BLANK + rb')\Z')
NUMBER = re.compile(rb'&#(?:x(?P<hex>[0-9A-Fa-f]+)|(?P<decimal>[0-9]+));')
NUMBER_BEGUN = re.compile(rb'&(#(x(?P<hex>[0-9A-Fa-f]*)|(?P<decimal>[0-9]*)))?\Z')
REFERENCES = {b'&amp;': 38, b'&lt;': 60, b'&gt;': 62, b'&apos;': 39, b'&quot;': 34}


CHARS = ((9, 10), (13, 13), (0x20, 0xD7FF), (0xE000, 0xFFFD), (0x10000, 0x10FFFF))


def is_char(c):
    return any(a <= c <= b for a, b in CHARS)


def escaped(c):
    return {38: b'&amp;', 60: b'&lt;', 62: b'&gt;', 13: b'&#13;'}.get(c) or chr(c).encode()


# the least length of a token that begins with the digits of a number cut off, or None: k digits more come to base^k numbers in a row
def number_length(f):
    m = NUMBER_BEGUN.match(f)
    if not m:
        return None
    base = 10 if m.group('hex') is None else 16
    digits = m.group('hex') or m.group('decimal') or b''
    n = int(digits or b'0', base)
    for k in range(0 if digits else 1, 8):
        low, high = n * base**k, (n + 1) * base**k - 1
        if any(low <= b and a <= high for a, b in CHARS):
            return max(len(f), 2) + k + 1
    return None


# every proper beginning of a single character's bytes
BEGINNINGS = {u[:i] for c in range(0x110000) if is_char(c) for u in [chr(c).encode()] for i in range(len(u))}


def token(f):
    m = TAG.match(f)
    if m and m.group('end') is not None:
        n = m.group('end')
        return 'end at 2 long %d next %d' % (len(n), m.end()), b'</' + n + b'>'
    if m:
        n = m.group('start')
        kind, again = ('empty', b'<' + n + b'></' + n + b'>') if m.group('slash') else ('start', b'<' + n + b'>')
        return '%s at 1 long %d next %d' % (kind, len(n), m.end()), again
    for word, c in REFERENCES.items():
        if f.startswith(word):
            return 'character %d by reference next %d' % (c, len(word)), escaped(c)
    m = NUMBER.match(f)
    if m:
        c = int(m.group('hex'), 16) if m.group('hex') else int(m.group('decimal'))
        return ('character %d by reference next %d' % (c, m.end()), escaped(c)) if is_char(c) else None
    if f.startswith(b'\r'):
        return 'character 10 itself next %d' % (2 if f.startswith(b'\r\n') else 1), b'\n'
    for n in (1, 2, 3, 4):
        try:
            u = f[:n].decode('utf-8') if len(f) >= n else ''
        except UnicodeDecodeError:
            continue
        if len(u) == 1 and is_char(ord(u)) and u not in '<&>':
            return 'character %d itself next %d' % (ord(u), n), escaped(ord(u))
    return None


def answer(s):
    f = s[:32]
    if f == b'\r':
        return 'waiting 16 or character 10 itself next 1'
    t = token(f)
    if t:
        return t[0] + ' writes ' + t[1].hex()
    lengths = [len(w) for w in REFERENCES if w.startswith(f) and w != f] + [n for n in [number_length(f)] if n]
    if f in BEGINNINGS:
        lengths.append(len(f) + 1)
    if TAG_BEGUN.match(f):
        lengths.append(len(f) + 1 if len(f) > 2 else 4)
    if not lengths:
        return 'bad 20'
    return 'begun 16 27' if min(lengths) <= 32 else 'long 21'


FRONTS = []


def add(*fronts):
    FRONTS.extend(f.encode() if isinstance(f, str) else f for f in fronts)


def each_length(w):
    add(*[w[:i] for i in range(len(w) + 1)])


# document 01's own examples, and the slips it names
add('<bib><article/><book/></bib>', '<article/><book/></bib>', '<book/></bib>', '</bib>', '<a/>', '<title></title>', '</title>', '<year>2009</year>')
add('This</title>That', '&lt;/title&gt;That', '&lt;', ']]>', ']>', '>')
# nothing, and every token begun at every length
add('')
for w in ('<bib>', '</bib>', '<bib/>', '<bib \t/>', '</bib\r\n>', '&amp;', '&lt;', '&gt;', '&apos;', '&quot;'):
    each_length(w)
add('<a><', '<a/x', '<a>>', '&amp;amp;', '&lt;b>')
# white space in odd places, and what is no white space
add('< a>', '</ a>', '<a / >', '<a/ >', '</a/>', '</a /', '<a / ', '<a \t\r\n>', '<a\n/>', '</a\r>', '<a\x0b>', '<a\x0c>', '<a\xa0>', '<\ta', ' <a>', '\t', '\r', '\n', '\r\n')
# names
add('<_>', '<_a.b-c9>', '<A>', '<Z/>', '<z>', '<9a>', '<-a>', '<.a>', '<a:b>', '<a:', '<:a>', '<é>', '<aé>', '<a b>', '<a b', '<a="1">', '<@>', '<[a>', '<`>', '<{>', '<a/b>', '<a//>', '<//a>', '<a<', '<a&', '<<a>')
# what the subset leaves out
add('<!', '<!--', '<!DOCTYPE', '<![CDATA[', '<?', '<?xml', '&#', '&#13;', '&#x0D;', '&;', '& ', '&a', '&A', '&am ', '&ampx', '&AMP;', '&LT;', '&ap', '&apo;', '&aq', '&l;', '&lt', '&nbsp;', '&q', '&quo;', '&&')
# 31, 32 and 33 bytes
for k in (28, 29, 30, 31, 32):
    add('<' + 'a' * k + '>', '<' + 'a' * k, '</' + 'a' * (k - 1) + '>', '<' + 'a' * (k - 1) + '/>', '<a' + ' ' * (k - 1) + '>', '<a' + ' ' * (k - 2) + '/>', '</a' + '\n' * (k - 2))
add('<' + 'a' * 30 + '!', '<' + 'a' * 31 + '!', '<' + 'a' * 29 + ' x', '<a' + ' ' * 29 + 'x', '<a' + ' ' * 30 + 'x', '<' + 'a' * 29 + '/x>', '<' + 'a' * 30 + '/>')
add('<a>' + 'b' * 40, 'b' * 40, '&amp;' + 'b' * 40, '<a' + ' ' * 29 + '/')
# characters: the edges of the Char set and of each length
for c in (0, 8, 9, 11, 12, 13, 14, 31, 32, 34, 39, 127, 0x80, 0x85, 0x7FF, 0x800, 0xFFF, 0x1000, 0x2028, 0xD7FF, 0xE000, 0xFEFF, 0xFFFD, 0xFFFE, 0xFFFF, 0x10000, 0x3FFFF, 0x1FFFE, 0x10FFFF):
    add(chr(c).encode() + b'x')
# bad UTF-8: first bytes, tails, over-long forms, surrogates, past 10FFFF, at every length
add(*[bytes([b]) for b in (0x80, 0xBF, 0xC0, 0xC1, 0xC2, 0xDF, 0xE0, 0xE1, 0xED, 0xEF, 0xF0, 0xF3, 0xF4, 0xF5, 0xFE, 0xFF)])
for h in ('c27f', 'c2c0', 'c041', 'c1bf', 'dfbf', 'df41', 'e07f', 'e080', 'e09f', 'e0a0', 'e0bf', 'e0a041', 'e0a0c0', 'e09fbf', 'e1807f', 'e180', 'e282', 'e28241', 'ed9f', 'ed9fbf',
          'eda0', 'eda080', 'edbf', 'edbfbf', 'ee80', 'efbf', 'efbfbd', 'efbfbe', 'efbfbf', 'efbb', 'efbbbf3c', 'f07f', 'f080', 'f08f', 'f08fbfbf', 'f090', 'f0908041', 'f09080', 'f0908080', 'f090c0',
          'f09080c0', 'f480', 'f48f', 'f48fbf', 'f48fbfbf', 'f490', 'f4908080', 'f4bf', 'f5808080', 'f888808080', 'e28080e2', '3cc3a9', '3c61c3', '26c3', '3c2fe2'):
    add(bytes.fromhex(h))

# line ends: CR LF, CR, and what may come behind
for behind in ('', '\n', '\r', '\r\n', '\n\n', 'x', ' ', '<a>', '&#10;', '&#13;', '>', '\0'):
    add('\r' + behind, '\n' + behind)
add(b'\r\xff', b'\r\xc3', b'\r' + b'x' * 40, b'\r\n' + b'x' * 40)
# numbers: every edge of the Char set, cut off and closed, in both bases, and far past it (2^32 and 2^64 wrap to A)
EDGES = sorted({e + d for a, b in CHARS for e in (a, b) for d in (-1, 0, 1)} | {0, 1, 2, 3, 38, 39, 60, 62, 65, 127, 128, 0xDFFF, 0x11FFFF, 2**32 + 65, 2**64 + 65})
for c in EDGES:
    for text in ('%d' % c, 'x%x' % c, 'x%X' % c):
        add('&#' + text, '&#' + text + ';', '&#' + text + ';x')
for w in ('&#65;', '&#x41;', '&#1114111;', '&#x10FFFF;', '&#x10ffff;', '&#00065;', '&#x000041;'):
    each_length(w)
# 28 to 34 bytes of leading zeros, and then each of these
for text in ('', '1', '2', '3', '8', '9', '11', '13', '20', '31', '32', '65', '65534', '55296', '1114111', '1114112'):
    for n in range(28, 35):
        add('&#' + text.rjust(n - 2, '0'), '&#' + text.rjust(n - 3, '0') + ';')
for text in ('', '1', '2', '8', '9', 'a', 'B', 'd', '10', '1f', '20', '41', 'D800', 'fffe', '10FFFF', '110000'):
    for n in range(28, 35):
        add('&#x' + text.rjust(n - 3, '0'), '&#x' + text.rjust(n - 4, '0') + ';')
add('&#' + '9' * 29 + ';', '&#' + '9' * 30, '&#x' + 'f' * 28 + ';', '&#x' + 'f' * 29, '&#4294967361;', '&#18446744073709551681;', '&#x100000041;', '&#x10000000000000041;')
# what is no reference
add('&#;', '&#x;', '&#X41;', '&#X', '&#+1;', '&#-1;', '&# 65;', '&#65 ;', '&#6a;', '&#a', '&#x4g;', '&#xg', '&#xG', '&#@', '&#x@', '&#`', '&#x`', '&#/', '&#:', '&#x/', '&#x:', '&#65x', '&##', '&#&', '&#x&', '&#xx41;', '&#0x41;')
add('&#0;', '&#00;', '&#x0;', '&#\r', '&#x\n', '&\r', '&x41;', '&#65\r', '&#é', '&#65<')

FRONTS = list(dict.fromkeys(FRONTS))
made = {'stdin': ''.join(f.hex() + '\n' for f in FRONTS), 'stdout': ''.join(answer(f) + '\n' for f in FRONTS)}
for name, text in made.items():
    path = 'crates/fronts/' + name
    if '--check' in sys.argv:
        assert open(path).read() == text, path + ' differs'
    else:
        open(path, 'w').write(text)
print(len(FRONTS), 'fronts')
