#!/usr/bin/env python3
"""Streams: a second runner, written from document 01 and the change requests alone, and the cases of the part `streams` of the program `trials`.

    python3 tests/streams.py            writes data/streams.txt, data/streams.md and the part `streams` of stdout, in crates/trials
    python3 tests/streams.py --check    says whether they are what it would write

A line of streams.txt is a letter, a space, and what the letter asks for; numbers and bytes are in hexadecimal:

    s BYTES     the sheet from here on
    t BYTES     the stream from here on
    o BYTES     the output that calls from here on are to write parts of
    z LENGTH    the state is a fresh one's bytes, cut to this length or filled up with zeros
    p AT BYTES  these bytes stand in the state from AT on
    c FROM TO ENDED ROOM NUMBER TAKEN AT WRITTEN VISITS HEAD
                a call on the stream's bytes FROM to TO, declared ended (1) or not (0), with ROOM bytes lent. Then what it must answer:
                the number, the bytes taken, the bytes written, which are those from AT on of the output, the visits, and the state's
                bytes before its frames then (its flag "root closed" is 02 where an element is open: it tells nothing there). No HEAD: the
                state's bytes are untouched. A call finds the state as the call before left it, if no z or p comes between.
    g NAME      the end of a group: a line is written with how many of its calls were answered so
"""
import codecs
import functools
import os
import re
import struct
import sys

sys.path.insert(0, os.path.dirname(os.path.abspath(__file__)))
import sheets
from sheets import (AND, CLOSE, COPY, ECHO, ECHO_OFF, END, EQUAL, HIGHEST, IF, NONE, NOT, NOW, OPEN, OR, RECALL, REJECT, SET, TEXT, THEN,
                    VALUE, Sheet)

LIMIT = 2 ** 62  # visits
DEPTH = 32       # open elements
FRONT = 32       # bytes of a front
OPEN_STATE = 255 # stands for a closing number where there is none


# ---------------------------------------------------------------------------------------------------------------------
# The reader: what the next bytes, 32 at most, start with.

NAME = rb'[A-Za-z_][A-Za-z0-9_.-]*'
TAG = re.compile(rb'<(/?)(' + NAME + rb')[ \t\r\n]*(/?)>')
TAG_BEGUN = re.compile(rb'<(/?|' + NAME + rb'[ \t\r\n]*/?|/' + NAME + rb'[ \t\r\n]*)')
REFERENCES = {b'&amp;': '&', b'&lt;': '<', b'&gt;': '>', b'&apos;': "'", b'&quot;': '"'}


NUMBER = re.compile(rb'&#(?:([0-9]+)|x([0-9A-Fa-f]+));')
NUMBER_BEGUN = re.compile(rb'&#(?:([0-9]*)|x([0-9A-Fa-f]*))')
CHAR_SET = ((0x9, 0xA), (0xD, 0xD), (0x20, 0xD7FF), (0xE000, 0xFFFD), (0x10000, 0x10FFFF))


def named(number):
    """Base and digits of a reference by number, whole or begun."""
    return (10, number[1]) if number[2] is None else (16, number[2])


def digits_wanted(base, digits):
    """How many digits more, at least, name a character; None where none do."""
    value = int(digits or b'0', base)
    for more in range(0 if digits else 1, 9):
        low, high = value * base ** more, (value + 1) * base ** more - 1
        if any(low <= last and first <= high for first, last in CHAR_SET):
            return more
    return None


def read_token(front):
    """A token (kind, what, bytes taken), or one of 'begun', 'bad' (20) and 'long' (21), or 'waits': a CR that is the last byte."""
    assert len(front) <= FRONT
    if front[:1] == b'\r':
        return 'waits' if len(front) == 1 else ('character', '\n', 2 if front[1:2] == b'\n' else 1)
    number = NUMBER.match(front)
    if number:
        base, digits = named(number)
        return ('reference', chr(int(digits, base)), number.end()) if digits_wanted(base, digits) == 0 else 'bad'
    number = NUMBER_BEGUN.fullmatch(front)
    if number:
        more = digits_wanted(*named(number))
        return 'bad' if more is None else 'begun' if len(front) + more + 1 <= FRONT else 'long'
    tag = TAG.match(front)
    if tag and not (tag[1] and tag[3]):
        return ('end' if tag[1] else 'empty' if tag[3] else 'start'), tag[2], tag.end()
    for word, character in REFERENCES.items():
        if front.startswith(word):
            return 'reference', character, len(word)
    if front[:1] not in (b'', b'<', b'&', b'>'):
        if front[:1] == b'\xed' and front[1:2] >= b'\xa0':  # a surrogate, for which the decoder below would wait a byte longer
            return 'bad'
        for n in range(1, 5):
            try:
                character = codecs.getincrementaldecoder('utf-8')().decode(front[:n])
            except UnicodeDecodeError:
                return 'bad'
            if character:
                return ('character', character, n) if sheets.is_text(front[:n]) else 'bad'
            if n >= len(front):
                return 'begun'
    begun = front == b'' or TAG_BEGUN.fullmatch(front) or any(word.startswith(front) for word in REFERENCES)
    return 'bad' if not begun else 'begun' if len(front) < FRONT else 'long'


# ---------------------------------------------------------------------------------------------------------------------
# The sheet, as a run asks for it.

class Node:
    """A node of an expression: its kind, argument and programs, its children, and the atom's number where it is one."""

    def __init__(self, record, parent):
        self.kind, self.argument, self.first, self.second = record
        self.parent, self.children, self.atom = parent, [], None


class Production:
    def __init__(self, record, nodes):
        self.nonterminal, self.tag, _, _, _, self.first, self.second = record[:7]
        self.atoms = [None]
        left = list(nodes)
        self.tree = self.build(left, None) if left else None
        self.ways = [into(self.tree) if self.tree else [((), None)]] + [out_of(atom) for atom in self.atoms[1:]]

    def build(self, left, parent):
        node = Node(left.pop(0), parent)
        if node.kind <= 2:
            node.atom = len(self.atoms)
            self.atoms.append(node)
        for _ in range((0, 0, 0, 2, 2, 1, 0)[node.kind]):
            node.children.append(self.build(left, node))
        return node

    def blanks_pass(self):
        """It has nodes, and none of them is any one character."""
        return bool(self.tree) and all(atom.kind != 2 for atom in self.atoms[1:])

    def open_nodes(self, place):
        """From the whole tree to the atom, that one included; none at the start."""
        node, found = self.atoms[place], 0
        while node:
            node, found = node.parent, found + 1
        return found


# A way is a bracket string and the atom that it leads to, None for the end of the part that is asked about. A bracket is
# (node, True) for the opening one. In a sheet that passes no star has a body with a word of no atoms, so none goes round.

def into(node):
    """The ways from before a node to an atom in it, or past it."""
    if node.kind <= 2:
        inside = [((), node)]
    elif node.kind == 3:
        inside = joined(into(node.children[0]), lambda: into(node.children[1]))
    elif node.kind == 4:
        inside = into(node.children[0]) + into(node.children[1])
    elif node.kind == 6:
        inside = [((), None)]
    else:
        inside = [((), None)] + [way for way in into(node.children[0]) if way[1]]
    return [(((node, True),) + brackets + (() if atom else ((node, False),)), atom) for brackets, atom in inside]


def out_of(node):
    """The ways on from where only a node's closing bracket is left of it."""
    parent = node.parent
    if parent is None:
        on = [((), None)]
    elif parent.kind == 3 and node is parent.children[0]:
        on = joined(into(parent.children[1]), lambda: out_of(parent))
    elif parent.kind == 5:
        on = [way for way in into(node) if way[1]] + out_of(parent)
    else:
        on = out_of(parent)
    return [(((node, False),) + brackets, atom) for brackets, atom in on]


def joined(ways, then):
    return [way for way in ways if way[1]] + [(first + second, atom) for first, none in ways if not none for second, atom in then()]


class Rules:
    def __init__(self, sheet):
        words = struct.unpack('<12H', sheet[-24:])
        part = lambda i, size: [sheet[words[i] + size * k:words[i] + size * (k + 1)] for k in range(words[i + 1])]
        self.names = [tag[1:1 + tag[0]] for tag in part(0, 16)]
        nodes = [struct.unpack('<BBHH', node) for node in part(4, 6)]
        records = [struct.unpack('<BBHBBHHBB', production) for production in part(2, 12)]
        self.productions = [Production(r, nodes[r[2]:r[2] + r[3]]) for r in records]
        self.programs, self.strings, self.start = b''.join(part(6, 1)), b''.join(part(8, 1)), words[10]

    def named(self, nonterminal, name):
        """The production of a nonterminal with this tag, by number; None where there is none."""
        found = [i for i, p in enumerate(self.productions) if p.nonterminal == nonterminal and self.names[p.tag] == name]
        assert len(found) <= 1
        return found[0] if found else None


@functools.lru_cache(maxsize=None)
def checked(sheet):
    """The number 1 to 9, or 0 and the rules."""
    number = sheets.check(sheet, 1 << 20)[0]
    return number, None if number else Rules(sheet)


# ---------------------------------------------------------------------------------------------------------------------
# The state, and its bytes.

def filled(values):
    """These attributes, and the others 0."""
    return list(values) + (ATTRIBUTES - len(values)) * [0]


class Frame:
    """An open element: its production and place, and the sets kept, each the attributes after a first visit and echo before it."""

    def __init__(self, production, place, sets):
        self.production, self.place, self.sets = production, place, sets


class State:
    def __init__(self, values=(), echo=False, count=0, rooted=False, closing=OPEN_STATE, frames=()):
        self.values, self.echo, self.count, self.rooted, self.closing = filled(values), echo, count, rooted, closing
        self.frames = list(frames)

    def copy(self):
        return State(self.values, self.echo, self.count, self.rooted, self.closing,
                     [Frame(f.production, f.place, list(f.sets)) for f in self.frames])

    def bytes(self):
        laid = bytes(self.values) + struct.pack('<BQBBQ', self.echo, self.count, self.rooted, self.closing, len(self.frames))
        for frame in self.frames:
            sets = b''.join(bytes(values) + bytes([echo]) for values, echo in frame.sets)
            laid += bytes([frame.production, frame.place, len(frame.sets)]) + sets + bytes(SETS_KEPT * SET_BYTES - len(sets))
        return laid + bytes(STATE_BYTES - len(laid))


ATTRIBUTES = sheets.ATTRIBUTE + 1               # how many there are
SETS_KEPT, SET_BYTES = 13, ATTRIBUTES + 1       # of an open element: its production's, and one for each open node; a set is the attributes and echo
FRAME_BYTES = 3 + SETS_KEPT * SET_BYTES         # production, place, how many sets are in use, and the sets
ECHO_FLAG, COUNT, ROOTED, CLOSING, OPENED, FIRST_FRAME = (ATTRIBUTES + n for n in (0, 1, 9, 10, 11, 19))
STATE_BYTES = FIRST_FRAME + DEPTH * FRAME_BYTES
PRODUCTION, PLACE, SETS, FIRST_SET = 0, 1, 2, 3  # in a frame
ZEROS = ATTRIBUTES * (0,)
FRESH = State().bytes()


def count_in(given):
    """The count that bytes of any length hold."""
    return struct.unpack('<Q', (given + bytes(ROOTED))[COUNT:ROOTED])[0]


def state_in(given, rules):
    """The state that bytes hold, None where they are unfit: 29."""
    if len(given) != STATE_BYTES:
        return None
    echo, count, rooted, closing, depth = struct.unpack('<BQBBQ', given[ATTRIBUTES:FIRST_FRAME])
    if depth > DEPTH or count > LIMIT or max(given[:ATTRIBUTES]) > HIGHEST or closing not in {0, 30, OPEN_STATE, *range(20, 28)}:
        return None
    frames, may = [], rules.start
    for k in range(depth):
        frame = given[FIRST_FRAME + FRAME_BYTES * k:FIRST_FRAME + FRAME_BYTES * (k + 1)]
        number, place, used = frame[:3]
        if number >= len(rules.productions) or rules.productions[number].nonterminal != may:
            return None
        production = rules.productions[number]
        if place >= len(production.atoms) or used != 1 + production.open_nodes(place):
            return None
        sets = [frame[FIRST_SET + SET_BYTES * j:FIRST_SET + SET_BYTES * (j + 1)] for j in range(used)]
        sets = [(tuple(kept[:ATTRIBUTES]), kept[ATTRIBUTES] != 0) for kept in sets]
        if any(max(values) > HIGHEST for values, _ in sets):
            return None
        frames.append(Frame(number, place, sets))
        atom = production.atoms[place]
        may = atom.argument if atom and atom.kind == 1 else None
    return State(given[:ATTRIBUTES], echo != 0, count, rooted != 0, closing, frames)


# ---------------------------------------------------------------------------------------------------------------------
# Programs.

class Refused(Exception):
    """One of the numbers 20 to 27 and 30, at a token."""


ESCAPED = {'&': b'&amp;', '<': b'&lt;', '>': b'&gt;', '\r': b'&#13;'}


def escaped(text):
    return b''.join(ESCAPED.get(character) or character.encode() for character in text)


class Run:
    """A token's run over a state of its own, with what it prints."""

    def __init__(self, rules, state):
        self.rules, self.state, self.out = rules, state, b''

    def program(self, at, then):
        """Runs the program at an offset; `then` is what the attributes were just after this node's first visit."""
        if at != NONE:
            self.at, self.then = at, then
            self.statements(True)

    def byte(self):
        self.at += 1
        return self.rules.programs[self.at - 1]

    def statements(self, live):
        while True:
            statement = self.byte()
            if statement == 0:
                return
            arguments = [self.byte() for _ in range((0, 2, 2, 2, 0, 1, 1, 3, 0, 0, 0)[statement])]
            if statement == 10:
                holds = self.condition()
                self.statements(live and holds)
                self.statements(live and not holds)
            elif live:
                self.statement(statement, arguments)

    def statement(self, statement, arguments):
        values, names = self.state.values, self.rules.names
        if statement == 1:
            values[arguments[0]] = arguments[1]
        elif statement == 2:
            values[arguments[0]] = values[arguments[1]]
        elif statement == 3:
            values[arguments[0]] = self.then[arguments[1]]
        elif statement == 4:
            raise Refused(25)
        elif statement == 5:
            self.out += b'<' + names[arguments[0]] + b'>'
        elif statement == 6:
            self.out += b'</' + names[arguments[0]] + b'>'
        elif statement == 7:
            offset = arguments[0] + 256 * arguments[1]
            self.out += escaped(self.rules.strings[offset:offset + arguments[2]].decode())
        else:
            self.state.echo = statement == 8

    def condition(self):
        kind = self.byte()
        if kind == 0:
            return self.operand() == self.operand()
        if kind == 1:
            return not self.condition()
        left, right = self.condition(), self.condition()
        return left and right if kind == 2 else left or right

    def operand(self):
        kind, which = self.byte(), self.byte()
        return which if kind == 0 else self.state.values[which] if kind == 1 else self.then[which]

    # Visits. A set is kept from a node's first visit to its second.

    def first_visit(self, node):
        before = self.state.echo
        self.program(node.first, None)
        self.state.count += 1
        return tuple(self.state.values), before

    def second_visit(self, node, kept, echoes=b''):
        values, before = kept
        self.program(node.second, values)
        self.state.count += 1
        self.echo(echoes)
        self.state.echo = before

    def echo(self, text):
        if self.state.echo:
            self.out += text

    def brackets(self, way):
        """Runs a way's brackets in the innermost open element."""
        frame = self.state.frames[-1]
        for node, opening in way[0]:
            if opening:
                frame.sets.append(self.first_visit(node))
            else:
                self.second_visit(node, frame.sets.pop())
        if way[1]:
            frame.place = way[1].atom

    def way(self, can):
        """The way from the innermost open element's place to an atom, or the end, that can be what comes."""
        frame = self.state.frames[-1]
        ways = [way for way in self.rules.productions[frame.production].ways[frame.place] if can(way[1])]
        assert len(ways) <= 1
        return ways[0] if ways else None

    # The events, with the numbers 22 to 25. No program runs before 24 is tested.

    def start(self, name):
        rules, frames = self.rules, self.state.frames
        way = None
        if frames:
            way = self.way(lambda atom: atom and atom.kind == 1 and rules.named(atom.argument, name) is not None)
            if way is None:
                raise Refused(23)
        number = rules.named(way[1].argument if way else rules.start, name)
        if number is None:
            raise Refused(23)
        if len(frames) == DEPTH:
            raise Refused(24)
        if way:
            self.brackets(way)
        frames.append(Frame(number, 0, [self.first_visit(rules.productions[number])]))
        self.echo(b'<' + name + b'>')

    def end(self, name):
        frames = self.state.frames
        if not frames or self.rules.names[self.rules.productions[frames[-1].production].tag] != name:
            raise Refused(22)
        way = self.way(lambda atom: atom is None)
        if way is None:
            raise Refused(23)
        self.brackets(way)
        frame = frames[-1]
        self.second_visit(self.rules.productions[frame.production], frame.sets.pop(), b'</' + name + b'>')
        assert frame.sets == []
        frames.pop()
        self.state.rooted = self.state.rooted or not frames

    def character(self, character):
        way = self.state.frames and self.way(lambda atom: atom and atom.kind == 2)
        if not way:
            raise Refused(23)
        self.brackets(way)
        self.echo(escaped(character))


def take(rules, state, kind, what):
    """A whole token, before 30 and 17: the state after it, and its output."""
    after_root = state.rooted and not state.frames
    if kind == 'character' and what in ' \t\r\n':
        if not state.frames or rules.productions[state.frames[-1].production].blanks_pass():
            return state, b''
    if after_root:
        raise Refused(26)
    run = Run(rules, state.copy())
    if kind in ('start', 'empty'):
        run.start(what)
    if kind in ('end', 'empty'):
        run.end(what)
    if kind in ('character', 'reference'):
        run.character(what)
    return run.state, run.out


def call(sheet, given, part, ended, room):
    """One call: number, taken, output, visits, and the state's bytes then; None for these where they are untouched."""
    number, rules = checked(sheet)
    count = count_in(given)
    if number:
        return number, 0, b'', count, None
    state = state_in(given, rules)
    if state is None:
        return 29, 0, b'', count, None
    if state.closing != OPEN_STATE:
        return state.closing or 28, 0, b'', count, None
    at, out = 0, b''
    while True:
        token = read_token(part[at:at + FRONT])
        if token == 'waits':
            token = ('character', '\n', 1) if ended else 'begun'
        if isinstance(token, str):
            number = {'bad': 20, 'long': 21}.get(token)
            if number is None:
                whole = at == len(part) and state.rooted and not state.frames
                number = 16 if not ended else 0 if whole else 27
            break
        try:
            after, more = take(rules, state, *token[:2])
            if after.count > LIMIT:
                raise Refused(30)
        except Refused as refused:
            number = refused.args[0]
            break
        if len(more) > room - len(out):
            number = 17
            break
        state, out, at = after, out + more, at + token[2]
    if number not in (16, 17):
        state = state.copy()
        state.closing = number
    return number, at, out, state.count, state.bytes()


# ---------------------------------------------------------------------------------------------------------------------
# The case file.

LINES, SAID, OUTPUT = [], [], []
COUNTS = {}   # how often each number is answered
GROUP = [0, 0]  # calls before this group, calls so far
HELD = dict(sheet=None, stream=None, output=None, state=None)


def hold(letter, key, value):
    if HELD[key] != value:
        HELD[key] = value
        LINES.append('%s %s' % (letter, value.hex()))


def place_of(bytes_, key, letter):
    """Where bytes stand in the stream, or output, that is held; they are held where they do not stand there."""
    if HELD[key] is None or bytes_ not in HELD[key]:
        hold(letter, key, bytes_)
    return HELD[key].index(bytes_)


def state_lines(given):
    """A state's bytes, by what differs from a fresh one's."""
    base = FRESH[:len(given)] + bytes(max(0, len(given) - len(FRESH)))
    LINES.append('z %x' % len(given))
    at = 0
    while at < len(given):
        if given[at] == base[at]:
            at += 1
            continue
        end = at + 1
        while given[end:end + 4] != base[end:end + 4]:
            end += 1
        LINES.append('p %x %s' % (at, given[at:end].hex()))
        at = end
    HELD['state'] = given


class Calls:
    """Calls under one sheet, on a state that goes on from call to call."""

    def __init__(self, sheet, state=FRESH):
        self.sheet = sheet if isinstance(sheet, bytes) else sheet.bytes()
        hold('s', 'sheet', self.sheet)
        state_lines(state)

    def call(self, part, ended=True, room=None):
        """A call whose answer goes into the file, and is handed back."""
        part = part.encode() if isinstance(part, str) else part
        given = HELD['state']
        if room is None:
            room = len(call(self.sheet, given, part, ended, 1 << 20)[2]) + 3
        number, taken, output, visits, after = call(self.sheet, given, part, ended, room)
        head = ''
        if after is not None:
            HELD['state'] = after
            head = bytearray(after[:FIRST_FRAME])
            head[ROOTED] = head[ROOTED] if head[OPENED] == 0 else 2
            head = ' ' + head.hex()
        begins = place_of(part, 'stream', 't')
        written = place_of(output, 'output', 'o') if output else 0
        LINES.append('c %x %x %x %x %x %x %x %x %x%s' % (begins, begins + len(part), ended, room, number, taken, written, len(output), visits, head))
        GROUP[1] += 1
        COUNTS[number] = COUNTS.get(number, 0) + 1
        return number, taken, output, visits


def said(what, begins):
    SAID.append('- %s: %s' % ('%d' % GROUP[1] if begins == GROUP[1] else '%d to %d' % (begins, GROUP[1]), what))


def case(what, sheet, part, number=None, output=None, visits=None, taken=None, ended=True, room=None, state=FRESH):
    """One call. What is stated here by hand, the runner above has to answer too."""
    calls = Calls(sheet, state)
    answer = calls.call(part, ended, room)
    stated = (number, taken, output if output is None else output.encode(), visits)
    assert all(s is None or s == a for s, a in zip(stated, answer)), (what, answer, stated)
    said('%d, %s' % (answer[0], what), GROUP[1])
    return calls


def end_group(name):
    LINES.append('g ' + name)
    n = GROUP[1] - GROUP[0]
    OUTPUT.append('%s: %d of %d calls agree\n' % (name, n, n))
    GROUP[0] = GROUP[1]


def heading(text):
    SAID.extend(['', '## ' + text, ''])


# ---------------------------------------------------------------------------------------------------------------------
# The sheets.

def programmed(tags, rules, fields, start=0, strings=b''):
    """A sheet whose programs are given by the fields that name them: ('production' or 'node', number, visit) and the statements."""
    sheet = Sheet(tags, rules, start=start, strings=strings)
    programs = b''
    for (part, i, visit), body in fields.items():
        getattr(sheet, part)(i, **{visit: len(programs)})
        programs += body + END
    return sheet.part(programs=programs)


def smallest():
    return Sheet(['a'], [(0, 0, '')])


def example_27(rejecting=False):
    prev = lambda v: EQUAL(NOW(0), VALUE(v))  # 1 is the paper's q_a, 2 its q_b
    book = IF(prev(1), OPEN(1) + CLOSE(1)) + SET(0, 2)
    if rejecting:
        book = IF(prev(1), OPEN(1) + CLOSE(1) + SET(0, 2), IF(prev(2), REJECT, SET(0, 2)))
    return programmed(['bib', 'book', 'article'], [(0, 0, '(n1|n2)*'), (1, 1, ''), (2, 2, '')],
                      {('production', 0, 'first'): OPEN(0), ('production', 0, 'second'): CLOSE(0), ('production', 1, 'first'): book,
                       ('production', 2, 'first'): OPEN(2) + CLOSE(2) + SET(0, 1)})


def example_28(text='n1.n2.n2*.n3', star=7):
    sheet = programmed(['bib', 'book', 'title', 'author', 'year'],
                       [(0, 0, 'n4*'), (4, 1, text), (1, 2, 'CHAR*'), (2, 3, 'CHAR*'), (3, 4, 'CHAR*')],
                       {('production', 0, 'first'): ECHO, ('node', star, 'first'): ECHO_OFF})
    assert sheet.nodes[star]['kind'] == 5
    return sheet


def echoing(text='CHAR*', tag='t'):
    """One element, echoed, whose content is this expression."""
    return programmed([tag], [(0, 0, text)], {('production', 0, 'first'): ECHO})


def deep():
    """a in a in a, and b, which rejects; c has a production that nothing reaches."""
    return programmed(['a', 'b', 'c'], [(0, 0, '(n0|n1)*'), (1, 1, ''), (2, 2, '')], {('production', 1, 'first'): REJECT})


WORDS = 'é&<>€'.encode()


def rich():
    """Most statements in both visits of productions and nodes, mixed content, white space that counts and that does not.

    r has (p | q)*, p has characters with q among them, q has a p or nothing. Attribute 0 is 1 after a p and 2 after a q."""
    return programmed(
        ['r', 'p', 'q'], [(0, 0, '(n1|n2)*'), (1, 1, '(CHAR|n2)*'), (2, 2, '(n1.n2*)*')],
        {('production', 0, 'first'): OPEN(0), ('production', 0, 'second'): TEXT(0, len(WORDS)) + CLOSE(0),
         ('node', 0, 'first'): SET(3, 7), ('node', 0, 'second'): IF(EQUAL(THEN(3), NOW(3)), OPEN(2) + CLOSE(2), TEXT(0, 2)),
         ('node', 1, 'first'): COPY(1, 0), ('node', 1, 'second'): IF(NOT(EQUAL(NOW(0), THEN(0))), TEXT(2, 1)),
         ('production', 1, 'first'): IF(OR(EQUAL(NOW(0), VALUE(1)), EQUAL(NOW(0), VALUE(2))), ECHO) + SET(0, 1),
         ('production', 1, 'second'): RECALL(2, 0) + SET(3, 8) + SET(0, 1),
         ('node', 7, 'first'): IF(EQUAL(NOW(1), VALUE(2)), ECHO_OFF), ('node', 7, 'second'): COPY(1, 0),
         ('production', 2, 'first'): IF(AND(EQUAL(NOW(0), VALUE(1)), NOT(EQUAL(NOW(3), VALUE(9)))), ECHO, TEXT(5, 3)) + SET(0, 2),
         ('production', 2, 'second'): RECALL(0, 0), ('node', 8, 'second'): IF(EQUAL(NOW(2), VALUE(1)), SET(3, 7))},
        strings=WORDS)


RICH = '<r> <p>x &amp;\n<q/>y</p><q ><p>&lt;€</p></q>\t<p></p></r>\n'
RICH_2 = '<r><q><p>é<q/></p><q/>\r<q/><p/></q><p><q><p>a</p></q>&quot;</p></r>'


# ---------------------------------------------------------------------------------------------------------------------
# The groups.

def worked():
    heading('worked: the worked examples')
    out = '<bib><book><title></title><author></author><year></year></book></bib>'
    book = '<title/><author/><author/><author/><year/>'
    for text in ('n1.n2.n2*.n3', 'n1.(n2.(n2*.n3))'):
        case('Example 28 on Example 29, ' + text, example_28(text), '<bib><book>%s</book></bib>' % book, 0, out, 46)
        case('the same, indented', example_28(text), '<bib>\n  <book>\n    %s\n  </book>\n</bib>\n' % book, 0, out, 46)
        case('the same, each tag spelled out', example_28(text), '<bib><book>%s</book></bib>' % re.sub(r'<(\w+)/>', r'<\1></\1>', book), 0, out, 46)
    case('Example 28, two books with text, one author each', example_28(),
         '<bib><book><title>A &amp; B</title><author>C</author><year>2009</year></book><book><title/><author/><author>D</author><year/></book></bib>', 0,
         '<bib><book><title>A &amp; B</title><author>C</author><year>2009</year></book><book><title></title><author></author><year></year></book></bib>')
    case('Example 28, no year', example_28(), '<bib><book><title/><author/></book></bib>', 23, '<bib><book><title></title><author></author>', taken=28)
    stream = '<bib><article/><book/><book/></bib>'
    case('Example 27', example_27(), stream, 0, '<bib><article></article><book></book></bib>', 22)
    case('its rejecting form, at the second book', example_27(True), stream, 25, '<bib><article></article><book></book>', taken=22)
    case('its rejecting form, a book first, then an article between', example_27(True), '<bib><book/><article/><book/></bib>', 0,
         '<bib><article></article><book></book></bib>')
    case('its rejecting form, two books first', example_27(True), '<bib><book/><book/></bib>', 25, '<bib>', taken=12)
    case('Example 27 with white space that is no event', example_27(), ' <bib> </bib>\n', 0, '<bib></bib>', 4)
    for stream in ('<a/>', '<a></a>', ' \t\r\n<a/>\n', '\n<a></a >\t', '<a />', '<a\n></a\r>'):
        case('the smallest sheet on %r' % stream, smallest(), stream, 0, '', 2)
    case('the smallest sheet on white space inside', smallest(), '\n<a> \n</a >\t', 23, '', 1, 4)
    end_group('worked')


def slips():
    heading('slips: what looks right and is not')
    after = lambda a: IF(EQUAL(THEN(a), VALUE(1)), TEXT(0, 5), IF(EQUAL(THEN(a), VALUE(0)), TEXT(5, 6), TEXT(11, 3)))
    strings = b'afterbeforenow'
    for what, part, i, text in (('an element', 'production', 0, 'n1'), ('an atom', 'node', 0, 'n1'), ('a star', 'node', 0, 'n1*'),
                                ('a concatenation', 'node', 0, 'n1.n1'), ('a union', 'node', 0, 'n1|n2'), ('an empty node', 'node', 0, 'EMPTY')):
        sheet = programmed(['r', 'a', 'b'], [(0, 0, text), (1, 1, ''), (2, 2, '')],
                           {(part, i, 'first'): SET(0, 1), (part, i, 'second'): after(0), ('production', 1, 'first'): SET(0, 2)}, strings=strings)
        stream = '<r><a/><a/></r>' if '.' in text else '<r/>' if text == 'EMPTY' else '<r><a/></r>'
        case('the second visit of %s gets the attributes from after the first' % what, sheet, stream, 0, 'after')
    sheet = programmed(['r', 'a'], [(0, 0, 'n1'), (1, 1, '')],
                       {('production', 0, 'first'): SET(0, 1), ('production', 1, 'first'): SET(0, 2), ('production', 1, 'second'): SET(1, 3),
                        ('production', 0, 'second'): RECALL(2, 0) + IF(EQUAL(NOW(2), VALUE(1)), OPEN(0)) + IF(AND(EQUAL(NOW(0), VALUE(2)), EQUAL(NOW(1), VALUE(3))), CLOSE(0))})
    case('statement 3, and current values that children changed', sheet, '<r><a/></r>', 0, '<r></r>')
    for a in range(ATTRIBUTES):
        for part, text in (('production', 'n1'), ('node', 'n1'), ('node', 'n1*')):
            other = (a + 1) % ATTRIBUTES
            sheet = programmed(['r', 'a'], [(0, 0, text), (1, 1, '')],
                               {(part, 0, 'first'): SET(a, HIGHEST - a), ('production', 1, 'first'): SET(a, a) + COPY(other, a) + IF(EQUAL(NOW(other), VALUE(a)), OPEN(1)),
                                (part, 0, 'second'): RECALL(other, a) + IF(AND(EQUAL(NOW(other), VALUE(HIGHEST - a)), EQUAL(NOW(a), VALUE(a))), CLOSE(1))})
            case('attribute %d is kept and recalled, %s of %s' % (a, part, text), sheet, '<r><a/></r>', 0, '<a></a>')
    case('a star with two rounds: each round has its own', programmed(
        ['r', 'a'], [(0, 0, 'n1*'), (1, 1, '')], {('node', 1, 'first'): IF(EQUAL(NOW(0), VALUE(0)), SET(0, 1), SET(0, 2)),
        ('node', 1, 'second'): IF(EQUAL(THEN(0), VALUE(1)), OPEN(0), CLOSE(0)), ('production', 1, 'first'): SET(1, 1)}), '<r><a/><a/><a/></r>', 0, '<r></r></r>')
    for stream in ('<t>&lt;</t>', '<t>&lt;b&gt;</t>', '<t>&amp;lt;</t>', '<t>&amp;amp;</t>'):
        case('echoed as it came: %s' % stream, echoing(), stream, 0, stream)
    case('&apos; and &quot; come out as characters', echoing(), '<t>&apos;&quot;</t>', 0, '<t>\'"</t>')
    stream = '<title>This&lt;/title&gt;That</title>'
    case('the quiz', echoing(tag='title'), stream, 0, stream, 2 + 2 + 2 * 16)
    case('not the same as a live end tag', echoing(tag='title'), '<title>This</title>That</title>', 26, '<title>This</title>', taken=19)
    for stream in ('<title></title>', '<title/>', '<title />'):
        case('an empty title is kept: %s' % stream, echoing(tag='title'), stream, 0, '<title></title>', 4)
    case('an empty title among others', example_28(), '<bib><book><title/><author>a</author><year/></book></bib>', 0,
         '<bib><book><title></title><author>a</author><year></year></book></bib>')
    first = TEXT(0, 5) + OPEN(0) + REJECT + CLOSE(0)
    for what, fields, number, output in (
            ('the root', {('production', 0, 'first'): first}, 25, ''),
            ('the root, after a branch', {('production', 0, 'first'): TEXT(0, 3) + IF(EQUAL(NOW(0), VALUE(0)), OPEN(1) + REJECT)}, 25, ''),
            ('a child', {('production', 0, 'first'): OPEN(0), ('production', 1, 'first'): first}, 25, '<r>'),
            ('a child, whose star printed', {('production', 0, 'first'): OPEN(0), ('node', 0, 'first'): OPEN(1), ('production', 1, 'first'): first}, 25, '<r>'),
            ('an atom', {('production', 0, 'first'): OPEN(0), ('node', 0, 'first'): OPEN(1), ('node', 1, 'first'): first}, 25, '<r>'),
            ('the second visit of a child', {('production', 1, 'first'): OPEN(1), ('production', 1, 'second'): first}, 25, ''),
            ('the second visit of an atom, at the next token', {('production', 1, 'first'): OPEN(1), ('node', 1, 'second'): first}, 25, '<a>'),
            ('the second visit of the star, at the end tag', {('production', 1, 'first'): OPEN(1), ('node', 0, 'second'): first}, 25, '<a>'),
            ('the second visit of the root', {('production', 1, 'first'): OPEN(1), ('node', 0, 'second'): OPEN(0), ('production', 0, 'second'): first}, 25, '<a>'),
            ('no reject: the prints alone', {('production', 0, 'first'): TEXT(0, 5) + OPEN(0), ('production', 0, 'second'): CLOSE(0)}, 0, 'after<r></r>')):
        sheet = programmed(['r', 'a'], [(0, 0, 'n1*'), (1, 1, '')], fields, strings=strings)
        case('a rejecting token prints nothing: ' + what, sheet, '<r><a/></r>', number, output)
    case('prints are escaped, tags are not', programmed(
        ['r'], [(0, 0, '')], {('production', 0, 'first'): TEXT(0, 14) + OPEN(0) + TEXT(0, 1), ('production', 0, 'second'): TEXT(5, 9)},
        strings='<&>]]é€𝄞'.encode()), '<r/>', 0, '&lt;&amp;&gt;]]é€𝄞<r>&lt;é€𝄞')
    case('prints come while echo is off; echo returns last of all', programmed(
        ['r', 'a'], [(0, 0, 'n1.n1'), (1, 1, '')], {('production', 0, 'first'): ECHO, ('node', 1, 'first'): ECHO_OFF + OPEN(0), ('node', 1, 'second'): CLOSE(0)}),
        '<r><a/><a/></r>', 0, '<r><r></r><a></a></r>')
    case('echo turned on by an element: its start and end tags are echoed, its neighbours are not', programmed(
        ['r', 'a', 'b'], [(0, 0, '(n1|n2)*'), (1, 1, 'n2*'), (2, 2, '')], {('production', 1, 'first'): ECHO}), '<r><b/><a><b/></a><b/></r>', 0, '<a><b></b></a>')
    end_group('slips')


def counted(count, frames=(), **more):
    """A state's bytes with this count."""
    return State(count=count, frames=frames, **more).bytes()


def tall(depth):
    """`deep` with so many open a, by a state's bytes: each at the atom of the next but the last, which has not begun its content."""
    node = (ZEROS, False)
    frames = [Frame(0, 1, [node] * 4) for _ in range(depth - 1)] + [Frame(0, 0, [node])] * (depth > 0)
    return State(count=4 * depth, frames=frames)


def limits():
    heading('limits: 32 bytes, 32 elements, 2^62 visits')
    for what, make in (('start', lambda n: '<a' + n * ' ' + '>'), ('end', lambda n: '<a></a' + n * ' ' + '>'), ('empty', lambda n: '<a' + n * '\n' + '/>')):
        size = {'start': 3, 'end': 4, 'empty': 4}[what]
        for length in (31, 32, 33, 34):
            case('a%s %s tag of %d bytes' % ('n' if what != 'start' else '', what, length), smallest(), make(length - size), 21 if length > 32 else 27 if what == 'start' else 0)
    four = '(EMPTY.EMPTY).(EMPTY.EMPTY)'
    case('sixteen empty nodes, 31 in all: 62 brackets before the end', echoing('(({0}).({0})).(({0}).({0}))'.format(four)), '<t/>', 0, '<t></t>', 64)
    for length in (31, 32, 33, 40):
        case('a name that makes a start tag of %d bytes' % length, smallest(), '<' + (length - 2) * 'a' + '>', 21 if length > 32 else 23)
        case('a name that makes an empty tag of %d bytes' % length, smallest(), '<' + (length - 3) * 'a' + '/>', 21 if length > 32 else 23)
        case('a name that makes an end tag of %d bytes' % length, smallest(), '<a></' + (length - 3) * 'a' + '>', 21 if length > 32 else 22, taken=3)
    for ended in (False, True):
        for length in (1, 31):
            case('a tag begun with %d bytes' % length, smallest(), '<' + (length - 1) * 'a', 27 if ended else 16, taken=0, ended=ended)
        case('a tag begun with 32 bytes', smallest(), '<' + 31 * 'a', 21, taken=0, ended=ended)
        case('31 letters, then what is no name', smallest(), '<' + 31 * 'a' + '!', 21, ended=ended)
        case('30 letters, then what is no name', smallest(), '<' + 30 * 'a' + '!', 20, ended=ended)
    long = programmed(['abcdefghijklmno', 'abcdefghijklmnp'], [(0, 0, '')], {('production', 0, 'first'): ECHO})
    case('a name of 15 bytes', long, '<abcdefghijklmno  ></abcdefghijklmno>', 0, '<abcdefghijklmno></abcdefghijklmno>')
    case('its last byte differs', long, '<abcdefghijklmnp/>', 23)
    case('a byte more', long, '<abcdefghijklmnop/>', 23)
    case('a byte less', long, '<abcdefghijklmn/>', 23)

    nested = lambda n: n * '<a>' + n * '</a>'
    case('31 in each other', deep(), nested(31), 0, '', 31 * 4 + 30 * 4)
    case('32 in each other', deep(), nested(32), 0, '', 32 * 4 + 31 * 4)
    case('33 in each other', deep(), nested(33), 24, '', taken=96)
    case('32 and an empty one', deep(), 32 * '<a>' + '<a/>', 24, taken=96)
    case('31, an empty one and all the ends', deep(), 31 * '<a>' + '<a/>' + 31 * '</a>', 0)
    case('32, one closed, one opened', deep(), 32 * '<a>' + '</a><a>' + 32 * '</a>', 0)
    case('32 by a state, the 33rd', deep(), '<a>', 24, '', taken=0, state=tall(32).bytes())
    case('32 by a state, all the ends', deep(), 32 * '</a>', 0, state=tall(32).bytes())
    case('31 by a state, one more', deep(), '<a>', 16, taken=3, state=tall(31).bytes(), ended=False)

    for start, number, stop in ((LIMIT - 2, 0, LIMIT), (LIMIT - 1, 30, LIMIT - 1), (LIMIT, 30, LIMIT), (LIMIT - 3, 0, LIMIT - 1)):
        case('<a/> of the smallest sheet from 2^62 - %d' % (LIMIT - start), smallest(), '<a/>', number, '', stop, 4 if number == 0 else 0, state=counted(start))
    case('<a></a> from 2^62 - 1: the start alone', smallest(), '<a></a>', 30, '', LIMIT, 3, state=counted(LIMIT - 1))
    case('<a> from 2^62 - 1', smallest(), '<a>', 16, '', LIMIT, 3, ended=False, state=counted(LIMIT - 1))
    case('white space with the count at the limit', smallest(), '  <a> \n', 30, '', LIMIT, 2, state=counted(LIMIT))
    case('white space alone with the count at the limit', smallest(), ' \t\r\n', 16, '', LIMIT, 4, ended=False, state=counted(LIMIT))
    once = [Frame(0, 0, [(ZEROS, True)])]
    for left, number, taken in ((0, 30, 0), (1, 30, 0), (2, 30, 1), (3, 30, 1), (4, 16, 2)):
        case('two characters, %d visits left' % left, echoing(), 'ab', number, taken=taken, ended=False, state=counted(LIMIT - left, once, echo=True))
    for left in range(4):
        case('30 before 17: a character with output, no room, %d visits left' % left, echoing(), 'a', 30 if left < 2 else 17, '', taken=0, ended=False, room=0,
             state=counted(LIMIT - left, once, echo=True))
    case('0 at exactly 2^62, then 28', smallest(), '<a/>', 0, visits=LIMIT, state=counted(LIMIT - 2)).call('', True)
    case('the limit passed between calls', smallest(), '<a>', 16, visits=LIMIT, ended=False, state=counted(LIMIT - 1)).call('</a>', True)
    end_group('limits')


def order():
    heading('order: each number of a token, and which comes first')
    ab = Sheet(['a', 'b'], [(0, 0, 'n1'), (1, 1, '')])  # a has exactly one b
    two = lambda first=b'', second=b'', text='': programmed(
        ['a', 'b'], [(0, 0, 'n1*'), (1, 1, text)], {('production', 1, 'first'): OPEN(1) + first, ('production', 1, 'second'): CLOSE(1) + second})
    for what, part, number, taken in (
            ('>', '<a>>', 20, 3), ('a zero byte', '<a>\0', 20, 3), ('bad UTF-8', b'<a>\xff', 20, 3), ('a comment', '<a><!--', 20, 3), ('a reference by a number that is no character', '<a>&#0;', 20, 3),
            ('a declaration', '<?xml?>', 20, 0), ('an attribute', '<a b="c">', 20, 0), ('an unknown reference', '<a>&nbsp;', 20, 3), ('CDATA', '<a><![CDATA[x]]>', 20, 3),
            ('a name of 31 letters begun', '<a><' + 31 * 'b', 21, 3), ('30 blanks in a tag', '<a' + 30 * ' ' + '>', 21, 0),
            ('an unknown end tag', '<a></c>', 22, 3), ('the end tag of a child', '<a></b>', 22, 3), ('the end tag of the parent', '<a><b></a>', 22, 6), ('an end tag before the root', '</a>', 22, 0),
            ('an unknown end tag before the root', '  </c>', 22, 2), ('a name in the other case', '<a><b></B>', 22, 6),
            ('an unknown start tag', '<a><c>', 23, 3), ('an unknown root', '<c>', 23, 0), ('a root that is not the start', '<b>', 23, 0), ('the root again', '<a><a>', 23, 3),
            ('one b too many', '<a><b/><b/>', 23, 7), ('an end too early', '<a></a>', 23, 3), ('an empty tag that cannot be empty', '<a/>', 23, 0), ('a character', '<a>x', 23, 3),
            ('a reference', '<a>&amp;', 23, 3), ('a reference by number', '<a>&#38;', 23, 3), ('white space by reference', '<a>&#x20;', 23, 3), ('a character before the root', 'x', 23, 0), ('a reference before the root', ' &lt;', 23, 1), ('a byte order mark', '\ufeff<a>', 23, 0),
            ('U+0085 before the root', '\u0085', 23, 0), ('a character in an element with no nodes', '<a><b>x', 23, 6), ('a start in an element with no nodes', '<a><b><b>', 23, 6),
            ('a second root', '<a><b/></a><a>', 26, 11), ('a character after the root', '<a><b/></a> x', 26, 12), ('a reference after the root', '<a><b/></a>&gt;', 26, 11),
            ('the root\'s end again', '<a><b/></a></a>', 26, 11), ('an unknown name after the root', '<a><b/></a>\n<c/>', 26, 12), ('an unknown end after the root', '<a><b/></a></c>', 26, 11)):
        for ended in (False, True):
            case(what, ab, part, number, '', taken=taken, ended=ended)
    heading('order: two that would apply')
    root = '<a><b/></a>'
    case('20 before 26', ab, root + '>', 20, taken=11)
    case('20 before 26: a bad byte', ab, root.encode() + b'\xc0\x80', 20, taken=11)
    case('21 before 26', ab, root + '<' + 40 * 'x' + '>', 21, taken=11)
    case('26 before 22', ab, root + '</b>', 26, taken=11)
    case('26 before 23', ab, root + '<b>', 26, taken=11)
    case('26 before 25 and 30', two(REJECT), '<b/>', 26, visits=LIMIT, state=counted(LIMIT, rooted=True))
    case('26 before 17', two(), '<b/>', 26, room=0, state=counted(9, rooted=True))
    case('22 before 23: the element cannot end yet, and the end is another\'s', ab, '<a></b>', 22, taken=3)
    case('22 before 25', two(second=REJECT), '<a><b></a>', 22, '<b>', taken=6)
    case('22 before 30', two(), '</b>', 22, state=counted(LIMIT, [Frame(0, 0, [(ZEROS, False)])]))
    case('22 with no room', two(), '<a></b>', 22, room=0, taken=3)
    case('23 before 24', deep(), 32 * '<a>' + '<c>', 23, taken=96)
    case('23 before 24: an unknown name', deep(), 32 * '<a>' + '<d/>', 23, taken=96)
    case('23 before 25', programmed(['a', 'b'], [(0, 0, ''), (1, 1, '')], {('production', 1, 'first'): REJECT}), '<a><b/>', 23, taken=3)
    case('23 before 25: the brackets would reject', programmed(['a', 'b'], [(0, 0, 'n1'), (1, 1, '')], {('node', 0, 'second'): REJECT}), '<a><b/><b/>', 23, taken=7)
    case('23 before 30', two(), '<a>', 23, state=counted(LIMIT, [Frame(0, 0, [(ZEROS, False)])]))
    case('23 with no room', two(), '<a><a>', 23, room=0, taken=3)
    case('24 before 25: the start rejects', deep(), 32 * '<a>' + '<b>', 24, taken=96)
    case('24 before 25: an empty tag', deep(), 32 * '<a>' + '<b/>', 24, taken=96)
    star = programmed(['a'], [(0, 0, 'n0*')], {('node', 0, 'first'): REJECT})
    node = (ZEROS, False)
    frames = [Frame(0, 1, [node] * 3)] * 31 + [Frame(0, 0, [node])]
    case('24 before 25: a bracket rejects', star, '<a>', 24, taken=0, state=counted(500, frames))
    case('the same one element lower: 25', star, '<a>', 25, taken=0, state=counted(500, frames[1:]))
    case('24 before 30', deep(), '<a>', 24, visits=LIMIT, state=counted(LIMIT, tall(32).frames))
    one = [Frame(0, 0, [node])]
    case('25 before 30', two(REJECT), '<b>', 25, visits=LIMIT, state=counted(LIMIT, one))
    case('25 before 30: an end tag', two(second=REJECT), '<b></b>', 25, '<b>', LIMIT - 1, state=counted(LIMIT - 4, one))
    case('25 before 17', two(REJECT), '<a><b>', 25, '', room=0, taken=3)
    case('25 before 17: an end tag', two(second=REJECT), '<a><b></b>', 25, '<b>', room=3, taken=6)
    case('30 before 17', two(), '<b>', 30, '', LIMIT - 1, room=0, state=counted(LIMIT - 1, one))
    case('17 with visits enough', two(), '<b>', 17, '', LIMIT - 3, room=0, state=counted(LIMIT - 3, one))
    heading('order: an empty tag')
    case('25 of its start before 23 of its end', two(REJECT, text='n1'), '<a><b/>', 25, taken=3)
    case('23 of its end', two(text='n1'), '<a><b/>', 23, '', taken=3)
    case('23 of its end before 25 of its end', two(second=REJECT, text='n1'), '<a><b/>', 23, '', taken=3)
    case('23 of its end before 30', two(text='n1'), '<b/>', 23, state=counted(LIMIT, one))
    case('23 of its end before 17', two(text='n1'), '<a><b/>', 23, room=0, taken=3)
    case('24 of its start before 23 of its end', Sheet(['a'], [(0, 0, 'n0')]), 32 * '<a>' + '<a/>', 24, taken=96)
    case('25 of its end', two(second=REJECT), '<a><b/>', 25, '', taken=3)
    case('25 of its end before 30 over both', two(second=REJECT), '<b/>', 25, '', LIMIT, state=counted(LIMIT, one))
    case('25 of its end before 17 over both', two(second=REJECT), '<a><b/>', 25, '', room=0, taken=3)
    for left, number in ((0, 30), (2, 30), (3, 30), (4, 16)):  # star, atom and start are 3 visits, the end is the fourth
        case('30 over both, %d visits left' % left, two(), '<b/>', number, None, LIMIT - left if number == 30 else LIMIT, ended=False, state=counted(LIMIT - left, one))
    for room, number in ((0, 17), (2, 17), (3, 17), (6, 17), (7, 16), (8, 16)):
        case('17 over both, %d bytes of 7' % room, two(), '<a><b/>', number, None, taken=7 if number == 16 else 3, ended=False, room=room)
    case('30 before 17 over both', two(), '<b/>', 30, room=0, state=counted(LIMIT - 3, one))
    end_group('order')


def blanks():
    heading('blanks: white space')
    only = echoing('CHAR*')
    mixed = programmed(['r', 'b'], [(0, 0, 'n1.CHAR.n1'), (1, 1, 'n1*')], {('production', 0, 'first'): ECHO})
    empties = programmed(['r', 'e'], [(0, 0, 'n1*'), (1, 1, '')], {('production', 0, 'first'): ECHO})
    for blank, name in ((' ', 'a space'), ('\t', 'a tab'), ('\r', 'a CR'), ('\n', 'a LF'), ('\r\n', 'CR LF'), (' \t\r\n ', 'all four')):
        n, text = len(blank), blank.replace('\r\n', '\n').replace('\r', '\n')
        waits = blank == '\r'
        case(name + ' where there is a character atom', only, '<t>%s</t>' % blank, 0, '<t>%s</t>' % text, 4 + 2 * len(text))
        case(name + ' where there is none', programmed(['t'], [(0, 0, 'n0*')], {('production', 0, 'first'): ECHO}), '<t>%s<t/>%s</t>' % (blank, blank), 0, '<t><t></t></t>', 8 + 2)
        case(name + ' in an element with no nodes', echoing(''), '<t>%s</t>' % blank, 23, '<t>', 1, 3)
        case(name + ' in an element whose only node is empty', echoing('EMPTY'), '<t>%s</t>' % blank, 0, '<t></t>', 4)
        case(name + ' in an inner element with no nodes', empties, '<r>%s<e>%s</e></r>' % (blank, blank), 23, '<r><e>', taken=6 + n)
        case(name + ' around an inner element with no nodes', empties, '<r>%s<e></e>%s<e/>%s</r>' % (blank, blank, blank), 0, '<r><e></e><e></e></r>')
        case(name + ' in an element that only happens to be empty', empties, '<r>%s</r>' % blank, 0, '<r></r>', 4)
        case(name + ' before and after the root', echoing(''), blank + '<t></t>' + blank, 0, '<t></t>', 2)
        case(name + ' alone, ended', only, blank, 27, '', 0, n)
        case(name + ' alone, not ended', only, blank, 16, '', 0, n - waits, ended=False)
        case(name + ' beside a tag where there is a character atom', mixed, '<r>%s<b/>' % blank, 23, '<r>', taken=3)
        case(name + ' as the one character, and inside b', mixed, '<r><b>%s</b>%sx' % (blank, blank[0]), 23, '<r><b></b>' + text[0], taken=11 + n, ended=False)
        case(name + ' where the character was, refused', mixed, '<r><b/>x%s<b/></r>' % blank, 23, '<r><b></b>x', taken=8)
        case(name + ' before the end, refused', mixed, '<r><b/>x<b/>%s</r>' % blank, 23, '<r><b></b>x<b></b>', taken=12)
    for other, name in (('\u0085', 'U+0085'), ('\u2028', 'U+2028'), ('\u00a0', 'U+00A0'), ('\ufeff', 'U+FEFF')):
        case(name + ' is no white space', echoing(''), '<t>%s</t>' % other, 23, '<t>', taken=3)
        case(name + ' after the root', echoing(''), '<t/>%s' % other, 26, '<t></t>', taken=4)
        case(name + ' as a character', only, '<t>%s</t>' % other, 0, '<t>%s</t>' % other)
    case('a reference is never white space', echoing(''), '<t>&amp;</t>', 23, taken=3)
    case('two productions of one tag: the open one decides', programmed(['t'], [(0, 0, 'n1'), (1, 0, 'CHAR*')], {('production', 0, 'first'): ECHO}), '<t> <t> </t> </t>', 0, '<t><t> </t></t>')
    case('white space with no room', echoing(''), '  \n', 16, room=0, taken=3, ended=False)
    case('white space as a character with no room', only, '<t> ', 17, '<t>', room=3, taken=3, ended=False)
    end_group('blanks')


def lines():
    heading('lines: line ends and references by number')
    sheet = programmed(['r', 'a', 'e'], [(0, 0, '(n1|n2)*'), (1, 1, 'CHAR*'), (2, 2, '')], {('production', 0, 'first'): ECHO})
    case('CR LF, CR and LF', sheet, '<r><a>x\r\ny\rz\n</a></r>', 0, '<r><a>x\ny\nz\n</a></r>', taken=21)
    calls = case('a CR waits', sheet, '<r><a>x\r', 16, '<r><a>x', taken=7, ended=False)
    calls.call('\r', False)
    assert calls.call('\r\ny', False)[:3] == (16, 3, b'\ny')
    assert calls.call('\r', False)[:3] == (16, 0, b'')
    assert calls.call('\r\r', False)[:3] == (16, 1, b'\n')
    assert calls.call('\r</a></r>\r', True)[:3] == (0, 10, b'\n</a></r>')
    case('a CR at the end is whole', sheet, '<r><a>x\r', 27, '<r><a>x\n', taken=8)
    case('a CR after the root, more to come', sheet, '<r/>\r', 16, taken=4, ended=False)
    case('a CR after the root, ended', sheet, '<r/>\r', 0, taken=5)
    case('CR LF after the root', sheet, '<r/>\r\n', 0, taken=6)
    case('a CR that waits is not judged: no character may come', sheet, '<r><e>\r', 16, '<r><e>', taken=6, ended=False)
    case('but it is where it is whole', sheet, '<r><e>\r', 23, '<r><e>', taken=6)
    case('and with LF behind it', sheet, '<r><e>\r\n</e></r>', 23, '<r><e>', taken=6)
    case('a CR before the root', sheet, '\r\r\n\r<r/>', 0, '<r></r>', taken=8)
    case('inside tags CR and LF are bytes of white space', sheet, '<r\r\n><a\r/><a\n\r\n></a\r></r\r\n>', 0, '<r><a></a><a></a></r>')
    case('and count to the 32', sheet, '<r><a' + '\r\n' * 15 + '>', 21, '<r>', taken=3)
    case('CR by reference stays CR', sheet, '<r><a>&#13;&#10;&#xd;\r</a></r>', 0, '<r><a>&#13;\n&#13;\n</a></r>', taken=30)
    case('CR by reference and LF are two characters', sheet, '<r><a>&#13;\n</a></r>', 0, '<r><a>&#13;\n</a></r>', 16)
    case('CR and LF by reference are two characters', sheet, '<r><a>\r&#10;</a></r>', 0, '<r><a>\n\n</a></r>', 16)
    case('by reference white space is none', sheet, '<r>&#32;</r>', 23, '<r>', taken=3)
    case('before the root', sheet, '&#32;<r/>', 23, '', taken=0)
    case('after the root', sheet, '<r/>&#10;', 26, '<r></r>', taken=4)
    case('and in an element with no nodes', sheet, '<r><e>&#9;</e></r>', 23, '<r><e>', taken=6)
    case('as a character it is written as itself', sheet, '<r><a>&#32;&#9;&#10;</a></r>', 0, '<r><a> \t\n</a></r>')
    case('markup by reference is text', sheet, '<r><a>&#60;&#38;&#62;&#x3c;</a></r>', 0, '<r><a>&lt;&amp;&gt;&lt;</a></r>')
    case('both cases of hexadecimal digits', sheet, '<r><a>&#x20aC;&#x20Ac;&#8364;</a></r>', 0, '<r><a>\u20ac\u20ac\u20ac</a></r>')
    for number in (0x9, 0xA, 0xD, 0x20, 0xD7FF, 0xE000, 0xFFFD, 0x10000, 0x10FFFF):
        text = escaped(chr(number)).decode()
        case('U+%04X, in both bases' % number, sheet, '<r><a>&#%d;&#x%x;</a></r>' % (number, number), 0, '<r><a>%s</a></r>' % (2 * text))
    for number in (0, 1, 0x8, 0xB, 0xC, 0xE, 0x1F, 0xD800, 0xDFFF, 0xFFFE, 0xFFFF, 0x110000, 2 ** 32 + 65, 2 ** 64 + 65):
        for text in ('&#%d;' % number, '&#x%X;' % number):
            case('no character: ' + text, sheet, '<r><a>' + text, 20, '<r><a>', taken=6)
    for text in ('&#X41;', '&#;', '&#x;', '&#+1;', '&#-1;', '&# 65;', '&#65 ;', '&#xg;', '&#6a;', '&##65;'):
        case('no reference: ' + text, sheet, '<r><a>' + text, 20, '<r><a>', taken=6)
    for text, number in (('&', 16), ('&#', 16), ('&#x', 16), ('&#1', 16), ('&#11', 16), ('&#xD800', 16), ('&#x0', 16), ('&#1114111', 16), ('&#1114112', 20), ('&#x110000', 20),
                         ('&#x10FFFE', 16), ('&#99999999', 20), ('&#xFFFFFFFFF', 20), ('&#12345678901234567890', 20)):
        case('begun, or none at once: ' + text, sheet, '<r><a>' + text, number, '<r><a>', taken=6, ended=False)
    for text, number in ((28 * '0', 16), (29 * '0', 21), (27 * '0' + '1', 16), (27 * '0' + '2', 21), (28 * '0' + '1', 21), (28 * '0' + '9', 16), (27 * '0' + '65;', 16),
                         (28 * '0' + '65', 21), (30 * '0', 21), (40 * '0', 21), ('x' + 26 * '0' + '1', 21), ('x' + 26 * '0' + '2', 16), ('x' + 27 * '0', 16), ('x' + 28 * '0', 21)):
        case('of 32 bytes at most: &#' + text, sheet, '<r><a>&#' + text, number, ended=False)
    case('just 32 bytes', sheet, '<r><a>&#' + 27 * '0' + '65;</a></r>', 0, '<r><a>A</a></r>', taken=46)
    case('33 bytes', sheet, '<r><a>&#' + 28 * '0' + '65;</a></r>', 21, '<r><a>', taken=6)
    case('32 bytes that name nothing', sheet, '<r><a>&#' + 29 * '0' + ';</a></r>', 20, '<r><a>', taken=6)
    case('CR in a printed string', programmed(['r'], [(0, 0, '')], {('production', 0, 'first'): TEXT(0, 4)}, strings=b'a\r\nb'), '<r/>', 0, 'a&#13;\nb')
    end_group('lines')


LINES_STREAM = '\r\n<r>\r<p>x\r\ny\rz&#13;&#x20;\n&#000000000000000000000000065;</p>\r\n</r>\r'
SWEPT = (('rich, first stream', rich, RICH, 0), ('rich, second stream', rich, RICH_2, 0), ('Example 28', example_28, '<bib><book><title>é&lt;</title><author/><author /><year>1</year></book></bib>\n', 0),
         ('Example 27, rejecting', lambda: example_27(True), '<bib> <article/><book/><book/></bib>', 25), ('a wrong end tag', rich, '<r><p>x</q></r>', 22),
         ('a begun token at the end', example_28, '<bib><book><title>€&am', 27), ('a bad byte', rich, b'<r><p>\xe2\x82\xac\xe2\x82\xff', 20),
         ('a long tag', rich, '<r><p><' + 34 * 'q' + '>', 21), ('something after the root', smallest, '<a/> <a/>', 26), ('not allowed', rich, '<r><p><p/>', 23),
         ('line ends and references', rich, LINES_STREAM, 0))


def goes_on(what, sheet, stream, steps):
    """Calls, each with what is not taken yet, until a number other than 16 and 17. `steps` hands out the part's end, whether it is the last and the room of
    each, and is told the number and the bytes taken. All together must be what one call on the whole is."""
    whole = call(sheet.bytes(), FRESH, stream, True, 1 << 20)
    calls, at, output, begins = Calls(sheet), 0, b'', GROUP[1] + 1
    end, ended, room = next(steps)
    while True:
        number, taken, written, visits = calls.call(stream[at:end], ended, room)
        at, output = at + taken, output + written
        if number not in (16, 17):
            break
        end, ended, room = steps.send((number, taken))
    assert (number, at, output, visits) == whole[:4], (what, (number, at, output, visits), whole)
    said('%d, %s' % (number, what), begins)


def in_two(stream, k):
    yield k, False, None
    yield len(stream), True, None


def by_bytes(stream):
    for end in range(len(stream) + 1):
        yield end, False, None
    yield len(stream), True, None


def with_rooms(stream, room):
    """So much room in every call, and a byte more while a token has too little and nothing is taken."""
    more = room
    while True:
        told = yield len(stream), True, more
        more = more + 1 if told == (17, 0) else room


def bytes_of(stream):
    return stream.encode() if isinstance(stream, str) else stream


def parts():
    heading('parts: streams cut into two at every byte, and byte by byte')
    for what, sheet, stream, number in SWEPT:
        sheet, stream = sheet(), bytes_of(stream)
        case(what + ', whole', sheet, stream, number)
        for k in range(len(stream) + 1):
            goes_on('%s, cut at %d' % (what, k), sheet, stream, in_two(stream, k))
        goes_on(what + ', byte by byte', sheet, stream, by_bytes(stream))
    end_group('parts')


def rooms():
    heading('rooms: little room, and more after 17')
    for what, sheet, stream, number in SWEPT:
        sheet, stream = sheet(), bytes_of(stream)
        case(what + ', room enough', sheet, stream, number)
        for room in (0, 1, 2, 3, 5, 8, 13):
            goes_on('%s, rooms of %d' % (what, room), sheet, stream, with_rooms(stream, room))
    heading('rooms: every room for the whole')
    for what, sheet, stream, number in SWEPT:
        sheet, stream = sheet(), bytes_of(stream)
        full = len(call(sheet.bytes(), FRESH, stream, True, 1 << 20)[2])
        for room in range(full + 2):
            case('%s, room %d of %d' % (what, room, full), sheet, stream, number if room >= full else 17, room=room)
    end_group('rooms')


def ends():
    heading('ends: declared ended or not, parts of no bytes')
    for stream, number, taken in (('', 27, 0), (' ', 27, 1), ('<', 27, 0), ('<a', 27, 0), ('<a ', 27, 0), ('<a /', 27, 0), ('<a>', 27, 3), ('\n<a>', 27, 4), ('<a><', 27, 3), ('<a></', 27, 3), ('<a></a', 27, 3),
                                  ('<a></a ', 27, 3), ('<a></a>', 0, 7), ('<a/>', 0, 4), ('<a/>\n', 0, 5), ('<a/><', 27, 4), ('<a/></', 27, 4), ('<a/>&', 27, 4), ('<a/>\n&am', 27, 5), ('&', 27, 0), ('&am', 27, 0),
                                  (b'\xe2', 27, 0), (b'\xe2\x82', 27, 0), (b'<a>\xf0\x90', 27, 3), (b'<a/>\xc3', 27, 4), (b'<a/> \xef\xbb', 27, 5)):
        name = repr(stream)
        case(name + ', ended', smallest(), stream, number, taken=taken)
        calls = case(name + ', more to come', smallest(), stream, 16, taken=taken, ended=False)
        calls.call('', True)
        calls.call('', True)
    calls = case('nothing, again and again, then the stream', smallest(), '', 16, ended=False)
    for part, ended in (('', False), ('', False), ('<a', False), ('<a', False), ('<a>', False), ('', False), ('</a>', False), ('', False), ('', False), ('', True), ('', True), ('', False)):
        calls.call(part, ended)
    calls = case('ended and 17: the state stays open, and more may come', echoing(), '<t>x</t>', 17, '<t>', taken=3, room=3)
    for part, ended, room in (('x</t>', True, 0), ('x', False, 1), ('y', False, 0), ('</t>', True, 4), ('', True, 4)):
        calls.call(part, ended, room)
    case('27 without a begun token: the output stands', echoing(), '<t>abc', 27, '<t>abc', taken=6).call('</t>', True)
    case('27 with a begun token: what is before it stands', echoing(), '<t>ab&l', 27, '<t>ab', taken=5).call('t;</t>', True)
    end_group('ends')


def closed():
    heading('closed: 28 after 0, and refusals again')
    later = (('', True), ('', False), ('<a/>', True), ('</r>', False), ('\0', True), ('<' + 40 * 'x', False), (b'\xff', False), ('x', True))
    for what, sheet, stream, number in SWEPT + (('a reject', deep, '<a><b>', 25), ('too deep', deep, 33 * '<a>', 24), ('the count', smallest, '<a/>', 30), ('all taken', echoing, '<t>x</t>', 0)):
        state = counted(LIMIT - 1) if number == 30 else FRESH
        begins = GROUP[1] + 1
        calls = Calls(sheet(), state)
        answer = calls.call(bytes_of(stream))
        assert answer[0] == number, (what, answer)
        for i, (part, ended) in enumerate(later):
            again = calls.call(part, ended, (0, 5, 64)[i % 3])
            assert again == (number or 28, 0, b'', answer[3]), (what, again)
        said('%d, %s, and again' % (number, what), begins)
    for number in (0, 20, 21, 22, 23, 24, 25, 26, 27, 30):
        for frames in ((), [Frame(0, 0, [(filled((1, 2, 3, HIGHEST)), True)])]):
            case('a state given as closed by %d, %d open' % (number, len(frames)), echoing(), '</t>', number or 28, '', 7, 0,
                 state=State((1, 2, 3, 4), True, 7, not frames, number, frames).bytes())
    end_group('closed')


def reached(sheet, stream):
    """The state's bytes after a stream that is not ended."""
    number, taken, _, _, after = call(sheet.bytes(), FRESH, bytes_of(stream), False, 1 << 20)
    assert number == 16 and taken == len(bytes_of(stream))
    return after


def changed(given, at, *values):
    return given[:at] + bytes(values) + given[at + len(values):]


def frame_at(k, field=0):
    return FIRST_FRAME + FRAME_BYTES * k + field


def states():
    """Each field of a state's bytes at its limits. Productions of `rich`: 0 r, 1 p, 2 q; atoms of r: p, q; of p: a character, q; of q: p, q."""
    heading('states: fit and unfit')
    sheet, rest = rich(), b'y</p><q/></r>'
    base = reached(sheet, '<r><q/><p>x')          # r at its atom p, three open nodes; p at its character, three open nodes
    lone = reached(sheet, '<r>')
    inner = reached(sheet, '<r><q><p><q>')        # r, q, p, q
    done = reached(sheet, '<r></r>\n')

    def fits(what, given, part=rest, number=None):
        assert call(sheet.bytes(), given, part, True, 1 << 20)[0] != 29, what
        case(what, sheet, part, number, state=given)

    def unfit(what, given, part=rest):
        count = count_in(given)
        for part, ended, room in ((part, True, None), (b'', False, 0)):
            case(what, sheet, part, 29, '', count, 0, ended=ended, room=room, state=given)

    fits('as reached, inside p', base, number=0)
    fits('as reached, inside r', lone, b'</r>', 0)
    fits('as reached, four open', inner, b'</q></p></q></r>', 0)
    fits('as reached, root closed', done, b' ', 0)
    fits('fresh', FRESH, b'<r/>', 0)

    four = 4 + 19 + DEPTH * (3 + SETS_KEPT * 5)  # what a state was with four attributes
    for length in (0, 1, CLOSING, OPENED, FIRST_FRAME - 1, FIRST_FRAME, four, STATE_BYTES - 1, STATE_BYTES + 1, 4096):
        unfit('%d bytes' % length, (base + bytes(STATE_BYTES))[:length])
    unfit('one byte less of a fresh one', FRESH[:-1], b'<r/>')
    unfit('one byte more of a fresh one', FRESH + b'\0', b'<r/>')
    unfit('a fresh one with four attributes', bytes(14) + b'\xff' + bytes(four - 15), b'<r/>')

    over = HIGHEST + 1
    for at in range(ATTRIBUTES):
        for value in (1, 15, 16, HIGHEST - 1, HIGHEST):
            fits('attribute %d is %d' % (at, value), changed(base, at, value))
        for value in (over, over + 1, 255):
            unfit('attribute %d is %d' % (at, value), changed(base, at, value))
    unfit('attribute %d is %d, no element open' % (ATTRIBUTES - 1, over), changed(FRESH, ATTRIBUTES - 1, over), b'<r/>')
    for value in (0, 1, 2, 255):
        fits('echo %d' % value, changed(base, ECHO_FLAG, value))
        fits('echo %d, no element open' % value, changed(FRESH, ECHO_FLAG, value), b'<r><p>x</p></r>')
        fits('root closed %d, elements open' % value, changed(base, ROOTED, value))
        fits('root closed %d, none open: white space' % value, changed(FRESH, ROOTED, value), b' ', 27 if value == 0 else 0)
        fits('root closed %d, none open: a root' % value, changed(FRESH, ROOTED, value), b'<r/>', 0 if value == 0 else 26)
        fits('echo %d in a set in use' % value, changed(base, frame_at(1, FIRST_SET + ATTRIBUTES), value))
        fits('echo %d in a set above those in use' % value, changed(base, frame_at(1, FIRST_SET + SET_BYTES * 4 + ATTRIBUTES), value))
        fits('echo %d in a frame above the top' % value, changed(base, frame_at(2, FIRST_SET + ATTRIBUTES), value))

    number = lambda n: struct.pack('<Q', n)
    for count in (0, 1, LIMIT - 100, LIMIT - 2, LIMIT - 1, LIMIT):
        fits('count %d' % count, changed(base, COUNT, *number(count)))
        fits('count %d, fresh but for that' % count, changed(FRESH, COUNT, *number(count)), b'<r/>')
    for count in (LIMIT + 1, LIMIT + 2, 2 ** 63, 2 ** 64 - 1):
        unfit('count %d' % count, changed(base, COUNT, *number(count)))
        unfit('count %d, fresh but for that' % count, changed(FRESH, COUNT, *number(count)), b'<r/>')

    for closing in (1, 2, 9, 10, 16, 17, 18, 19, 28, 29, 31, 32, 127, 128, 254):
        unfit('closing number %d' % closing, changed(base, CLOSING, closing))
        unfit('closing number %d, fresh but for that' % closing, changed(FRESH, CLOSING, closing), b'<r/>')
    for closing in (0, 20, 21, 22, 23, 24, 25, 26, 27, 30):
        fits('closing number %d' % closing, changed(base, CLOSING, closing), number=closing or 28)
    fits('closing number 255: open', changed(base, CLOSING, 255), number=0)
    unfit('closed by 0, and an attribute over %d' % HIGHEST, changed(changed(base, CLOSING, 0), 2, over))
    unfit('closed by 23, and a count over the limit', changed(changed(base, CLOSING, 23), COUNT, *number(LIMIT + 1)))
    unfit('closed by 27, and a place that is not there', changed(changed(base, CLOSING, 27), frame_at(1, PLACE), 3))

    for depth in (33, 34, 64, 255, 256, 2 ** 32, 2 ** 63, 2 ** 64 - 1):
        unfit('%d open' % depth, changed(base, OPENED, *number(depth)))
        unfit('%d open, fresh but for that' % depth, changed(FRESH, OPENED, *number(depth)), b'<r/>')
    fits('one open of the two that lie there', changed(base, OPENED, 1), b'</r>', 0)
    fits('none open of the two that lie there', changed(base, OPENED, 0), b'<r/>', 0)
    unfit('three open of the two that lie there: the third is zeros, production 0', changed(base, OPENED, 3))
    unfit('one open, fresh but for that: no set', changed(FRESH, OPENED, 1), b'</r>')
    fits('one open, with its one set', changed(changed(FRESH, OPENED, 1), frame_at(0, SETS), 1), b'</r>', 0)
    high = tall(32).bytes()
    case('32 open', deep(), '</a>', 16, state=high, ended=False)
    case('33 open', deep(), '</a>', 29, state=changed(high, OPENED, 33))
    case('32 open, the last has a value of %d' % over, deep(), '</a>', 29, state=changed(high, frame_at(31, FIRST_SET), over))
    case('31 open, the one above has', deep(), '</a>', 16, ended=False, state=changed(changed(high, frame_at(31, FIRST_SET), over), OPENED, 31))

    for production in (1, 2, 3, 64, 255):
        unfit('the root is production %d' % production, changed(lone, frame_at(0), production), b'</r>')
    unfit('r at its atom p holds r', changed(base, frame_at(1), 0))
    unfit('r at its atom p holds q', changed(base, frame_at(1), 2))
    unfit('r at its atom p holds production 3', changed(base, frame_at(1), 3))
    unfit('r at its atom p holds production 255', changed(base, frame_at(1), 255))
    unfit('r at its atom q holds p', changed(base, frame_at(0, PLACE), 2))
    fits('r at its atom q holds q', changed(changed(inner, frame_at(0, PLACE), 2), OPENED, 2), b'<p/></q></r>')
    unfit('r at its start holds p', changed(changed(base, frame_at(0, PLACE), 0), frame_at(0, SETS), 1))
    unfit('p at its character holds q', changed(inner, frame_at(2, PLACE), 1))
    unfit('q at its atom q holds p', changed(inner, frame_at(1, PLACE), 2))
    for place in (3, 4, 12, 32, 33, 254, 255):
        unfit('r at place %d' % place, changed(lone, frame_at(0, PLACE), place), b'</r>')
        unfit('p at place %d of 2' % place, changed(base, frame_at(1, PLACE), place))
    fits('p at its other atom', changed(base, frame_at(1, PLACE), 2))
    unfit('p at its start, with four sets', changed(base, frame_at(1, PLACE), 0))
    fits('p at its start, with one set', changed(changed(base, frame_at(1, PLACE), 0), frame_at(1, SETS), 1), number=0)
    for k, given in ((0, base), (1, base), (0, lone), (1, inner), (3, inner)):
        right = given[frame_at(k, SETS)]
        for sets in sorted({0, 1, right - 1, right + 1, SETS_KEPT - 1, SETS_KEPT, SETS_KEPT + 1, 255} - {right}):
            unfit('frame %d has %d sets, not %d' % (k, sets, right), changed(given, frame_at(k, SETS), sets))
    unfit('q at its second atom, whose node lies deeper by one, with the sets of the first', changed(changed(inner, frame_at(1, PLACE), 2), OPENED, 2))

    for k, used in ((0, 4), (1, 4)):
        for j in range(SETS_KEPT):
            for a in (0, 3, 4, ATTRIBUTES - 1):
                at = frame_at(k, FIRST_SET + SET_BYTES * j + a)
                (unfit if j < used else fits)('frame %d, set %d of %d in use, attribute %d is %d' % (k, j, used, a, over), changed(base, at, over))
        fits('frame %d, all values of set 1 are %d' % (k, HIGHEST), changed(base, frame_at(k, FIRST_SET + SET_BYTES), *ATTRIBUTES * [HIGHEST]))
    for k in (2, 31):
        fits('frame %d, above the top, is all 255' % k, changed(base, frame_at(k), *[255] * FRAME_BYTES), number=0)
    fits('every frame above the top is all 255', base[:frame_at(2)] + (STATE_BYTES - frame_at(2)) * b'\xff', number=0)
    fits('no element open, every frame all 255', FRESH[:frame_at(0)] + (STATE_BYTES - frame_at(0)) * b'\xff', b'<r><q><p/></q></r>', 0)
    unfit('all 255', STATE_BYTES * b'\xff')
    unfit('all zeros but for a depth of 1', changed(bytes(STATE_BYTES), OPENED, 1))
    fits('all zeros: closed by 0', bytes(STATE_BYTES), number=28)
    case('a state of another sheet that happens to fit', example_27(), '<book/></bib>', 0, state=lone)
    case('a state of another sheet that does not fit', smallest(), '</a>', 29, state=base)

    heading('states: a sheet of number 1 to 9 comes first')
    bad = [(1, bytes(23)), (1, bytes(27929)), (2, Sheet([], [(0, 0, '')])), (2, smallest().word(11, 0x5853))]
    bad += [(n, sheets.DAMAGE[n](Sheet(['r', 'a'], [(0, 0, 'n1.n2'), (1, 1, 'n1*'), (2, 1, ''), (3, 0, '')]))) for n in range(2, 10)]
    bad += [(8, Sheet(['a', 'b'], [(0, 0, ''), (1, 1, ''), (1, 1, '')])), (9, sheets.over_ab('(n1*)*'))]
    for number, other in bad:
        for what, given in (('fresh', FRESH), ('unfit', changed(FRESH, 0, HIGHEST + 1)), ('closed', changed(base, CLOSING, 22)), ('no state', b''), ('a long one', base + b'\1')):
            case('a sheet of %d, a state that is %s' % (number, what), other, '<a/>', number, '', count_in(given), 0, state=given)
    end_group('states')


def damaged():
    heading('damaged: a byte of a good stream replaced')
    for what, sheet, stream in (('rich', rich, RICH), ('Example 28', example_28, '<bib><book><title>é&lt;</title><author/><author /><year>1</year></book></bib>')):
        stream = bytes_of(stream)
        for at in range(len(stream)):
            begins = GROUP[1] + 1
            answers = []
            for byte in b'<>&\0\xffa \r':
                if byte != stream[at]:
                    answers.append(Calls(sheet()).call(changed(stream, at, byte))[0])
            said('%s, byte %d: %s' % (what, at, ' '.join(map(str, answers))), begins)
    end_group('damaged')


def drawn():
    """Sheets, programs and streams by lot."""
    heading('drawn: sheets, programs and streams by lot')
    below = sheets.lot(40961)

    def text(size):
        return sheets.drawn_expression(below, ('n0', 'n1', 'n2', 'CHAR', 'EMPTY'), size)

    def condition(visit, around):
        if around < 3 and below(3) == 0:
            return (lambda: NOT(condition(visit, around + 1)), lambda: AND(condition(visit, around + 1), condition(visit, around + 1)),
                    lambda: OR(condition(visit, around + 1), condition(visit, around + 1)))[below(3)]()
        operand = lambda: (VALUE(below(3)), NOW(below(2)), THEN(below(2)))[below(3 if visit == 'second' else 2)]
        return EQUAL(operand(), operand())

    def statements(visit, around=0):
        made = b''
        for _ in range(1 + below(3)):
            made += (lambda: SET(below(2), below(3)), lambda: COPY(below(2), below(2)), lambda: RECALL(below(2), below(2)) if visit == 'second' else (ECHO, ECHO_OFF)[below(2)],
                     lambda: OPEN(below(3)), lambda: CLOSE(below(3)), lambda: TEXT(below(3), below(2)), lambda: ECHO if visit == 'first' else b'',
                     lambda: IF(condition(visit, around + 1), statements(visit, around + 1) if around < 2 else b'', REJECT if below(8) == 0 else b''))[below(8)]()
        return made

    def stream_of(rules, number, depth):
        """A stream that the sheet takes where no program rejects, if it ends in time; now and then with a slip."""
        production = rules.productions[number]
        name = rules.names[production.tag].decode()
        place, inside = 0, ''
        for _ in range(40):
            ways = production.ways[place]
            ends_ = [way for way in ways if way[1] is None]
            if ends_ and (depth > 4 or below(3) == 0):
                break
            ways = [way for way in ways if way[1]]
            if not ways:
                break
            atom = ways[below(len(ways))][1]
            place = atom.atom
            if atom.kind == 2:
                inside += ('x', '&lt;', 'é', ' ', '&quot;', '\n', '\r\n', '\r', '&#13;', '&#x20;')[below(10)]
            elif depth < 12:
                choices = [i for i, p in enumerate(rules.productions) if p.nonterminal == atom.argument]
                inside += stream_of(rules, choices[below(len(choices))], depth + 1)
        if below(60) == 0:
            inside += ('<b/>', 'x', '</a>', ' ')[below(4)]
        if not inside and below(2):
            return '<%s%s/>' % (name, ('', ' ')[below(2)])
        return '<%s>%s</%s>' % (name, inside, name)

    made = 0
    while made < 60:
        rules = [(n, below(3), text(1 + below(6))) for n in (0, 1, 2)] + [(below(3), below(3), '')]
        plain = Sheet(['r', 'a', 'b'], rules)
        if sheets.check(plain.bytes(), 1 << 16)[0]:
            continue
        made += 1
        fields = {}
        for part, count in (('production', len(rules)), ('node', len(plain.nodes))):
            for i in range(count):
                for visit in ('first', 'second'):
                    if below(5) < 2:
                        fields[part, i, visit] = statements(visit)
        sheet = programmed(['r', 'a', 'b'], rules, fields, strings=b'<y&')
        begins, answers, parsed = GROUP[1] + 1, [], checked(sheet.bytes())[1]
        roots = [i for i, p in enumerate(parsed.productions) if p.nonterminal == 0]
        for _ in range(10):
            stream = stream_of(parsed, roots[below(len(roots))], 1).encode()
            if len(stream) > 1500:
                continue
            cut = below(len(stream) + 1)
            calls = Calls(sheet)
            number, at, _, _ = calls.call(stream[:cut], False)
            if number == 16:
                number = calls.call(stream[at:], True)[0]
            answers.append(number)
        said('%s: %s' % (', '.join('n%d %s %s' % (n, 'rab'[t], e or 'empty') for n, t, e in rules), ' '.join(map(str, answers))), begins)
    end_group('drawn')


def grouped():
    heading('grouped: a union grouped in two ways')
    for text, visits in (('(n1|n2)|n3', 8), ('n1|(n2|n3)', 10)):
        case('%s, the third of the three' % text, Sheet(['r', 'a', 'b', 'c'], [(0, 0, text), (1, 1, ''), (2, 2, ''), (3, 3, '')]), '<r><c/></r>', 0, '', visits)
    end_group('grouped')


# ---------------------------------------------------------------------------------------------------------------------

ABOUT = '''# The calls of streams.txt

Written by `tests/streams.py`, as is the expected output. Calls are numbered from 1 over the whole file. A line is: the call, or the first
and the last, the number answered (by the last), what it is.'''


def files():
    """The calls, what is said of them, and what they must answer."""
    for group in (worked, slips, limits, order, blanks, lines, parts, rooms, ends, closed, states, damaged, drawn, grouped):
        group()
    assert all(COUNTS.get(n, 0) >= 2 for n in [*range(10), 16, 17, *range(20, 31)])
    OUTPUT.append('%d calls in all\n' % GROUP[1])
    assert max(map(len, LINES)) < 65536
    return '\n'.join(LINES) + '\n', ABOUT + '\n' + '\n'.join(SAID) + '\n', ''.join(OUTPUT)


def main():
    return sheets.write_files('streams', *files(), COUNTS)


if __name__ == '__main__':
    sys.exit(main())
