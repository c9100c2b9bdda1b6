#!/usr/bin/env python3
"""The salvage run: a second runner, made from the change requests and docs/DECISIONS.md, section 12, on top of tests/streams.py, and the cases of the part `days` of the program `trials`.

    python3 tests/salvage.py            writes data/days.txt, data/days.md and the part `days` of stdout, in crates/trials
    python3 tests/salvage.py --check    says whether they are what it would write

A line of days.txt is a letter, a space, and what the letter asks for; numbers and bytes are in hexadecimal:

    s BYTES     the sheet from here on
    z LENGTH    the state is a fresh one's bytes, cut to this length or filled up with zeros
    p AT BYTES  these bytes stand in the state from AT on
    a LENGTH    the area for what waits has so many bytes, each AA
    c ROOM REPORT ENDED BYTES
                a call on these bytes, declared ended (1) or not (0), with so many bytes lent for the output and for the report, each AA. It finds the state and the area as the call
                before left them, if none of z, p and a comes between.

A line of stdout, for each call: the call from 1, the number, the bytes taken and written, the entries of the report, the most bytes that waited, the visits, and a mark of the
output, the report, the area and the state, each to its last byte.
"""
import os
import struct
import sys

sys.path.insert(0, os.path.dirname(os.path.abspath(__file__)))
import rules
import sheets
import streams
from streams import ATTRIBUTES, FIRST_FRAME, FRAME_BYTES, FRONT, LIMIT, OPEN_STATE, STATE_BYTES, Refused, State

BETWEEN, INSIDE, SKIPPING = 0, 1, 2
EXTRA = struct.Struct('<BQQBQ')  # mode, bytes taken so far, the record's first byte, its number, bytes that wait
RETURNS = ATTRIBUTES + 1 + 8 + FRAME_BYTES
SALVAGE_BYTES = STATE_BYTES + EXTRA.size + RETURNS
DAMAGED = range(20, 26)


def shape(rules):
    """The names of the root's tag and of the records' tag; None for a sheet of another shape (34)."""
    roots = [p for p in rules.productions if p.nonterminal == rules.start]
    if len(roots) != 1 or roots[0].tree is None or roots[0].tree.kind != 5 or roots[0].tree.children[0].kind != 1:
        return None
    root, n = roots[0], roots[0].tree.children[0].argument
    records = [p for p in rules.productions if p.nonterminal == n]
    if n == rules.start or len(records) != 1:
        return None
    for p in rules.productions:
        if p is not root and p.tag == root.tag or p is not records[0] and p.tag == records[0].tag:
            return None
        named = {atom.argument for atom in p.atoms[1:] if atom.kind == 1}
        if rules.start in named or n in named and p is not root:
            return None
    return rules.names[root.tag], rules.names[records[0].tag]


class Held:
    """Where a salvage run stands: the run's state, and in a record or behind a refused one what it was before it."""

    def __init__(self, state, mode=BETWEEN, passed=0, first=0, number=0, waiting=b'', before=None):
        self.state, self.mode, self.passed, self.first, self.number, self.waiting, self.before = state, mode, passed, first, number, waiting, before

    def bytes(self):
        returns = bytes(RETURNS)
        if self.mode == INSIDE:
            laid = self.before.bytes()
            returns = laid[:ATTRIBUTES + 9] + laid[FIRST_FRAME:FIRST_FRAME + FRAME_BYTES]
        record = (self.first if self.mode else 0, self.number if self.mode == SKIPPING else 0, len(self.waiting) if self.mode == INSIDE else 0)
        return canonical(self.state) + EXTRA.pack(self.mode, self.passed, *record) + returns


def canonical(state):
    """A state's bytes, where the flag of a closed root is 0 while an element is open."""
    if state.frames and state.rooted:
        state = state.copy()
        state.rooted = False
    return state.bytes()


FRESH = Held(State()).bytes()


def held_in(given, rules, area, length):
    """What bytes hold; None where they are unfit (29)."""
    if len(given) != SALVAGE_BYTES:
        return None
    state = streams.state_in(given[:STATE_BYTES], rules)
    mode, passed, first, number, waiting = EXTRA.unpack(given[STATE_BYTES:STATE_BYTES + EXTRA.size])
    if state is None or mode > 2 or passed + length > LIMIT:
        return None
    depth = len(state.frames)
    if not {BETWEEN: depth <= 1, INSIDE: depth >= 2, SKIPPING: depth == 1}[mode] or mode and first >= passed or mode == SKIPPING and number not in DAMAGED:
        return None
    if mode != INSIDE:
        return Held(state, mode, passed, first, number, b'', state)
    returns = given[STATE_BYTES + EXTRA.size:]
    laid = returns[:ATTRIBUTES + 9] + struct.pack('<BBQ', 0, OPEN_STATE, 1) + returns[ATTRIBUTES + 9:] + bytes(STATE_BYTES - FIRST_FRAME - FRAME_BYTES)
    before = streams.state_in(laid, rules)
    if waiting > len(area) or before is None:
        return None
    return Held(state, mode, passed, first, 0, area[:waiting], before)


class Answer:
    """A call's answer: number, bytes taken, output, stretches, the most bytes that waited, visits; the state and the area after it, None where they are untouched."""

    def __init__(self, number, visits):
        self.number, self.visits = number, visits
        self.taken, self.output, self.report, self.waited, self.state, self.area = 0, b'', [], 0, None, None

    def facts(self):
        return self.number, self.taken, self.output, self.report, self.waited, self.visits, self.state, self.area


def salvage(sheet, given, part, ended, room, area, spare):
    """One call, with so much room for the output, an area for what waits and so many entries of the report."""
    number, rules = streams.checked(sheet)
    tags = None if number else shape(rules)
    if number or tags is None:
        return Answer(number or 34, streams.count_in(given))
    held = held_in(given, rules, area, len(part))
    if held is None:
        return Answer(29, streams.count_in(given))
    if held.state.closing != OPEN_STATE:
        return Answer(held.state.closing or 28, streams.count_in(given))
    call = Call(rules, tags, held, part, ended, room, len(area), spare)
    return call.run(area)


class Call:
    def __init__(self, rules, tags, held, part, ended, room, area, spare):
        self.rules, self.held, self.part, self.ended, self.room, self.area, self.spare = rules, held, part, ended, room, area, spare
        self.record, self.strings = tags[1], (b'<' + tags[1] + b'>', b'</' + tags[0] + b'>')
        self.at, self.start, self.output, self.report, self.waited = 0, held.passed, b'', [], len(held.waiting)

    def run(self, area):
        number = None
        while number is None:
            number = self.skip() if self.held.mode == SKIPPING else self.token()
        held = self.held
        held.passed = self.start + self.at
        if number not in (16, 17):
            held.state = held.state.copy()
            held.state.closing = number
        answer = Answer(number, held.state.count)
        answer.taken, answer.output, answer.report, answer.waited = self.at, self.output, self.report, self.waited
        waiting = held.waiting if held.mode == INSIDE else b''
        answer.state, answer.area = held.bytes(), waiting + bytes(self.waited - len(waiting)) + area[self.waited:]
        return answer

    def reports(self, last, number):
        """A stretch that is complete; whether the report has room for it."""
        if self.spare == len(self.report):
            return False
        self.report.append((self.held.first, last, number))
        return True

    def back(self):
        """The state returns to what it was before the record."""
        self.held = Held(self.held.before, BETWEEN)

    def skip(self):
        held = self.held
        for to in range(self.at, len(self.part)):
            if any(self.part.startswith(string, to) for string in self.strings):
                self.at = to
                return self.back() if self.reports(self.start + to - 1, held.number) else 17
            if not self.ended and any(string.startswith(self.part[to:]) for string in self.strings):
                self.at = to
                return 16
        if not self.ended:
            self.at = max(self.at, len(self.part))
            return 16
        self.at = len(self.part)
        if not self.reports(self.start + self.at - 1, held.number):
            return 17
        self.back()
        return 27

    def token(self):
        """Takes a token; a number where the call stops."""
        held = self.held
        token = streams.read_token(self.part[self.at:self.at + FRONT])
        if token == 'waits':
            token = ('character', '\n', 1) if self.ended else 'begun'
        if isinstance(token, str):
            number = {'bad': 20, 'long': 21}.get(token)
            if number is None:
                whole = self.at == len(self.part) and held.state.rooted and not held.state.frames
                number = 16 if not self.ended else 0 if whole else 27
            return self.broken(number) if held.mode == INSIDE else number
        inside = held.mode == INSIDE
        if not inside and len(held.state.frames) == 1 and token[0] in ('start', 'empty') and token[1] == self.record:
            inside = True
        try:
            after, more = streams.take(self.rules, held.state, *token[:2])
            if after.count > LIMIT:
                raise Refused(30)
        except Refused as refused:
            return self.broken(refused.args[0]) if inside else refused.args[0]
        if not inside:
            if len(more) > self.room - len(self.output):
                return 17
            self.output += more
            held.state = after
            self.at += token[2]
            return None
        return self.in_record(after, more, token[2])

    def in_record(self, after, more, length):
        held = self.held
        waiting = held.waiting + more
        if len(waiting) > self.area:
            return 17
        self.waited = max(self.waited, len(waiting))
        whole = len(after.frames) == 1
        if whole and len(waiting) > self.room - len(self.output):
            return 17
        if whole:
            self.output += waiting
            self.held = Held(after)
        else:
            first, before = (held.first, held.before) if held.mode == INSIDE else (self.start + self.at, held.state)
            self.held = Held(after, INSIDE, 0, first, 0, waiting, before)
        self.at += length
        return None

    def broken(self, number):
        """The record stops with a number at a token that is not taken."""
        held = self.held
        if number in (16, 17):
            return number
        here = self.start + self.at
        first, before = (held.first, held.before) if held.mode == INSIDE else (here, held.state)
        if number in DAMAGED:
            self.at += first == here
            self.held = Held(before, SKIPPING, 0, first, number, b'', before)
            return None
        self.held = Held(held.state, held.mode, 0, first, 0, held.waiting, before)
        last = self.start + len(self.part) - 1 if number == 27 else here - 1
        if (number == 27 or first < here) and not self.reports(last, number):
            self.held = held
            return 17
        self.back()
        return number


def feed(sheet, parts, area=1 << 12, room=1 << 16, spare=64):
    """A whole stream in parts: what they answer together."""
    state, left, output, report = FRESH, b'', b'', []
    memory = bytes(area)
    for i, part in enumerate(parts):
        left += part
        answer = salvage(sheet, state, left, i == len(parts) - 1, room - len(output), memory, spare - len(report))
        output += answer.output
        report += answer.report
        left = left[answer.taken:]
        if answer.state is None:
            return answer.number, output, report, answer.visits
        state, memory = answer.state, answer.area
        if answer.number not in (16,):
            return answer.number, output, report, answer.visits
    raise AssertionError


def cut(stream, report):
    """The stream without the dropped stretches; behind 30 nothing is read."""
    kept, at = b'', 0
    for first, last, number in report:
        kept += stream[at:first]
        if number == 30:
            return kept
        at = last + 1
    return kept + stream[at:]


# ---------------------------------------------------------------------------------------------------------------------
# The cases.

LINES, OUTPUT, SAID, NUMBERS = [], [], [], []
HELD = dict(sheet=None, state=None, area=None)
LENT = b'\xAA'


def heading(text):
    SAID.extend(['', '## ' + text, ''])


class Calls:
    """Calls under one sheet, on a state and an area that go on from call to call."""

    def __init__(self, sheet, area=200, state=FRESH):
        sheet = sheet if isinstance(sheet, bytes) else sheet.bytes()
        if HELD['sheet'] != sheet:
            LINES.append('s ' + sheet.hex())
        LINES.append('z %x' % len(state))
        base = FRESH[:len(state)] + bytes(max(0, len(state) - len(FRESH)))
        changed = [i for i in range(len(state)) if state[i] != base[i]]
        for i in changed:
            LINES.append('p %x %02x' % (i, state[i]))
        LINES.append('a %x' % area)
        HELD.update(sheet=sheet, state=state, area=area * LENT)

    def call(self, what, part, ended=True, room=4000, report=240, number=None):
        part = part.encode() if isinstance(part, str) else part
        answer = salvage(HELD['sheet'], HELD['state'], part, ended, room, HELD['area'], report // 24)
        assert number is None or answer.number == number, (what, answer.number, number)
        if answer.state is not None:
            HELD.update(state=answer.state, area=answer.area)
        entries = b''.join(struct.pack('<QQQ', *entry) for entry in answer.report)
        lent = answer.output + (room - len(answer.output)) * LENT + entries + (report - len(entries)) * LENT + HELD['area'] + HELD['state']
        LINES.append('c %x %x %x %s' % (room, report, ended, part.hex()))
        NUMBERS.append(answer.number)
        OUTPUT.append('%d: %d %d %d %d %d %d %s\n' % (len(NUMBERS), answer.number, answer.taken, len(answer.output), len(answer.report), answer.waited, answer.visits, rules.mark(lent)))
        SAID.append('- %d: %d, %s' % (len(NUMBERS), answer.number, what))
        return answer


def case(what, sheet, part, number=None, output=None, report=None, **lent):
    """One call on a whole stream. What is stated here by hand, the runner above has to answer too."""
    area = lent.pop('area', 200)
    answer = Calls(sheet, area).call(what, part, number=number, **lent)
    assert output is None or answer.output == output.encode(), (what, answer.output)
    assert report is None or answer.report == report, (what, answer.report)


def day():
    return streams.programmed(['day', 'p', 't'], [(0, 0, 'n1*'), (1, 1, 'n2'), (2, 2, 'CHAR*')], {('production', 0, 'first'): sheets.ECHO})


def remembering():
    """Attribute 0 counts records by threes, and the third is rejected when the fourth begins; the record's title is printed twice, its text not echoed."""
    seen = lambda v: sheets.EQUAL(sheets.NOW(0), sheets.VALUE(v))
    count = sheets.IF(seen(0), sheets.SET(0, 1), sheets.IF(seen(1), sheets.SET(0, 2), sheets.IF(seen(2), sheets.SET(0, 0), sheets.REJECT)))
    return streams.programmed(['day', 'p', 't', 'u'], [(0, 0, 'n1*'), (1, 1, '(n2|n3)*'), (2, 2, 'CHAR*'), (3, 3, '')], {
        ('production', 0, 'first'): sheets.ECHO + sheets.OPEN(0), ('production', 0, 'second'): sheets.TEXT(0, 3),
        ('production', 1, 'first'): count, ('production', 1, 'second'): sheets.TEXT(0, 2), ('production', 2, 'second'): sheets.CLOSE(2),
        ('production', 3, 'first'): sheets.REJECT}, strings=b'a<b')


ONE, KEPT = '<day><p><t>A</t></p>', '<day><p><t>A</t></p><p><t>C</t></p></day>'


def worked():
    heading('Worked')
    case('a record with a start tag for an end tag', day(), '<day>\n<p><t>A</t></p>\n<p><t>B<t></p>\n<p><t>C</t></p>\n</day>\n', 0, KEPT, [(22, 36, 23)])
    case('a record without its end tag', day(), '<day>\n<p><t>A</t></p>\n<p><t>B</t>\n<p><t>C</t></p>\n</day>\n', 0, KEPT, [(22, 33, 23)])
    case('an empty tag and one with a blank are no resumption', day(), '<day><p><t>A</t></p><p><t>B<p/><p ><t>C</t></p></day>', 0, ONE + '</day>', [(20, 46, 23)])
    case('half a file', day(), '<day><p><t>A</t></p><p><t>B', 27, ONE, [(20, 26, 27)])
    case('nowhere to resume', day(), '<day><p><t>A</t></p><p><t>B<x></p> </day >', 27, ONE, [(20, 41, 23)])
    case('damage between records', day(), '<day><p><t>A</t></p></p><p><t>B</t></p></day>', 22, ONE, [])
    case('an area of 10 bytes', day(), '<day><p><t>BBBBBBBB<x></t></p><p><t>C</t></p></day>', 17, '<day>', [], area=10)
    case('an area of 20', day(), '<day><p><t>C</t></p></day>', 0, '<day><p><t>C</t></p></day>', [], area=20)
    case('two damaged records, one behind the other', day(), '<day><p><t>A</t><p><t>&</t></p></day>', 0, '<day></day>', [(5, 15, 23), (16, 30, 20)])
    case('without the second', day(), '<day><p><t>A</t></day>', 0, '<day></day>', [(5, 15, 22)])
    case('a record that the next one rejects', remembering(), '<day><p/><p/><p/><p><u/></p><p><t>x</t></p></day>')
    case('a stream that is never refused', remembering(), '<day><p><t>x&lt;</t></p> <p/> </day>', 0, report=[])
    case('a tag that is too long', day(), '<day><p><t>' + '&#' + 29 * '0' + '65;</t></p><p><t>C</t></p></day>', 0, '<day><p><t>C</t></p></day>')
    nested = streams.programmed(['day', 'p', 'q'], [(0, 0, 'n1*'), (1, 1, 'n2*'), (2, 2, 'n2*')], {('production', 0, 'first'): sheets.ECHO})
    case('a 33rd open element', nested, '<day><p>' + 31 * '<q>' + '</q></p><p><q/></p></day>', 0, '<day><p><q></q></p></day>')
    closing = streams.programmed(['day', 'p'], [(0, 0, 'n1*'), (1, 1, '')], {('production', 0, 'second'): sheets.REJECT})
    case('the root rejects at its end', closing, '<day><p/></day>', 25, report=[])
    case('a token that is too long between records', day(), '<day><p><t>A</t></p><' + 40 * 'p' + '></day>', 21, report=[])
    case('a program rejects at the record\'s own start', streams.programmed(['day', 'p'], [(0, 0, 'n1*'), (1, 1, '')], {('production', 1, 'first'): sheets.REJECT}), '<day><p><p></p></day>', 0)


def shapes():
    heading('Other shapes are 34')
    rows = [(['d', 'p'], [(0, 0, 'n1*'), (1, 1, '')], 0), (['d', 'p'], [(0, 0, 'n1'), (1, 1, '')], 34), (['d', 'p'], [(0, 0, 'n1*.n1*'), (1, 1, '')], None),
            (['d', 'p', 'q'], [(0, 0, 'n1*'), (1, 1, ''), (1, 2, '')], 34), (['d', 'p', 'q'], [(0, 0, 'n1*'), (0, 2, ''), (1, 1, '')], 34), (['d'], [(0, 0, 'n0*')], 34),
            (['d', 'p'], [(0, 0, 'n1*'), (1, 1, ''), (2, 1, '')], 34), (['d', 'p'], [(0, 0, 'n1*'), (1, 1, ''), (2, 0, '')], 34),
            (['d', 'p', 'q'], [(0, 0, 'n1*'), (1, 1, ''), (2, 2, 'n1')], 34), (['d', 'p', 'q'], [(0, 0, 'n1*'), (1, 1, 'n2'), (2, 2, 'n0|EMPTY')], 34),
            (['d', 'p', 'q'], [(0, 0, 'n1*'), (1, 1, 'n2*'), (2, 2, 'n2*')], 0), (['d', 'p'], [(0, 0, ''), (1, 1, '')], 34), (['d', 'p'], [(0, 0, 'CHAR*'), (1, 1, '')], 34),
            (['d', 'p'], [(0, 0, '(n1*)*'), (1, 1, '')], 9), (['d', 'p'], [(0, 0, 'n1*'), (1, 1, ''), (1, 1, '')], 8), (['d', 'p'], [(0, 0, 'n1*'), (1, 1, 'n1*')], 34)]
    for tags, given, number in rows:
        case(', '.join('n%d %s(%s)' % (n, tags[t], e) for n, t, e in given), sheets.Sheet(tags, given), '<d><p/></d>', number)


GOOD = ('<day><p><t>A</t></p>\r\n<p><t>B&#13;</t></p><p/></day>', '<day><p><t>A</t></p><p><t>B<t></p>\r<p><t>C</t></p></day> ', '<day><p>x</day><p><t>C</t><</day>', '<day ><p ><t>A</t></p ></day >',
        '<day><p><t>A&</t></p><p><q/></p><p><t>C</t></p><p><t>D', '<day><p></p></q></day>')


def parts():
    heading('Cut into two at every byte')
    for given in GOOD:
        given = given.encode()
        for i in range(len(given) + 1):
            calls = Calls(day())
            first = calls.call('%d bytes' % i, given[:i], ended=False)
            if first.number in (16, 17):
                calls.call('and the rest', given[first.taken:])


def rooms():
    heading('Small rooms, one after another')
    for given in GOOD[:3]:
        given = given.encode()
        for room, area, report in ((0, 40, 24), (3, 40, 24), (13, 40, 24), (16, 16, 24), (60, 15, 0), (60, 40, 23), (60, 40, 24), (60, 0, 240)):
            calls, at = Calls(day(), area), 0
            for turn in range(4):
                answer = calls.call('room %d, area %d, report %d' % (room, area, report), given[at:], room=room, report=report)
                at += answer.taken
                if answer.number != 17:
                    break
            calls.call('and more room', given[at:], room=100, report=100)


def ends():
    heading('Ends, and calls after the last')
    for given, ended in (('', True), ('', False), (' ', True), ('<day>', True), ('<day><p>', True), ('<day/>', True), ('<day></day>x', True), ('<day><p><', True), ('<day><p><x>', True), ('<day><p>\r', False)):
        calls = Calls(day())
        calls.call(repr(given), given, ended)
        calls.call('again', '<p>')


def states():
    heading('States with a byte changed')
    inside = salvage(day().bytes(), FRESH, b'<day><p><t>A</t></p><p><t>B', False, 100, bytes(50), 2).state
    behind = salvage(day().bytes(), FRESH, b'<day><p><t>A</t></p><p><t>B<x>', False, 100, bytes(50), 2).state
    places = [0, 8, 9, 16, 17, 18, 19, FIRST_FRAME, FIRST_FRAME + 1, FIRST_FRAME + 2, FIRST_FRAME + 3, FIRST_FRAME + FRAME_BYTES] + list(range(STATE_BYTES, STATE_BYTES + 60)) + [SALVAGE_BYTES - 1]
    for name, state in (('fresh', FRESH), ('in a record', inside), ('behind a refused one', behind)):
        for at in places:
            for b in {0, 1, 2, 3, 26, 64, 255} - {state[at]}:
                if (at + b) % 3 == 0 or at in (STATE_BYTES, STATE_BYTES + 17):
                    Calls(day(), 50, state[:at] + bytes([b]) + state[at + 1:]).call('%s, %d at %d' % (name, b, at), '</t></p><p/></day>')
    for length in (0, 1, STATE_BYTES, SALVAGE_BYTES - 1, SALVAGE_BYTES + 1):
        Calls(day(), 50, (FRESH + bytes(9))[:length]).call('%d bytes' % length, '<day/>', number=29)
    near = bytearray(inside)
    for at in (9, STATE_BYTES + EXTRA.size + ATTRIBUTES + 1):
        near[at:at + 8] = struct.pack('<Q', LIMIT - 1)
    Calls(day(), 50, bytes(near)).call('30 in a record', '</t></p></day>', number=30)
    between = bytearray(salvage(day().bytes(), FRESH, b'<day>', False, 100, b'', 0).state)
    between[9:17] = struct.pack('<Q', LIMIT)
    Calls(day(), 50, bytes(between)).call('30 at a record\'s own start', '<p></p></day>', number=30)


def damaged():
    heading('Each byte of a good day replaced')
    good = b'<day>\n<p><t>A</t></p>\n<p><t>B</t></p>\n</day>'
    for i in range(len(good)):
        for b in (b'<', b'x', b'&'):
            case('%r at %d' % (b, i), day(), good[:i] + b + good[i + 1:])


def files():
    """The calls, what is said of them, and what they must answer."""
    for group in (worked, shapes, parts, rooms, ends, states, damaged):
        group()
    said = '# The calls of days.txt\n\nWritten by `tests/salvage.py`, as is the expected output. A line is: call, number, what it is.\n'
    return '\n'.join(LINES) + '\n', said + '\n'.join(SAID) + '\n', ''.join(OUTPUT)


def main():
    return sheets.write_files('days', *files(), NUMBERS)


if __name__ == '__main__':
    sys.exit(main())
