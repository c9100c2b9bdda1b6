#!/usr/bin/env python3
"""The example sheets, from a readable description.

    python3 examples/make.py            writes examples/*.sheet, *.schedule and *.listing, and the data and the expected output of the
                                        test `stories`, but for the reports at its front; prints each sheet's parts
    python3 examples/make.py --check    says whether the files are what it would write

A sheet is its tags by name and its productions: nonterminal, tag by name, and the expression, in which n1 is nonterminal 1, CHAR any
one character, `.` then, `|` or, `*` any number of times. The bytes are laid out by the builder in tests/sheets.py.
The stories below have the listings and messages that document 01 asks for, written by hand; no program here converts anything.
The reports on sheets and texts, with which the expected output begins, are not made here: they stay as they are, and the script stops if their
numbers and faults are not those of the checker in tests/sheets.py.
"""
import os
import re
import sys
from xml.etree import ElementTree

HERE = os.path.dirname(os.path.abspath(__file__))
ROOT = os.path.dirname(HERE)
sys.path.insert(0, os.path.join(ROOT, 'tests'))
import rules as typed  # noqa: E402
import sheets as checker  # noqa: E402
from sheets import CLOSE, ECHO, ECHO_OFF, END, EQUAL, IF, NOW, OPEN, REJECT, SET, TEXT, VALUE, Sheet  # noqa: E402

TAGS = ['schedule', 'programme', 'film', 'title', 'start']
TITLE_AND_START = [(2, 'title', 'CHAR*'), (3, 'start', 'CHAR*')]

EXAMPLES = {
    'schedule': [(0, 'schedule', 'n1*'), (1, 'programme', 'n2.n3'), (1, 'film', 'n2.n3')] + TITLE_AND_START,
    'faults': [(0, 'schedule', '(n1*)*'), (1, 'programme', 'n2.n3'), (1, 'programme', 'n2.n3')] + TITLE_AND_START,
    'places': [(0, 'schedule', '(n1|n4)*.n1'), (1, 'programme', 'n2.n3'), (1, 'film', 'n2|n5'), (2, 'title', 'CHAR*.n3*.CHAR*'),
               (3, 'start', 'CHAR*'), (4, 'film', ''), (5, 'title', '')],
}

# Texts of which the test `stories` has a report: signs in comments, strings and programs, which are no signs of an expression; nonterminals without a production.
TEXTS = {
    'signs': """# signs in a comment: * | . n1 "
n0 ::= {print "\u00e9*|" <a/>} a(({print "(n1|n2)*"} n1|EMPTY)* {print "*"}) # *
n1 ::= b(n2
  |n3)
n2 ::= c((CHAR*.n3)**)
n3 ::= c() {if $].a0 = $[.a0 then print "::= n0"}
n1 ::= {} CHAR(n3|n3|n3.n3)
n1 ::=  CHAR ( )
""",
    'missing': """n7
n0 ::= {print "n5 n6"} n5(n1.(n6|n5)) # n5
n1 ::= b(n5)
""",
}


def sheet(rules):
    """The bytes; the start is nonterminal 0, and production 0 turns echo on, so that everything is kept."""
    numbered = [(nonterminal, TAGS.index(tag), text) for nonterminal, tag, text in rules]
    return Sheet(TAGS, numbered, programs=[ECHO + END]).production(0, first=0).bytes()


def programmes():
    """The sheet of the stories: a listing keeps start, title and people, drops descriptions, and says (no title) where there is none."""
    tags = ['schedule', 'programme', 'start', 'title', 'people', 'person', 'description']
    rules = [(0, 0, 'n1*'), (1, 1, 'n2.n3*.n4*.n6*'), (2, 2, 'CHAR*'), (3, 3, 'CHAR*'), (4, 4, 'n5*'), (5, 5, 'CHAR*'), (6, 6, 'CHAR*')]
    untitled = b'(no title)'
    programs = [
        ECHO + END,                                                                  # at 0: keep everything
        SET(0, 0) + END,                                                             # at 2: no title yet
        IF(EQUAL(NOW(0), VALUE(1)), REJECT, SET(0, 1)) + END,                        # at 6: a second title is rejected
        IF(EQUAL(NOW(0), VALUE(0)), OPEN(3) + TEXT(0, len(untitled)) + CLOSE(3)) + END,  # at 19: no title came
        ECHO_OFF + END,                                                              # at 36: drop it
    ]
    at = [sum(map(len, programs[:i])) for i in range(len(programs))]
    sheet = Sheet(tags, rules, programs=programs, strings=untitled)
    sheet.production(0, first=at[0]).production(1, first=at[1]).production(3, first=at[2]).production(6, first=at[4])
    return sheet.node(6, second=at[3]).bytes()  # node 6 is the star over title


# ---------------------------------------------------------------------------------------------------------------------
# The stories: a schedule, and the listing that comes of it, or the message.

QUIZ = '''<schedule>
  <programme>
    <start>2026-03-02T19:30</start>
    <title>This&lt;/title&gt;That</title>
    <people><person>Ann Ode</person><person>Bo Ng</person></people>
    <description>A quiz on words &amp; tags.</description>
  </programme>
</schedule>
'''

NOTHING = '''<schedule>
  <programme><start>20:15</start><title></title><description>The show is called nothing.</description></programme>
  <programme><start>21:00</start><title/></programme>
  <programme><start>22:00</start><people/></programme>
</schedule>
'''

DAMAGED = '''<schedule>
  <programme>
    <start>18:00</start>
    <title>Caf\u00e9 at six</title>
  </programme>
  <programme>
    <start>19:00</start><titel>Evening news</titel>
  </programme>
</schedule>
'''

EVENING = '''<schedule>
  <programme><start>18:00</start><title>Caf\u00e9 at six</title></programme>
  <programme>
    <start>19:00</start>
    <title>Evening news & weather</title>
    <people><person>Ann Ode</person></people>
  </programme>
  <programme><start>20:00</start><title>Bridge at eight</title></programme>
  <programme><start>21:00</start><title>Late film</title>
  <programme><start>23:00</start><title>Night music</title></programme>
</schedule>
'''

BETWEEN = '''<schedule>
  <programme><start>18:00</start><title>Caf\u00e9 at six</title></programme>
  </programme>
  <programme><start>20:00</start><title>Bridge at eight</title></programme>
</schedule>
'''

LISTINGS = {
    'quiz': '<schedule><programme><start>2026-03-02T19:30</start><title>This&lt;/title&gt;That</title>'
            '<people><person>Ann Ode</person><person>Bo Ng</person></people></programme></schedule>',
    'nothing': '<schedule><programme><start>20:15</start><title></title></programme>'
               '<programme><start>21:00</start><title></title></programme>'
               '<programme><start>22:00</start><title>(no title)</title><people></people></programme></schedule>',
}

SCHEDULES = {
    'quiz': QUIZ,
    'nothing': NOTHING,
    'half': QUIZ[:QUIZ.index('lt;/title')],                       # the file ends inside &lt;
    'damaged': DAMAGED,
    'twice': QUIZ.replace('<people>', '<title>Or that</title><people>'),
    'after': LISTINGS['nothing'] + '\n<schedule/>\n',
}

# What is only told of a conversion that drops damaged records.
DAYS = {
    'evening': EVENING,
    'between': BETWEEN,
}

HOLDS = ('production 1 (n1 <programme>) holds [1 n2 <start>] then [2 n3 <title>]* then [3 n4 <people>]* then [4 n6 <description>]*; '
         'this is after the %s.\n')

# Number, the bytes that are refused, and what is said of the open elements.
REFUSALS = {
    'half': (27, '&', 'Open there, from the outside in: <schedule> (line 1) <programme> (line 2) <title> (line 4)\n'
                      'production 3 (n3 <title>) holds [1 any character]*; this is after the 1st atom (any character).\n'
                      'Here may come: a character or the end of <title>.\n'),
    'damaged': (23, '<titel>', 'Open there, from the outside in: <schedule> (line 1) <programme> (line 6)\n' + HOLDS % '1st atom (n2 <start>)'
                               + 'Here may come: <title> or <people> or <description> or the end of <programme>.\n'),
    'twice': (25, '<title>Or', 'Open there, from the outside in: <schedule> (line 1) <programme> (line 2)\n' + HOLDS % '2nd atom (n3 <title>)'),
    'after': (26, '<schedule/>', 'No element is open there; the root of a schedule is <schedule>.\n'),
}

# What is said of a program that rejects.
REJECTS = {
    'twice': 'What rejected: the program in front of <title>, of production 3 (n3 <title>).\n',
}

MEANINGS = {
    22: 'An end tag is not that of the innermost open element. Close that element first, or take this end tag out.',
    23: 'The sheet does not allow this here. Take it out, put it where it may stand, or put in what has to come before it.',
    25: "A program of the sheet rejects this. It is spelled as the sheet asks, but the sheet's author ruled it out here; ask what the rule "
        'is, and mend the schedule or the sheet.',
    26: "The schedule goes on after its end: something other than white space follows the root's end tag. Take it out, or the end tag that "
        'came too early.',
    27: 'The schedule ends too early: inside a tag or a character, or before its root is closed. The file is cut off; fetch it whole and '
        'convert it again.',
    34: 'The sheet is not of the shape that can be salvaged: its start needs one production, which holds any number of one record, with a tag that '
        'nothing else has. Convert without --salvage, or write the rules so.',
}

# What is dropped of a schedule: from this text up to that one, or the end; the number; the title, where it has one.
DROPPED = {
    'quiz': [],
    'damaged': [('<programme>\n    <start>19', '</schedule>', 23, None)],
    'evening': [('<programme>\n    <start>19', '<programme><start>20', 20, 'Evening news & weather'),
                ('<programme><start>21', '<programme><start>23', 23, 'Late film')],
    'half': [('<programme>', '', 27, 'This&')],
    'between': [],
}

REASONS = {
    20: 'there is something in it that is no tag and no text',
    23: 'the sheet does not allow something in it where it stands',
    27: 'the schedule ends in the middle of it',
}

# What is refused all the same, as above.
STOPPED = {
    'half': (27, '&', ''),
    'between': (22, '</programme>\n  <programme>', 'Open there, from the outside in: <schedule> (line 1)\n'
                'production 0 (n0 <schedule>) holds [1 n1 <programme>]*; this is after the 1st atom (n1 <programme>).\n'
                'Here may come: <programme> or the end of <schedule>.\n'),
}

YESTERDAY = "<schedule>yesterday's listing</schedule>"
UNTOUCHED = 'Nothing was put in place: listing is as it was.\n'


def visits(element):
    """Two for each node of the attributed tree: an element's own, and its expression's brackets with what stands in them."""
    star = lambda rounds: 2 + sum(2 + v for v in rounds)
    below = lambda tag: star([visits(e) for e in element if e.tag == tag])
    if element.tag == 'schedule':
        return 2 + below('programme')
    if element.tag == 'people':
        return 2 + below('person')
    if element.tag == 'programme':  # three concatenations, the start's atom, three stars
        return 2 + 3 * 2 + 2 + visits(element.find('start')) + below('title') + below('people') + below('description')
    return 2 + star([0] * len(element.text or ''))


def shown(some):
    return ''.join(chr(b) if 0x20 <= b <= 0x7E else '\\x%02x' % b for b in some)


def marked(before, rest):
    """What comes before it in its line, as far as 48 bytes go, 32 bytes of what stands there, and a mark where it starts."""
    kept = before[-48:]
    line = shown(kept[kept.rfind(b'\n') + 1:])
    if len(before) >= 48 and b'\n' not in kept:
        line = '.. ' + line
    return line + shown(rest[:32]) + (' ..' if len(rest) > 32 else '') + '\n' + ' ' * len(line) + '^\n'


def told(name):
    """What `wickpollen convert` says of a story, and the listing afterwards."""
    schedule = SCHEDULES[name]
    if name in LISTINGS:
        listing = LISTINGS[name]
        count = visits(ElementTree.fromstring(schedule))
        said = '%s.schedule: converted into listing.\nBytes read: %d. Bytes written: %d. Visits: %d.\n' % (
            name, len(schedule.encode()), len(listing.encode()), count)
        return said + listing
    return refused(name, schedule, REFUSALS[name]) + UNTOUCHED + YESTERDAY


def refused(name, schedule, how):
    """What is said of a schedule that was refused."""
    number, what, around = how
    before = schedule[:schedule.rindex(what)]
    rest = schedule[len(before):].encode()
    return '%s.schedule: number %d.\n%s\n%sRefused after %d bytes, at line %d, column %d. What stands there is marked:\n%s' % (
        name, number, MEANINGS[number], REJECTS.get(name, ''), len(before.encode()), before.count('\n') + 1, len(before) - before.rfind('\n'), marked(before.encode(), rest)) + around


def stretches(name, schedule):
    """Where what is dropped starts and ends, and what is said of it."""
    for start, end, number, title in DROPPED[name]:
        first = schedule.index(start)
        past = schedule.index(end, first + 1) if end else len(schedule)
        line = schedule[:first].count('\n') + 1
        last = line + schedule[first:past].rstrip().count('\n')
        lines = 'line %d' % line if line == last else 'lines %d to %d' % (line, last)
        some = schedule[first:past].encode()
        yield first, past, 'Dropped: %s\n  %s, %d bytes after the first %d; number %d: %s.\n' % (
            title or shown(some[:40]) + ' ..', lines, len(some), len(schedule[:first].encode()), number, REASONS[number])


def listing_of(element):
    """The listing of a schedule whose programmes each have a start, a title and perhaps people."""
    text = ElementTree.tostring(element, encoding='unicode')
    return ''.join(part.strip() for part in text.replace('\n', '').split('  ')).strip()


def salvaged(name):
    """What `wickpollen convert --salvage` says of a story, the number, and the listing afterwards."""
    schedule = {**SCHEDULES, **DAYS}[name]
    dropped = list(stretches(name, schedule))
    said = ''.join(text for _, _, text in dropped)
    if name in STOPPED:
        number = STOPPED[name][0]
        return refused(name, schedule, STOPPED[name]) + UNTOUCHED + said + 'Number %d.\n' % number + YESTERDAY
    kept = schedule
    for first, past, _ in reversed(dropped):
        kept = kept[:first] + kept[past:]
    whole = ElementTree.fromstring(kept)
    listing = LISTINGS.get(name) or listing_of(whole)
    said = '%s.schedule: converted into listing.\nBytes read: %d. Bytes written: %d. Visits: %d.\n' % (
        name, len(schedule.encode()), len(listing.encode()), visits(whole)) + said
    if dropped:
        said += 'Programmes kept: %d.\nThe listing is in place, without what was dropped.\n' % len(whole)
    return said + 'Number %d.\n' % (103 if dropped else 0) + listing


def reports():
    """The front of the test's expected output, as it is: each report's number and faults must be those of the checker in tests/sheets.py."""
    kept = open(os.path.join(ROOT, 'crates', 'stories', 'stdout'), encoding='utf-8').read()
    front = kept[:kept.index('quiz.schedule: ')]
    sheets = {**{name: sheet(rules) for name, rules in EXAMPLES.items()}, **{name: typed.write(text.encode())[2] for name, text in TEXTS.items()}}
    parts = re.split(r'^(\w+\.(?:sheet|rules)): number ', front, flags=re.M)
    if parts[:1] + parts[1::2] != ['', 'schedule.sheet', 'faults.sheet', 'places.sheet', 'faults.rules', 'places.rules', 'signs.rules', 'missing.rules']:
        sys.exit('crates/stories/stdout: the reports at its front are not those of the test')
    for name, report in zip(parts[1::2], parts[2::2]):
        number, count, faults = checker.check(sheets[name.split('.')[0]], 65536)
        head = '%d, faults: %d.\n' % (number, count) if count else '%d.\n' % number
        listed = [tuple(map(int, row)) for row in re.findall(r' \[(\d+) (\d+) (\d+) (\d+)\]$', report, re.M)]
        if not report.startswith(head) or listed != [tuple(fault) for fault in faults]:
            sys.exit('crates/stories/stdout: the report on %s has not the number and the faults of tests/sheets.py' % name)
    return front


def stories():
    """The test's expected output: the reports, each story, a sheet with faults, which is reported once more, and what is salvaged."""
    front = reports()
    faults = front[front.index('faults.sheet: number'):front.index('\n\nplaces.sheet')] + '\n'
    shape = 'schedule.sheet: number 34.\n' + MEANINGS[34] + '\n' + UNTOUCHED + 'Number 34.\n' + YESTERDAY
    days = [salvaged(name) for name in DROPPED] + [shape]
    return front + '\n\n'.join([told(name) for name in SCHEDULES] + [faults + UNTOUCHED + YESTERDAY] + days) + '\n\n'


def account(rules):
    lines = ['tags: ' + ', '.join('%d <%s>' % pair for pair in enumerate(TAGS))]
    for number, (nonterminal, tag, text) in enumerate(rules):
        lines.append('production %d: nonterminal %d, <%s>, holds %s' % (number, nonterminal, tag, text or 'nothing'))
    return '\n'.join(lines)


def files():
    """Every file by its path, and its bytes."""
    made = {}
    for name, rules in EXAMPLES.items():
        made['examples/%s.sheet' % name] = made['crates/stories/data/%s.sheet' % name] = sheet(rules)
    for name in ['faults', 'places']:
        made['crates/stories/data/%s.rules' % name] = open(os.path.join(HERE, name + '.rules'), 'rb').read()
    for name, text in TEXTS.items():
        made['crates/stories/data/%s.rules' % name] = text.encode()
        made['crates/stories/data/%s.sheet' % name] = typed.write(text.encode())[2]
    made['examples/programmes.sheet'] = made['crates/stories/data/programmes.sheet'] = programmes()
    for name, text in [*SCHEDULES.items(), *DAYS.items()]:
        made['examples/%s.schedule' % name] = made['crates/stories/data/%s.schedule' % name] = text.encode()
    for name, text in LISTINGS.items():
        made['examples/%s.listing' % name] = text.encode()
    made['crates/stories/stdout'] = stories().encode()
    return made


def main():
    stale = []
    for name, made in files().items():
        path = os.path.join(ROOT, name)
        if '--check' in sys.argv:
            stale += [] if os.path.exists(path) and open(path, 'rb').read() == made else [name]
        else:
            os.makedirs(os.path.dirname(path), exist_ok=True)
            open(path, 'wb').write(made)
    if '--check' not in sys.argv:
        for name, rules in EXAMPLES.items():
            print('%s.sheet, %d bytes' % (name, len(sheet(rules))))
            print(account(rules) + '\n')
    if stale:
        sys.exit('not what make.py writes: ' + ', '.join(stale))


if __name__ == '__main__':
    main()
