#!/usr/bin/env python3
"""A schedule of about so many bytes, for the sheet examples/programmes.sheet: python3 bench/make.py BYTES >SCHEDULE

Every programme has a start, a title, two people and a description; every tenth has no title. The same number gives the same bytes.
"""
import sys

WORDS = 'evening news quiz film garden harbour music talk late early river stories for all caf\u00e9 &amp; friends'.split()


def programme(n):
    words = lambda k, many: ' '.join(WORDS[(n * 7 + k * 5 + i * i) % len(WORDS)] for i in range(many))
    title = '' if n % 10 == 9 else '<title>%s</title>' % words(1, 3 + n % 3)
    people = ''.join('<person>%s</person>' % words(2 + i, 2) for i in range(2))
    return '  <programme>\n    <start>%02d:%02d</start>%s\n    <people>%s</people>\n    <description>%s.</description>\n  </programme>\n' % (
        n // 60 % 24, n % 60, title, people, words(4, 20 + n % 11))


def main():
    left, n = int(sys.argv[1]), 0
    write = sys.stdout.buffer.write
    write(b'<schedule>\n')
    while left > 0:
        text = programme(n).encode()
        write(text)
        left -= len(text)
        n += 1
    write(b'</schedule>\n')


main()
