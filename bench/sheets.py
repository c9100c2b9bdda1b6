#!/usr/bin/env python3
"""Two more sheets for the schedules of bench/make.py: python3 bench/sheets.py printing|tags >SHEET

printing: everything is kept, and a program prints a full stop before every character: no run is steady.
tags: everything is kept; 64 tags, the schedule's own last, and a star over a union of 16 names around the programmes.
"""
import os
import sys

sys.path.insert(0, os.path.join(os.path.dirname(os.path.abspath(__file__)), '..', 'tests'))
from sheets import ECHO, END, TEXT, Sheet  # noqa: E402

TAGS = ['schedule', 'programme', 'start', 'title', 'people', 'person', 'description']
RULES = [(0, 0, 'n1*'), (1, 1, 'n2.n3*.n4*.n6*'), (2, 2, 'CHAR*'), (3, 3, 'CHAR*'), (4, 4, 'n5*'), (5, 5, 'CHAR*'), (6, 6, 'CHAR*')]
CHARACTER = 2  # the kind of a node that is any one character


def printing():
    sheet = Sheet(TAGS, RULES, programs=[ECHO + END, TEXT(0, 1) + END], strings=b'.').production(0, first=0)
    for i, node in enumerate(sheet.nodes):
        if node['kind'] == CHARACTER:
            sheet.node(i, first=len(ECHO + END))
    return sheet


def union(names):
    """A union that is as deep on both sides."""
    if len(names) == 1:
        return names[0]
    half = len(names) // 2
    return '(%s|%s)' % (union(names[:half]), union(names[half:]))


def tags():
    others = ['other%02d' % i for i in range(64 - len(TAGS))]
    behind = len(others)
    rules = [(0, behind, union(['n%d' % (7 + i) for i in range(15)] + ['n1']) + '*')]
    rules += [(n, behind + tag, text) for n, tag, text in RULES[1:]]
    rules += [(7 + i, i, 'CHAR*') for i in range(len(others) - 1)]
    return Sheet(others + TAGS, rules, programs=[ECHO + END]).production(0, first=0)


def main():
    sys.stdout.buffer.write({'printing': printing, 'tags': tags}[sys.argv[1]]().bytes())


main()
