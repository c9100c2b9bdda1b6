#!/usr/bin/env python3
"""The passing sheet whose test costs most: python3 bench/worst.py >SHEET

64 tags and 64 productions, one for each nonterminal; eight hold a star over a union of 16 nonterminals, 32 nodes each, which is every node that a
sheet may have, and as many atoms as 32 nodes can be.
"""
import os
import sys

sys.path.insert(0, os.path.join(os.path.dirname(os.path.abspath(__file__)), '..', 'tests'))
from sheets import Sheet


def union(names):
    """A union as a balanced tree: no expression is over 12 deep."""
    half = len(names) // 2
    return names[0] if not half else '(%s|%s)' % (union(names[:half]), union(names[half:]))


def main():
    starred = ['%s*' % union(['n%d' % ((8 * q + i) % 64) for i in range(16)]) for q in range(8)]
    rules = [(q, q, starred[q] if q < 8 else '') for q in range(64)]
    sys.stdout.buffer.write(Sheet(['t%d' % t for t in range(64)], rules).bytes())


main()
