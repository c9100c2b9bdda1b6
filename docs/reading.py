#!/usr/bin/env python3
"""What must be read to believe a promise: counted by following the definitions that its statement names.

    python3 docs/reading.py            writes the tables of docs/READING.md, between its marks
    python3 docs/reading.py --check    says whether they are what it would write, and of the tables by hand whether each file of definitions comes
                                       behind those of them that it uses, and whether every one is named
    python3 docs/reading.py NAME..     the definitions that a statement needs, as crate.File.Name, file by file

A statement is a definition of some crates/CRATE/specs/File.antt. It needs the definitions of specs/ that its text names, and so on; a block of
definitions between two empty lines counts whole, with the comment in front of it. Types that code declares (structs, enums) are named apart: they are
read in src/. What the toolchain's libraries define (lists, numbers) is not counted.

Of PASSED nothing is followed: these are what a function's contract says, and a theorem that starts from one holds of the function whatever it says in
detail, since the function meets it. Only demand 1 is about the contracts themselves.
"""
import os
import re
import sys

ROOT = os.path.dirname(os.path.dirname(os.path.abspath(__file__)))
PAGE = os.path.join(ROOT, 'docs', 'READING.md')
WORD = re.compile(r'[^\s(){};,.λ→]+')
FIELD = re.compile(r"(?:(?<![^\s(){};,])(?<=[\s(){};,])|^)(?=[a-z])([\w'₀₁₂-]+)(?:\.[a-z0-9_][\w'-]*)+|(?<=\))(?:\.[a-z0-9_][\w'-]*)+|(?<=[{;])\s*[^\s=]+ =")  # x.field, and a field that is given a value
# names that a line defines: behind `abbrev`, `pub`, `data` or `record`, parameters too; else plainly in front of a colon, since a clause, or a type that goes on, may hold one further on
NAMED = re.compile(r'^ {0,4}(?! )(?:(?:abbrev |unfoldable |mutual |pub |data |record )+([^:(){}=→×]+?)(?: [({].*)?|([^:(){}=→×]+?)) :')
USE = re.compile(r'^use Rattle\.(\w+)\.specs\.([\w.-]+?)\.\{(.*)\}')

PASSED = {('converter', 'Answered', 'AnsweredAs'), ('converter', 'Bytes', 'BytesAnsweredAs'), ('capi', 'Started', 'StartedAs'), ('capi', 'RunAnswer', 'RunAs'), ('calls', 'Call', 'Called')}

# each demand's statements, in the order in which they are best read
DEMANDS = [
    ('Demand 1: whatever bytes reach it', ['faults.Checked.CheckedAs', 'converter.Answered.AnsweredAs', 'converter.Bytes.BytesAnsweredAs']),
    ('Demand 2: which streams are taken, their output and visits', ['calls.Accepted.Accepted', 'calls.Accepted.TwiceTheNodes']),
    ('Demand 2: the same of the code, in one call', ['converter.Promises.CallAccepts', 'converter.Promises.CallConverts']),
    ('Demand 2: the same of the code, in whatever parts and rooms', ['converter.Promises.FedAccepts', 'converter.Promises.FedConverts', 'converter.Promises.BytesFedAccepts', 'converter.Promises.BytesFedConverts']),
    ('Demand 2: the same for hosts in C', ['hosts.Hosts.HostAccepts', 'hosts.Hosts.HostConverts']),
    ('Demand 2: every number, what is taken and written then, and the visits', ['converter.Explained.RepliesExactly']),
    ('Demand 2: the same in whatever parts and rooms', ['converter.Explained.ValueFedExactly', 'converter.Explained.BytesFedExactly', 'hosts.Hosts.HostFedExactly']),
    ('Demand 2: any text we write reads back as the same characters', ['calls.SameCharacters.AcceptedReadBack', 'calls.SameCharacters.ExplainedReadBack']),
    ('Demand 2: the same of the code, in one call and in whatever parts and rooms', ['converter.Explained.RepliesReadBack', 'converter.Explained.ValueFedReadBack', 'converter.Explained.BytesFedReadBack', 'hosts.Hosts.HostFedReadBack']),
    ('Demand 2: what each single call writes reads back, from any state', ['converter.ReadsBack.WrittenReadsBack', 'converter.ReadsBack.BytesWrittenReadBack']),
    ('Demand 2: `<a/>` and `<a></a>`', ['calls.Empty.EmptyIsBoth', 'calls.Empty.EmptyForBoth']),
    ('Demand 3: the list of faults', ['faults.Checked.CheckedAs', 'expressions.FaultList.IsFaultList']),
    ('Demand 3: a shortest input up to a place', ['shortest.Promises.ShortestLeads', 'shortest.Answers.ShortestAs']),
    ('Which visit of a token rejected', ['rejecting.Promises.RejectsExactly', 'rejecting.Promises.RefusalsNamed']),
    ('The starred examples', ['worked.Worked.RowHolds', 'worked.Worked.worked']),
    ('Runs on small sheets', ['runs.Examples.RunHolds', 'worked.Small.examples']),
    ('The numbers at their bounds', ['edges.Edges.EdgeHolds', 'edges.Edges.edges']),
    ('§1: rules typed as text, written as a sheet', ['writing.Written.WrittenAs', 'writing.Promises.OneWriting']),
    ('§1: sheets printed as text, and the way back', ['printing.Printed.PrintedAs', 'printing.Promises.RoundTrips', 'printing.Promises.WritesTheSame']),
    ('§2: line ends and references', ['tokens.LineEnds.Translated', 'calls.Accepted.AcceptedNormalised']),
    ('§4: visits per token, and of an accepted stream', ['ceiling.Visits.CeilingKept', 'calls.Accepted.TwiceTheNodes']),
    ('§4: the same of the code, for hosts in C too', ['cost.Cost.CallsCost', 'cost.Cost.BytesCost', 'cost.Cost.HostsCost']),
    ('§4: a faulty expression has no ceiling', ['few.Broken.NoCeiling']),
    ('§6: content models from a DTD', ['declaring.Declares.DeclaredAs', 'declaring.Promises.ModelsAreWritten', 'models.Promises.SameLanguage']),
    ('§7: a sheet that kept the old bounds', ['widening.AsBefore.OldAsBefore', 'widening.AsBefore.FreshIsToday']),
    ('§9: regrouping changes neither the faults nor the language', ['grouping.Laws.AtomsStay', 'grouping.Laws.FaultsStay', 'grouping.Laws.ListStays', 'grouping.Laws.BytesStay', 'grouping.Laws.LanguageStays']),
    ('§9: the visit count under another grouping', ['grouping.Laws.CountStays', 'grouping.Laws.AcceptedCountStays', 'grouping.Unions.UnionsChangeTheCount']),
    ('§12: what a stream is salvaged to', ['salvage.Promises.OneSalvage', 'salvage.Promises.SalvageIsCut']),
    ('§12: as if that record had never been sent', ['salvage.NeverSent.AsIfNeverSent']),
    ('§12: a stream that is never refused', ['salvage.Promises.NeverRefused']),
    ('§12: a call of the salvage run over bytes', ['rescued.Salvaged.SalvagedAs']),
    ('§12: the same over calls, from a fresh state to the end', ['handing.Fed.BytesSalvage']),
]


class File:
    """A file of definitions: its blocks, which block defines a name, and where an imported name comes from."""

    def __init__(self, crate, name):
        self.crate, self.name = crate, name
        self.imports, self.blocks, self.defined = {}, [], {}
        path = os.path.join(ROOT, 'crates', crate, 'specs', name + '.antt')
        block = []
        for line in open(path, encoding='utf-8').read().split('\n') + ['', 'end']:
            used = USE.match(line)
            if used and os.path.isdir(os.path.join(ROOT, 'crates', used[1])):
                for item in used[3].split(','):
                    there, _, here = item.strip().partition(' as ')
                    self.imports[here or there] = (used[1], used[2].split('.'), there)
            elif line.startswith(('use ', 'pub mod ', '-- Assumes')):
                continue
            elif block and block[-1] == '' and line and not line.startswith(' '):
                self.add(block)
                block = [line]
            elif line or block:
                block.append(line)

    def add(self, lines):
        while lines and not lines[-1]:
            lines.pop()
        for line in lines:
            named = NAMED.match(line)
            if named and not line.lstrip().startswith('--'):
                for name in (named[1] or named[2]).split():
                    self.defined.setdefault(name, len(self.blocks))
        self.blocks.append(lines)


FILES = {}


def file(crate, name):
    if (crate, name) not in FILES:
        FILES[crate, name] = File(crate, name)
    return FILES[crate, name]


def needed(statements):
    """The blocks that the statements need, as (crate, file) -> set of blocks, and the declared types."""
    first = [tuple(s.split('.')) for s in statements]
    blocks, declared, todo, passed = {}, set(), list(first), PASSED - (PASSED if PASSED & set(first) else set())
    while todo:
        crate, name, word = todo.pop()
        if (crate, name, word) in passed:
            continue
        there = file(crate, name)
        if word not in there.defined:
            sys.exit('docs/reading.py: %s.%s does not define %s' % (crate, name, word))
        block = there.defined[word]
        if block in blocks.setdefault((crate, name), set()):
            continue
        blocks[crate, name].add(block)
        for line in there.blocks[block]:
            code = FIELD.sub(lambda m: m[1] or ' ', line.split('--')[0])
            for used in WORD.findall(code):
                if '◌%s◌' % used in there.defined or '◌%s◌' % used in there.imports:  # a sign that stands between its two sides
                    used = '◌%s◌' % used
                if used in there.defined:
                    todo.append((crate, name, used))
                elif used in there.imports:
                    other, path, original = there.imports[used]
                    if path[0] == 'declared':
                        declared.add('%s `%s`' % (other, path[1]))
                    else:
                        todo.append((other, path[0], original))
    return blocks, declared


def lines_of(blocks):
    return sum(len([l for l in file(*f).blocks[b] if l]) for f, bs in blocks.items() for b in bs)


def order():
    """The crates as crates.txt has them: lower layers first."""
    names = [line.split(':')[0] for line in open(os.path.join(ROOT, 'crates.txt'), encoding='utf-8') if ':' in line and not line.startswith('#')]
    return {name: i for i, name in enumerate(names)}


def files_text(blocks):
    rank, crates = order(), {}
    for crate, name in blocks:
        crates.setdefault(crate, []).append(name)
    modules = lambda crate: [m.split()[-1] for m in open(os.path.join(ROOT, 'crates', crate, 'specs', 'Lib.antt'), encoding='utf-8').read().split('\n') if m]
    return '; '.join('%s: %s' % (crate, ', '.join(n for n in modules(crate) if n in crates[crate])) for crate in sorted(crates, key=rank.get))


def table():
    rows = ['| To believe | Read, in this order | Lines |', '|---|---|---|']
    for title, statements in DEMANDS:
        blocks, declared = needed(statements)
        names = ', '.join('%s `%s`' % (s.split('.')[0], s.split('.', 1)[1]) for s in statements)
        types = '; declared in src/: ' + ', '.join(sorted(declared)) if declared else ''
        rows.append('| %s: %s | %s%s | %d |' % (title, names, files_text(blocks), types, lines_of(blocks)))
    return '\n'.join(rows) + '\n'


def cells(page):
    """The first cells of the tables by hand that name files, as rows of (crate, file, its names in parentheses)."""
    for line in page.split('## Worked on paper')[0].split('<!-- end -->')[1].split('\n'):
        if line.startswith('| ') and not line.startswith('| Read |'):
            for part in line[2:].split(' | ')[0].split('; '):
                crate, _, names = part.partition(': ')
                for name, some in re.findall(r'(\w+)(?: \(([^)]*)\))?', names):
                    yield crate, name, [w for w in some.split(', ') if w]


def complaints(page):
    """What is wrong with the tables by hand."""
    rows = list(cells(page))
    place = {(crate, name): i for i, (crate, name, _) in reversed(list(enumerate(rows)))}
    for i, (crate, name, some) in enumerate(rows):
        if not os.path.exists(os.path.join(ROOT, 'crates', crate, 'specs', name + '.antt')):
            yield '%s has no %s' % (crate, name)
            continue
        if place[crate, name] != i:
            yield '%s %s is named twice' % (crate, name)
        for word in some:
            if word not in file(crate, name).defined:
                yield '%s %s does not define %s' % (crate, name, word)
        for other, path in sorted({(o, p[0]) for o, p, _ in file(crate, name).imports.values()}):
            if place.get((other, path), 0) > i:
                yield '%s %s comes before %s %s, which it uses' % (crate, name, other, path)
    # a file that is in no row: itself or its crate in a paragraph or a row that says so, or an example
    aside = [b for b in re.split(r'\n\n|\n(?=\|)', page) if 'need not be believed' in b or 'Worked.antt' in b]
    told = set(re.findall(r'\w+', ' '.join(aside)))
    for crate in sorted(os.listdir(os.path.join(ROOT, 'crates'))):
        specs = os.path.join(ROOT, 'crates', crate, 'specs')
        for name in sorted(n[:-5] for n in (os.listdir(specs) if os.path.isdir(specs) else []) if n.endswith('.antt') and n != 'Lib.antt'):
            if (crate, name) not in place and not {crate, name} & told:
                yield '%s %s is named nowhere' % (crate, name)


def main():
    words = [w for w in sys.argv[1:] if w != '--check']
    if words:
        blocks, declared = needed(words)
        rank = order()
        for crate, name in sorted(blocks, key=lambda f: rank[f[0]]):
            print('%s/%s:' % (crate, name), ', '.join(w for w, b in file(crate, name).defined.items() if b in blocks[crate, name]))
        print('declared:', ', '.join(sorted(declared)), '\nlines:', lines_of(blocks))
        return 0
    page = open(PAGE, encoding='utf-8').read()
    head, mark, rest = page.partition('<!-- counted by docs/reading.py -->\n')
    old, end, tail = rest.partition('<!-- end -->\n')
    if not end:
        sys.exit('docs/READING.md has no marks')
    if '--check' in sys.argv:
        if old != table():
            sys.exit('docs/READING.md: the counted table is not what python3 docs/reading.py writes')
        wrong = list(complaints(page))
        if wrong:
            sys.exit('docs/READING.md: ' + '; '.join(wrong))
        print('docs/READING.md: the counted table is right, and each file comes behind those that it uses')
        return 0
    text = head + mark + table() + end + tail
    open(PAGE, 'w', encoding='utf-8').write(text)
    return 0


sys.exit(main())
