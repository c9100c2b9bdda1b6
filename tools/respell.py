#!/usr/bin/env python3
"""Brings the names of this repository's own definitions and lemmas to snake case: camelCase and dashes become underscores.

usage: python3 tools/respell.py [--list] FOLDER

FOLDER is a checkout that the kit's port.py has turned. Names that the library declares, names that Rattle makes (goals and steps) and names
of Rattle source keep their spelling. It was run once, and is kept so that the same can be run on the commit before the port, for comparison.
The word a before another word, and names with a question mark behind them, were respelled by hand later, and are read here since.
--list writes nothing and prints each renaming and the names that fall together.
"""

import collections
import os
import re
import subprocess
import sys

KIT = os.path.dirname(subprocess.run(["rt", "doc"], capture_output=True, text=True).stdout.strip())
CUT = r"\s(){}.,;«»\[\]|λ→:@`\"≡∷"
TOKEN = re.compile(rf"(?<![^{CUT}])[a-z][A-Za-z0-9_'-]*\??(?![^{CUT}])")
HEAD = re.compile(r"^\s*((?:(?:pub|abbrev|unfoldable|data|record)\s+)*)((?:[^\s:(){}.«»,;=]+\s+)*[^\s:(){}.«»,;=]+)\s*:\s*(.*)$")
USE = re.compile(r"^\s*(?:ghost\s+)?(?:pub\s+)?use\s+(\S+?)\.\{([^}]*)\}", re.M)
# what a line of a rule or of an answer declares for Rattle: not ours to name
MADE = re.compile(r"^(tie|goal|given|Given|Goals)\.")

# lemmas and fields that port.py spelled as a definition is spelled now that is read beside them: the word, and where it is that lemma
APART = {
    "own_name": r"crates/stages/proofs/(Stations\.antt|Headway/name_end/)",
    "inner_name": r"crates/stages/proofs/(Stations\.antt|Headway/name_end/)",
    "kept_of": r"crates/fit/proofs/RunsFit\.antt",
    "sets_of": r"crates/fit/proofs/RunsFit\.antt",
    "next_word": r"crates/(outlines/proofs/Statements|reading/proofs/StatementHeld)\.antt",
    "start_word": r"crates/outlines/proofs/Statements\.antt",
    "number_step": r"crates/rescue/proofs/",
    "past_first": r"crates/rescue/proofs/",
    "sign_at": r"crates/lexemes/proofs/Found\.antt",
    "sign_part": r"crates/reading/proofs/ConditionHeld\.antt",
    "told_in": r"crates/(strides|rescuer)/",
}


def is_odd(word):
    """Says whether a word is in another spelling than snake case."""
    return "-" in word or re.search(r"[a-z0-9'][A-Z]", word) is not None


def snake(word):
    """A dash or a capital begins a new word; the name of a type, as the T of rule T, keeps its capital, and the word a before another is none."""
    word = re.sub(r"(?<=[a-z0-9'])A([A-Z])(?=[a-z])", lambda m: "_a_" + m[1].lower(), word)
    word = re.sub(r"(?<=[a-z0-9'])([A-Z])(?=[a-z])", lambda m: "_" + m[1].lower(), word)
    word = re.sub(r"(?<=[a-z0-9'])(?=[A-Z])", "_", word)
    return word.replace("-", "_")


def texts(top, endings):
    for folder, folders, files in os.walk(top):
        folders[:] = sorted(f for f in folders if f not in ("out", ".git"))
        for name in sorted(files):
            if name.endswith(endings):
                yield os.path.join(folder, name)


def read(path):
    with open(path, encoding="utf-8") as f:
        return f.read()


def kit_words():
    words = set()
    for part in ("rattle", "logic_built"):
        for path in texts(os.path.join(KIT, part), (".antt",)):
            words.update(w for w in TOKEN.findall(read(path)) if is_odd(w))
    return words


def declared(text):
    """Returns the names that a file of specs/ or proofs/ declares, apart from those that Rattle makes."""
    found = set()
    for line in text.split("\n"):
        if line.lstrip().startswith(("--", "use ", "pub use ")):
            continue
        m = HEAD.match(line)
        if m and not MADE.match(m[3]):
            found.update(m[2].split())
    return found


def goals_of(text):
    return {n for line in text.split("\n") for m in [HEAD.match(line)] if m and MADE.match(m[3]) for n in m[2].split()}


def imports(text, own_crates):
    """Returns the words that a file imports from this repository, and those that it imports from elsewhere."""
    ours, theirs = set(), set()
    for where, words in USE.findall(text):
        parts = where.split(".")
        is_ours = parts[0] == "Rattle" and len(parts) > 1 and parts[1] in own_crates
        for it in words.split(","):
            for w in it.split(" as ")[:1]:
                (ours if is_ours else theirs).add(w.strip())
    return ours, theirs


class Respelling:
    def __init__(self, top):
        self.top = top
        self.crates = set(os.listdir(os.path.join(top, "crates")))
        self.kit = kit_words()
        self.own = set()
        for path in texts(os.path.join(top, "crates"), (".antt",)):
            self.own.update(w for w in declared(read(path)) if is_odd(w) and re.fullmatch(r"[a-z][A-Za-z0-9_'-]*\??", w))
        self.done = collections.defaultdict(set)
        self.plain = set()
        for path in texts(os.path.join(top, "crates"), (".antt",)):
            self.plain.update(w for w in declared(read(path)) if "_" in w and not is_odd(w))
        words = [set(TOKEN.findall(read(path))) for path in texts(os.path.join(top, "crates"), (".antt", ".rt"))]
        groups = collections.defaultdict(set)
        for w in self.own:
            groups[snake(w)].add(w)
        self.new = {}
        for new, olds in groups.items():
            for w in olds:
                others = {new, *olds} - {w}
                # a lemma or a field that would have its function's name, where both are read
                falls = "-" in w and any(w in it and others & it for it in words)
                self.new[w] = new + "_lem" if falls else new

    def turned(self, word):
        return self.new.get(word) or snake(word)

    def word_in(self, word, path, before, ours, theirs, goals):
        if word in APART and re.match(APART[word], os.path.relpath(path, self.top)):
            return word + "_lem"
        if not is_odd(word) or word in theirs or word in goals:
            return word
        is_field = before.endswith(".") and not before.endswith("..")
        if not (word in self.own or word in ours) and (word in self.kit or is_field):
            return word
        new = self.turned(word)
        if re.search(r"(?:before|(?<![\w.])c)\.$", before):
            # a step of the code, which has the name of what is called there
            new = word.replace("-", "_")
        if word not in self.own and new in self.new.values():
            new += "'"
        self.done[new].add(word)
        return new

    def code(self, text, path, ours, theirs, goals):
        out, at = [], 0
        for m in TOKEN.finditer(text):
            out.append(text[at : m.start()])
            out.append(self.word_in(m[0], path, text[max(0, m.start() - 8) : m.start()], ours, theirs, goals))
            at = m.end()
        out.append(text[at:])
        return "".join(out)

    def comment(self, text):
        """In a comment only a name that cannot be a word of prose: in camelCase, or between backticks."""
        text = TOKEN.sub(lambda m: self.turned(m[0]) if m[0] in self.own and "-" not in m[0] else m[0], text)
        return re.sub(r"`([^`\n]+)`", lambda q: "`" + TOKEN.sub(lambda m: self.turned(m[0]) if m[0] in self.own else m[0], q[1]) + "`", text)

    def antt(self, path):
        text = read(path)
        ours, theirs = imports(text, self.crates)
        goals = goals_of(text) | ({"returns"} if "/proofs/" in path else set())
        lines = []
        for line in text.split("\n"):
            m = re.search(r"(?:^|\s)--(?:\s|$)", line)
            cut = m.start() if m else len(line)
            lines.append(self.code(line[:cut], path, ours, theirs, goals) + self.comment(line[cut:]))
        return text, "\n".join(lines)

    def rt(self, path):
        """In source only ghost use lines and what stands between the braces of clauses and ghost items."""
        text = read(path)
        ours, theirs = imports(text, self.crates)
        out, at = [], 0
        for m in re.finditer(r"ghost use [^;]*;|(?:\b(?:requires|ensures)\b\*?(?: \w+)? |\bghost \w+(?:: | = ))\{|//[^\n]*|\"(?:[^\"\\]|\\.)*\"", text):
            if m.start() < at:
                continue
            out.append(text[at : m.start()])
            if m[0].startswith("ghost use"):
                out.append(self.code(m[0], path, ours, theirs, set()))
                at = m.end()
            elif m[0].startswith("//"):
                out.append(self.comment(m[0]))
                at = m.end()
            elif m[0].startswith('"'):
                out.append(m[0])
                at = m.end()
            else:
                depth, i = 1, m.end()
                while depth:
                    depth += {"{": 1, "}": -1}.get(text[i], 0)
                    i += 1
                out.append(self.code(text[m.start() : i], path, ours, theirs, set()))
                at = i
        out.append(text[at:])
        return text, "".join(out)


def main(argv):
    listing = "--list" in argv
    top = [a for a in argv if a != "--list"][0]
    it = Respelling(top)
    changed = 0
    for path in texts(os.path.join(top, "crates"), (".antt", ".rt")):
        old, new = it.antt(path) if path.endswith(".antt") else it.rt(path)
        if old != new:
            changed += 1
            if not listing:
                with open(path, "w", encoding="utf-8") as f:
                    f.write(new)
    for new, olds in sorted(it.done.items()):
        if listing:
            print(new, *sorted(olds))
    for new, olds in sorted(it.done.items()):
        if len(olds) > 1:
            print("together:", new, *sorted(olds))
    print(f"respell: {changed} files, {len(it.done)} names")


if __name__ == "__main__":
    main(sys.argv[1:])
