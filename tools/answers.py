#!/usr/bin/env python3
"""Turns each proofs/F/Proof.antt that walks the code by hand into Invariants.antt and Answers.antt.

usage: python3 tools/answers.py NAMES CRATE..

NAMES is a folder with a names.json for each crate, as `rt names` writes it. A function's old goals, steps and loops go by their new names;
what a line of the rule left to the search is left out. What was not found is printed, to be mended by hand.
"""

import json
import os
import re
import sys

PATH = re.compile(r"(?<![\w.'-])([A-Za-z_][\w'-]*)((?:\.[\w'₀₁₂-]+)+)")


def plain(name):
    return name.replace("_", "-").lower()


def blocks(text):
    """Returns the head of a file, and its declarations as lists of lines, each with the comments above it."""
    head, decls, comments = [], [], []
    for line in text.split("\n"):
        if line.startswith(("use ", "pub use ")):
            head.append(line)
        elif line.startswith("--"):
            comments.append(line)
        elif line and not line[0].isspace() and line[0] not in ")]" and re.match(r"[^=]*? : ", line + " "):
            decls.append(comments + [line])
            comments = []
        elif line and not line[0].isspace() and line.startswith("module "):
            decls.append(comments + [line])
            comments = []
        elif decls and not comments:
            decls[-1].append(line)
        elif not decls and not line:
            if comments and not head:
                head = comments + head
                comments = []
        else:
            comments.append(line)
    if comments and not decls and not head:
        head = comments
    return head, decls, comments


def pieces(text):
    """Returns the arguments of a call, by their parentheses."""
    found, depth, now = [], 0, ""
    for ch in text:
        depth += {"(": 1, ")": -1}.get(ch, 0)
        if ch.isspace() and not depth:
            if now:
                found.append(now)
            now = ""
        else:
            now += ch
    return found + ([now] if now else [])


class Names:
    def __init__(self, given):
        self.needs = given["needs"]
        self.params = given["params"]
        self.stem = given["stem"]
        self.argument = {}
        for was, new in given["args"]:
            if was.startswith(".args ."):
                self.argument[was.split(".")[-1]] = new.split(".")[-1]
        self.asked_at = given["asked_at"]
        self.places = {p[0]: p for p in given["places"]}
        self.by_name = given["places_by_name"]
        self.arms = {q[0]: a for q, a in zip(given["places"], given["arms"]) if a}
        self.clauses = {q[0]: c["fields"] for q, c in zip(given["places"], given["clauses"]) if c}
        self.requires = (given["pre"] or {}).get("fields", [])
        self.asked = given["asked"]
        self.loops = {plain(it[0][0]): (it[0][1], it[1], ch) for it, ch in zip(given["loops"], given["changed"])}

    def goal(self, old):
        """Returns the new name of a goal, and where it is asked."""
        old = re.sub(r"-(holds|again|less)$", lambda m: {"holds": "-init", "again": "-preserved", "less": "-smaller"}[m[1]], old)
        for (was, new), (place, _) in zip(self.needs, self.asked_at):
            if plain(was) == plain(old):
                return new, place
        return None, None

    def steps(self, place):
        """Returns the steps on the way to a place: what each was called, and is."""
        found = []
        while place:
            it = self.places.get(place)
            if not it:
                break
            found.append(tuple(it[2]))
            place = it[1]
        return found

    def way(self, place):
        found = []
        while place in self.places:
            found.append(place)
            place = self.places[place][1]
        return found

    def path(self, parts, place):
        """The new form of a path that begins with an old step, or None."""
        old, rest = re.sub(r"_lem$", "", parts[0]), parts[1:]
        ways = self.way(place) + [p for p in self.places if p not in self.way(place)]
        for at in ways:
            name, _, fields = self.arms.get(at) or ("", 0, [])
            for field, step, under in fields:
                if under and plain(step) == plain(old) and rest[: len(under)] == under:
                    return [name, field] + rest[len(under) :]
        for at in ways:
            was, new = self.places[at][2]
            if plain(was) == plain(old):
                if len(rest) > 1 and rest[0] == "auto" and self.places[at][3] in self.params:
                    params, k = self.params[self.places[at][3]], 1
                    while k < len(rest) and rest[k] == "1":
                        k += 1
                    if k < len(rest) and rest[k] == "0" and k - 1 < len(params):
                        rest = ["auto", params[k - 1]] + rest[k + 1 :]
                if rest and rest[0] == "ensures" and at in self.clauses:
                    rest = ["ensures"] + named(rest[1:], self.clauses[at])
                return [new] + rest
        return None


def named(digits, fields):
    """The path to a clause by its name, where it was a place among nested pairs."""
    at = 0
    while at < len(digits) and digits[at] == "1" and at < len(fields) - 1:
        at += 1
    if len(fields) < 2 or not digits or digits[0] not in ("0", "1"):
        return digits
    if at == len(fields) - 1:
        return [fields[at]] + digits[at:]
    if at < len(digits) and digits[at] == "0":
        return [fields[at]] + digits[at + 1 :]
    return digits


def as_record(body, fields):
    """A tuple of nested pairs at the end of an answer, as a record of its clauses."""
    if len(fields) < 2:
        return body
    start, depth = 0, 0
    for m in re.finditer(r"[()]|(?<=\s)in(?=\s)", body):
        if m[0] == "(":
            depth += 1
        elif m[0] == ")":
            depth -= 1
        elif not depth:
            start = m.end()
    head, last = body[:start], body[start:]
    parts, rest = [], last.strip()
    while len(parts) < len(fields) - 1:
        if not (rest.startswith("(") and rest.endswith(")")):
            return body
        two = split_pair(rest[1:-1])
        if not two:
            return body
        if len(two) == len(fields) - len(parts):
            parts += two
            rest = None
            break
        if len(two) != 2:
            return body
        parts.append(two[0])
        rest = two[1]
    if rest is not None:
        parts.append(rest)
    if len(parts) != len(fields):
        return body
    space = re.match(r"\s*", last)[0]
    return head + space + "record { " + "; ".join(f"{f} = {p}" for f, p in zip(fields, parts)) + " }"


def split_pair(text):
    found, depth, now = [], 0, ""
    for ch in text:
        depth += {"(": 1, ")": -1, "{": 1, "}": -1, "[": 1, "]": -1}.get(ch, 0)
        if depth < 0:
            return None
        if ch == "," and not depth:
            found.append(now.strip())
            now = ""
        else:
            now += ch
    if now.strip():
        found.append(now.strip())
    return found


def ensured(crate):
    """The named ensures of each function of a crate, by its path as proofs have it."""
    found = {}
    for folder, _, files in os.walk(f"crates/{crate}/src"):
        for file in files:
            with open(f"{folder}/{file}", encoding="utf-8") as f:
                text = f.read()
            module = [] if file in ("lib.rt", "main.rt") else [file[:-3]]
            owner = []
            for m in re.finditer(r"^impl(?:<[^>]*>)? (?:\w+(?:<[^>]*>)? for )?(\w+)|^}|^( *)(?:pub )?fn (\w+)", text, re.M):
                if m[1]:
                    owner = [m[1]]
                elif m[0] == "}":
                    owner = []
                else:
                    clauses = re.findall(r"ensures (\w+) \{", text[m.end() : text.find("\n" + m[2] + "{", m.end())])
                    found[".".join(module + owner + [m[3]])] = clauses
    return found


class Function:
    takes_measure = False

    def __init__(self, path, names, module, ensures):
        self.ensures = ensures
        self.path, self.names, self.module = path, names, module
        with open(path, encoding="utf-8") as f:
            self.head, self.decls, self.rest = blocks(f.read())
        self.said = []

    def say(self, what):
        self.said.append(f"{os.path.dirname(self.path)}: {what}")

    def told(self, body, root, place):
        """A declaration's text with its paths from the root by the new names; a name that is bound to the root is the root."""
        roots = {root}
        while True:
            m = re.search(r"\blet ([\w']+) = (%s)((?:\.before)*) in\s*" % "|".join(map(re.escape, roots)), body)
            if not m:
                break
            roots.add(m[1])
            body = body[: m.start()] + body[m.end() :]
        # a part of the context that is bound to a name, as the loop's record

        def path(m):
            if m[1] not in roots:
                return m[0]
            parts = [p for p in m[2][1:].split(".")]
            while parts and parts[0] == "before":
                parts.pop(0)
            if not parts:
                return root
            first = parts[0]
            if first in ("args", "ranges") and len(parts) > 1:
                parts[1] = self.names.argument.get(parts[1], parts[1])
            elif first == "requires":
                digits = parts[1:]
                if self.takes_measure and digits[:1] == ["1"]:
                    digits = digits[1:]
                elif self.takes_measure and digits[:1] == ["0"]:
                    return ".".join([root, "decreases"] + digits[1:])
                parts = ["requires"] + named(digits, self.names.requires)
            elif first.startswith("well_formed"):
                parts[0] = "well_formed"
            elif first not in ("args", "ranges", "lifetimes", "type_inv"):
                new = self.names.path(parts, place)
                if new:
                    parts = new
                else:
                    self.say(f"step {first}")
            if len(parts) > 1 and parts[1] == "before":
                self.say("a path with before inside: " + m[0])
            return ".".join([root] + parts)

        body = PATH.sub(path, body)
        # a test's fact was an equation of a Bool, and is the comparison itself
        atom = r"(?:_|[\w.'-]+|\((?:[^()]|\([^()]*\))*\))"
        body = re.sub(rf"\(le?[bt]b?-(?:true|false) {atom} {atom} ({re.escape(root)}\.(?:if|loop)[\w'-]*\.(?:true|false))\)", r"\1", body)
        body = re.sub(rf"\ble?[bt]b?-(?:true|false) {atom} {atom} ({re.escape(root)}\.(?:if|loop)[\w'-]*\.(?:true|false))(?![\w.])", r"\1", body)
        body = re.sub(rf"\(not[-_](?:true|false) {atom} ({re.escape(root)}\.if-not-[\w'-]*\.(?:true|false))\)", r"\1", body)
        body = re.sub(rf"\bnot[-_](?:true|false) {atom} ({re.escape(root)}\.if-not-[\w'-]*\.(?:true|false))(?![\w.])", r"\1", body)
        # a test of a negation: its fact is of the Bool itself
        negated = rf"{re.escape(root)}\.if-not-[\w'-]*\.(?:true|false)"
        body = re.sub(rf"\bheld ({atom}) ({negated})(?![\w.])", r"told \1 \2", body)
        body = re.sub(rf"\bfailed ({atom}) ({negated})(?![\w.])", r"not_told \1 \2", body)
        body = re.sub(rf"(?<!∙ )(?<!told )({negated})(?![\w.])", lambda m: m[0] if re.search(r"(?:told %s|∙) $" % atom, body[: m.start()]) else f"(ap not {m[1]})", body)
        if re.search(r"\.branch(?![\w-])", body):
            # where ways of the code meet, as a sum of what each way knows
            body = re.sub(r"\.branch(?![\w-])", ".either", body)
            body = re.sub(rf"\(?\ble?[bt]b?-(?:true|false) {atom} {atom} (\w+(?:\.[01])*)\.taken(?:\)(?=\)))?", r"\1", body)
            body = re.sub(r"\b(\w+(?:\.[01])*)\.taken\b", r"\1", body)
        for r in roots - {root}:
            body = re.sub(r"(?<![\w.'-])%s(?![\w'-])" % re.escape(r), root, body)
        return body

    def loop_text(self, name, lines):
        """An invariant or a measure, over the record of the variables."""
        kind, old = name.split("-", 1)
        loop = self.names.loops.get(plain(old))
        if not loop:
            return self.say(f"loop {old}")
        new, variables, changed = loop
        text = "\n".join(lines)
        m = re.search(r"^%s ((?:[^\s=]+ )*)= ?" % re.escape(name), text, re.M)
        if not m:
            return self.say(f"form of {name}")
        given = m[1].split()
        temporary = [v for v in given if re.fullmatch(r"t\d+", v) and v not in variables]
        given = [v for v in given if v not in temporary]
        wanted = [("l.initial." + v if c else "l." + v) for v, c in zip(variables, changed)] + ["l." + v for v, c in zip(variables, changed) if c]
        if len(given) != len(wanted):
            self.say(f"{name} has {len(given)} variables for {len(wanted)}: {given} {wanted}")
        body = text[m.end() :]
        map_of = dict(zip(given, wanted))
        body = re.sub(r"(?<![\w.'-])([A-Za-z_][\w'₀₁₂-]*)", lambda k: map_of.get(k[1], k[1]), body)
        return f"abbrev pub {kind}-{new} : goal.{kind}-{new}\n{kind}-{new} l = " + body.rstrip()

    def goal_text(self, name, lines, comments):
        new, place = self.names.goal(name)
        if not new and name in self.by_place:
            new, place = self.by_place[name]
        if not new and name.startswith("slice-aggregate"):
            # a slice of a constant: proved with no goal now
            return None
        if not new:
            self.say(f"goal {name}")
            new, place = "TODO-" + name, None
        text = "\n".join(lines)
        m = re.search(r"^%s ((?:[^\s=]+ )*)=" % re.escape(name), text, re.M)
        if not m:
            self.say(f"form of {name}")
            return None
        given = m[1].split()
        if given[1:] not in ([], ["κs"], ["_"]):
            self.say(f"{name} takes {given}")
        root = given[0] if given else "c"
        body = self.told(text[m.end() :], root, place)
        if new.startswith("returns"):
            fields = self.ensures
        else:
            fields = next((v for k, v in self.names.asked.items() if plain(k) in (plain(name), plain(new))), [])
        body = as_record(body, fields)
        between = [k for k in lines[1:] if k.startswith("unfolding ")]
        return "\n".join(comments + [f"pub {new} : goal.{new}"] + between + [f"{new} {root} =" + body.rstrip()])

    def places_in(self, text, which=""):
        """The goals of a rule by their place in it, where it has as many as there are."""
        m = re.search(r"tie\.spec(.*)\)\s*$", text, re.S)
        self.by_place, self.inline = {}, []
        if not m:
            return
        listed = [it for it in pieces(m[1]) if not re.match(r"(invariant|decreases)-", it)]
        if len(listed) != len(self.names.needs):
            return
        for it, (_, new), (place, _) in zip(listed, self.names.needs, self.names.asked_at):
            if not it.startswith("("):
                self.by_place[it] = (new, place)
            elif not re.fullmatch(r"\(λ c(?: κs)?\. search rules\)", it):
                self.inline.append((new, place, it))

    def turn(self):
        answers, invariants, spec = [], [], None
        self.places_in("\n".join(self.decls[-1]) if self.decls else "")
        for decl in self.decls:
            comments = [k for k in decl if k.startswith("--")]
            lines = [k for k in decl if not k.startswith("--")]
            while lines and not lines[-1].strip():
                lines.pop()
            m = re.match(r"(?:abbrev |pub |unfoldable )*(\S+)(?: \S+)* : (.*)", lines[0])
            if not m:
                answers.append("\n".join(comments + lines))
                continue
            name, kind = m[1], m[2]
            if kind.startswith(("tie.invariant-", "tie.decreases-")):
                it = self.loop_text(name, lines)
                if it:
                    invariants.append("\n".join(comments + [it]))
            elif kind.startswith("tie.Need-"):
                it = self.goal_text(name, lines, comments)
                if it:
                    answers.append(it)
            elif name.endswith("_spec") and "statement" in kind:
                spec = "\n".join(lines)
            else:
                m = re.search(r"\(?(\w+) : tie\.(After-[\w-]+|Then\w*|Else\w*|In-[\w-]+|At-[\w-]+|Start)", "\n".join(lines))
                if m:
                    olds = {plain(q): (n, q) for q, n in zip(self.names.places, self.names.by_name)}
                    new, place = olds.get(plain(m[2]), (m[2], None))
                    text = "\n".join(lines).replace("tie." + m[2], "goal." + new)
                    at = text.find("\n" + name + " ")
                    root = re.match(r"\S+ ((?:\S+ )*)=", text[at + 1 :])
                    root = root[1].split()[-1] if root and root[1].split() else "c"
                    text = text[:at] + self.told(text[at:], root, place) if at > 0 else text
                    self.say(f"helper {name}")
                    answers.append("\n".join(comments + [text]))
                    continue
                if "tie." in "\n".join(lines) or re.search(r"\bLts", kind):
                    self.say(f"helper {name}")
                answers.append("\n".join(comments + lines))
        if spec:
            for new, place, it in self.inline:
                m = re.fullmatch(r"\(λ (\w+)(?: κs)?\. (.*)\)", it, re.S)
                if m:
                    body = self.told(" " + m[2], m[1], place)
                    answers.append(f"pub {new} : goal.{new}\n{new} {m[1]} ={body}")
                else:
                    self.say("inline " + it)
            if not self.inline and not self.by_place and "(λ c" in re.sub(r"\(λ c(?: κs)?\. search rules\)", "", spec):
                self.say("inline answers in a rule of another length")
        else:
            self.say("no spec")
        return self.write(answers, invariants)

    def write(self, answers, invariants):
        folder = os.path.dirname(self.path)
        about = [k for k in self.head if k.startswith("--")]
        uses = [k for k in self.head if not k.startswith("--") and not re.search(r"\.(Statement\.\{statement\}|Tie as tie|Reads as \w+|Lts as \w+)$", k)]
        for file, texts, alias in (("Answers.antt", answers, "Goals"), ("Invariants.antt", invariants, "Given")):
            if not texts:
                continue
            body = "\n\n".join(texts)
            kept = []
            for u in uses:
                m = re.match(r"(use \S+?\.)\{(.*)\}$", u)
                if not m:
                    kept.append(u)
                    continue
                words = [w for w in re.split(r",\s*", m[2]) if self.is_used(w, body)]
                if words:
                    kept.append(m[1] + "{" + ", ".join(words) + "}")
            for where, words in (("mathlib.Core.Path", ["ap"]), ("mathlib.Core.Bool", ["not"]), ("Rattle.tells.proofs.Laws", ["told", "not_told"])):
                for w in words:
                    if self.is_used(w, re.sub(r"--.*", "", body)) and not any(re.search(r"[{ ,]%s[,}]" % w, k) for k in kept):
                        if w in ("ap", "not") and f"{w} " not in body or w in ("told", "not_told") and f"({w} " not in body and f" {w} " not in body:
                            continue
                        kept.append(f"use {where}.{{{w}}}")
            kept.append(f"use {self.module}.{alias} as goal")
            with open(os.path.join(folder, file), "w", encoding="utf-8") as f:
                f.write("\n".join(about + kept) + "\n\n" + body + "\n")
        os.remove(self.path)
        return self.said

    @staticmethod
    def is_used(word, body):
        word = word.split(" as ")[-1].strip()
        if "◌" in word:
            return all(p in body for p in word.split("◌") if p)
        return re.search(r"(?<![^\s(){}.,;\[\]|])%s(?![^\s(){}.,;\[\]|])" % re.escape(word), body) is not None or word in ("rules", "arith")


class Cycle(Function):
    """The proof of functions that call one another: each goal has its function's name in front, and takes the measure's value first."""

    takes_measure = True

    def __init__(self, path, names, module):
        self.all = names
        super().__init__(path, next(iter(names.values())), module, [])

    def turn(self):
        answers, invariants = [], []
        self.by_place, self.inline = {}, []
        for decl in self.decls:
            comments = [k for k in decl if k.startswith("--")]
            lines = [k for k in decl if not k.startswith("--")]
            while lines and not lines[-1].strip():
                lines.pop()
            text = "\n".join(lines)
            m = re.match(r"(?:abbrev |pub |unfoldable )*(\S+)(?: \S+)* : (.*)", lines[0]) if lines else None
            if not m:
                answers.append("\n".join(comments + lines))
                continue
            name, kind = m[1], m[2]
            need = re.search(r"\b(\w+?)_lts\.Need-(\S+)", kind)
            if name.startswith("μ-"):
                fn = name[2:].replace("-", "_")
                params = next((v for k, v in self.names_of_params().items() if k.split("::")[-1] == fn), [])
                body = re.search(r"^μ-\S+ (?:\S+ )?(\S+) = (.*)", text, re.M | re.S)

                def at(q, root=body[1]):
                    digits = q[2][1:].split(".")
                    k = 0
                    while k < len(digits) and digits[k] == "1" and k < len(params) - 1:
                        k += 1
                    if q[1] != root or not params:
                        return q[0]
                    rest = digits[k:] if k == len(params) - 1 else digits[k + 1 :]
                    return ".".join(["l", params[k]] + rest)

                invariants.append("\n".join(comments + [f"abbrev pub decreases-{fn} : goal.decreases-{fn}", f"decreases-{fn} l = " + PATH.sub(at, body[2])]))
            elif need:
                fn = need[1].rstrip("'")
                self.names = self.all.get(fn) or self.names
                new, place = self.names.goal(re.sub(r"^overflow-", "", need[2]))
                if not new:
                    self.say(f"goal {name}")
                    new, place = "TODO-" + name, None
                given = re.search(r"^%s ((?:[^\s=]+ )*)=" % re.escape(name), text, re.M)
                root = [r for r in given[1].split() if r not in ("κs", "_")][-1]
                body = self.told(text[given.end() :], root, place)
                fields = next((v for k, v in self.names.asked.items() if plain(k) in (plain(need[2]), plain(new))), [])
                recursive = any(plain(need[2]).startswith(plain(f) + "-requires") for f in self.all)
                if recursive and len(fields) > 1:
                    # the measure's fact, and then the clauses
                    with_first = as_record(body, ["decreases", *fields])
                    m = re.fullmatch(r"(.*)record \{ decreases = (.*?); (%s = .*)\}" % re.escape(fields[0]), with_first, re.S)
                    body = f"{m[1]}({m[2]}, record {{ {m[3]}}})" if m else body
                else:
                    body = as_record(body, fields)
                new = self.names.stem + new
                answers.append("\n".join(comments + [f"pub {new} : goal.{new}", f"{new} t {root} =" + body.rstrip()]))
            elif re.match(r"\+", name) or re.search(r"(_(at|below|calls|spec)|callees)$", name) and ("In " in kind or "Claims" in kind or "statement" in kind):
                continue
            else:
                if "_lts" in text:
                    self.say(f"helper {name}")
                answers.append("\n".join(comments + lines))
        self.head = [h for h in self.head if not re.search(r"borrow\.Fn\.|\.Reads as|\.Kinds as|\.Lts-\w+ as|\.\{statement\}|Tie\.\{close\}", h)]
        return self.write(answers, invariants)

    def names_of_params(self):
        found = {}
        for it in self.all.values():
            found.update(it.params)
        return found


def main(argv):
    given, crates = argv[0], argv[1:]
    for crate in crates:
        with open(f"{given}/{crate}/names.json", encoding="utf-8") as f:
            names = json.load(f)
        top = f"crates/{crate}/proofs"
        ensures = ensured(crate)
        for folder, folders, files in sorted(os.walk(top)):
            if "Proof.antt" not in files:
                continue
            at = os.path.relpath(folder, top).replace("/", ".")
            key = f"Rattle-{crate}-proofs.{at}.Lts"
            cycle = {k.split(".Lts-")[1]: Names(names[k]) for k in names if k.startswith(f"Rattle-{crate}-proofs.{at}.Lts-")}
            if "+" in at and cycle:
                for it in Cycle(f"{folder}/Proof.antt", cycle, f"Rattle.{crate}.proofs.{at}").turn():
                    print(it)
                continue
            if "+" in at or key not in names:
                print(f"{folder}: kept as it is" + ("" if "+" in at else ", not listed"))
                continue
            it = Function(f"{folder}/Proof.antt", Names(names[key]), f"Rattle.{crate}.proofs.{at}", ensures.get(at, []))
            for it in it.turn():
                print(it)


if __name__ == "__main__":
    main(sys.argv[1:])
