#!/usr/bin/env python3
"""Brings the must-fail edits of definitions to today's spelling: usage: python3 tools/edits.py NAMES FOLDER

NAMES is a JSON file with the new name of each name of ours that is spelled otherwise now. The texts of an edit are turned as the files were: names, projections that
are written tight, primes, operators. Where the turned old text does not stand exactly once in its file, that is said, and the edit stays.
"""

import glob
import json
import re
import sys

TOKEN = re.compile(r"(?<![\w'-])[A-Za-z_][\w'-]*")
KIT = {"getD": "get_or", "ltb": "nat_lt", "leb": "nat_le", "eqb": "nat_eq"}


def turned(text, names, kit):
    text = text.replace("′", "'").replace("″", "''").replace("‴", "'''")
    text = re.sub(r"(?<=[\w')]) \.(?=[a-z0-9_])", ".", text)
    text = TOKEN.sub(lambda m: names.get(m[0], KIT.get(m[0], m[0]) if kit else m[0]), text)
    text = re.sub(r"\((\w+(?:\.[\w']+)+)\)", r"\1", text)
    return text


def main(argv):
    with open(argv[0], encoding="utf-8") as f:
        names = json.load(f)
    names = {a.replace("′", "'"): b for a, b in names.items()}
    done = 0
    for path in sorted(glob.glob(f"{argv[1]}/crates/*/must-fail/*.edit")):
        crate = path.split("/must-fail/")[0]
        with open(path, encoding="utf-8") as f:
            lines = f.read().split("\n")
        file, texts, out, bad = None, {}, [], None
        for line in lines:
            if line.startswith("file: "):
                file = line[6:].strip()
            if line.startswith(("old: ", "new: ")) and file.endswith(".antt"):
                kind, text = line[:5], line[5:]
                if kind == "old: ":
                    whole = texts.get(file) or open(f"{crate}/{file}", encoding="utf-8").read()
                    for kit in (False, True):
                        new = turned(text, names, kit)
                        if whole.count(text) == 1:
                            new = text
                        if whole.count(new) == 1:
                            break
                    else:
                        bad = f"{path}: {whole.count(new)} times: {new}"
                    used, was = kit, new
                else:
                    new = turned(text, names, used)
                    texts[file] = whole.replace(was, new)
                line = kind + new
            out.append(line)
        if bad:
            print(bad)
            continue
        if out != lines:
            done += 1
            with open(path, "w", encoding="utf-8") as f:
                f.write("\n".join(out))
    print(f"edits: {done} turned")


if __name__ == "__main__":
    main(sys.argv[1:])
