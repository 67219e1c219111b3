#!/usr/bin/env python3
"""Brings the repository's own definitions and lemmas to today's spelling.

usage: python3 tools/respell.py [FOLDER]      once, after /opt/rattle/port/port.py; FOLDER is the repository's top (default: here)

Words are in snake case, types and facts in camel case. A name is one that a file of specs/ or a lemma file right in proofs/ declares, or gives to a module; it
is turned wherever it stands as a whole word: in specs/, proofs/, the clauses of src/ (not in comments and strings), and between backticks
in README.md, docs/ and model/. Generated names of goals are not declared there, and stay.
"""
import re
import sys
from pathlib import Path

# Two names that would fall together with another one
APART = {"Gate-at": "IsGateAt"}

DECLARED = re.compile(r"^(\s*)(?:(?:abbrev|unfoldable|pub) )*(?:record |data )?([^\s(){}\[\].,;:@=]+)(?: \([^)]*\)| \{[^}]*\})* : (.*)$")
RECORD = re.compile(r"^\s*(?:pub )?(?:record|data) ([^\s(){}:]+)")
MODULE = re.compile(r"^use \S+ as (\S+)$")
WORD = re.compile(r"[^\W\d][\w'\u2080-\u2089-]*")
IGNORED = re.compile(r'//[^\n]*|"(?:\\.|[^"\\])*"')


def spelled(name):
    if name in APART:
        return APART[name]
    if name[0].isupper():
        return "".join(part[0].upper() + part[1:] for part in name.split("-"))
    return name.replace("-", "_")


def names(top):
    """The declared names that have a dash, with their new spelling."""
    found = {}
    files = list(top.glob("crates/*/specs/**/*.antt")) + list(top.glob("crates/*/proofs/*.antt"))
    for path in files:
        for line in path.read_text().splitlines():
            m = DECLARED.match(line)
            name = m[2] if m and not line.startswith("use ") and not line.lstrip().startswith("--") else ""
            for m in filter(None, [RECORD.match(line), MODULE.match(line)]):
                name = m[1]
            if "-" in name:
                found[name] = spelled(name)
    return found


def turned(text, found):
    return WORD.sub(lambda m: found.get(m[0], m[0]), text)


def turned_code(text, found):
    out, end = [], 0
    for m in IGNORED.finditer(text):
        out += [turned(text[end:m.start()], found), m[0]]
        end = m.end()
    return "".join(out + [turned(text[end:], found)])


def turned_page(text, found):
    return re.sub(r"`[^`\n]+`", lambda m: turned(m[0], found) if m[0][1:-1] in found else m[0], text)


def main():
    top = Path(sys.argv[1] if len(sys.argv) > 1 else ".")
    found = names(top)
    for pattern, turn in [("crates/*/specs/**/*.antt", turned), ("crates/*/proofs/**/*.antt", turned), ("crates/*/src/**/*.rt", turned_code),
                          ("README.md", turned_page), ("docs/*.md", turned_page), ("model/*.md", turned_page)]:
        for path in top.glob(pattern):
            old = path.read_text()
            new = turn(old, found)
            if new != old:
                path.write_text(new)
    print(f"respell: {len(found)} names")


if __name__ == "__main__":
    main()
