#!/usr/bin/env python3
"""Brings the repository's own definitions, record fields and lemmas to one spelling: words in snake case, types in camel case.

usage: python3 tools/respell.py        at the top of the repository

A name is the repository's own if a file of specs/, or a lemma file of proofs/, declares it. It is turned in every .antt file, and in the
clauses, ghost items and imports of every .rt file. Functions, fields and variables of src/ are in snake case already, so they keep their
names; strings and the labels of goals (Answers.antt, Invariants.antt, Choices.antt) are left alone. In comments only names in camel case
are turned, since words with a hyphen are ordinary words there. Names that would fall together are listed, and then nothing is written."""

import collections
import os
import re
import sys

DECLARED = re.compile(r"( *)(?:(?:abbrev|opaque|unfoldable|pub|instance)\s+)*(?:(record|data)\s+)?([^\s:(){},.=|]+)(?:\s+[^=]*?)?\s*:(?:\s|$)")
TOKEN = re.compile(r"[\w'\u2080-\u2089]+(?:-[\w'\u2080-\u2089+]+)*")
ANSWERS = ("Answers.antt", "Invariants.antt", "Choices.antt")
# names of which the rule would make no word, or the word that another name has already
OTHERWISE = {
    "map-++": "map_append",
    "and-then": "via_and_then",
    "before-code": "before_code_is",
    "card-state-value": "card_state_back",
    "chosen-set": "chosen_set_is",
    "code-in": "code_in_is",
    "command-bytes": "command_of_bytes",
    "entry-of": "entry_of_is",
    "entry-state-value": "entry_state_back",
    "is-update": "update_is",
    "kept-open": "kept_open_is",
    "kind-value": "kind_back",
    "plain-allowed": "coded_is_not_plain",
    "state-fits": "state_fits_sound",
    "update-answered": "update_answered_is",
}


def files():
    for folder, dirs, names in os.walk("crates"):
        dirs[:] = sorted(d for d in dirs if d != "out")
        for name in sorted(names):
            if name.endswith((".antt", ".rt")):
                yield os.path.join(folder, name)


def read(path):
    with open(path, encoding="utf-8") as file:
        return file.read()


def snake(name):
    if name in OTHERWISE:
        return OTHERWISE[name]
    if name[0].isupper():
        return "".join(part[:1].upper() + part[1:] for part in name.split("-")) if "-" in name else name
    name = re.sub(r"([a-z0-9'])([A-Z])", r"\1_\2", name.replace("-", "_"))
    return re.sub(r"([A-Z])([A-Z][a-z])", r"\1_\2", name).lower()


def declared():
    names = collections.defaultdict(set)
    for path in files():
        if path.endswith(".antt") and os.path.basename(path) not in ANSWERS:
            for line in read(path).split("\n"):
                m = DECLARED.match(line)
                if m and m[3] not in ("use", "mod", "open", "module", "--"):
                    names[m[3]].add(path)
    return names


def comment(line, mark):
    """Where the comment of a line begins, strings aside."""
    quoted, i = False, 0
    while i < len(line):
        if line[i] == "\\" and quoted:
            i += 1
        elif line[i] == '"' and mark == "//":
            quoted = not quoted
        elif not quoted and line.startswith(mark, i):
            return i
        i += 1
    return len(line)


def turn_text(text, names):
    return TOKEN.sub(lambda m: names.get(m[0], m[0]), text)


def turned(path, text, names):
    camel = {old: new for old, new in names.items() if "-" not in old}
    mark = "//" if path.endswith(".rt") else "--"
    lines = []
    for line in text.split("\n"):
        at = comment(line, mark)
        code = line[:at]
        if mark == "//":
            code = "".join(part if i % 2 else turn_text(part, names) for i, part in enumerate(re.split(r'("(?:[^"\\]|\\.)*")', code)))
        else:
            code = turn_text(code, names)
        lines.append(code + turn_text(line[at:], camel))
    return "\n".join(lines)


def together(old, names):
    """Own names that become one, though a module has both in scope or one module declares both."""
    by = collections.defaultdict(set)
    for name in old:
        by[names.get(name, name)].add(name)
    found = []
    for new, olds in sorted(by.items()):
        if len(olds) > 1:
            for path in files():
                here = {t for t in TOKEN.findall(read(path)) if t in olds}
                if len(here) > 1:
                    found.append(f"{path}: {' and '.join(sorted(here))} would both be {new}")
    for path in files():
        text = read(path)
        tokens = set(TOKEN.findall(text))
        for name in sorted(tokens & names.keys()):
            if names[name] not in old and stands(names[name], text, path.endswith(".rt")):
                found.append(f"{path}: {name} would be {names[name]}, which stands there already")
    return found


def stands(name, text, source):
    """Whether a name is used for something else: in .rt a parameter, field or variable; in .antt anything but a part of a path."""
    word = re.escape(name)
    if source:
        return bool(re.search(rf"(?<![\w.]){word}\s*:(?!:)|\blet\s+(?:mut\s+)?{word}\b|\|\s*{word}\b|\bfor\s+{word}\s+in\b", text))
    return bool(re.search(rf"(?<![\w'.\-]){word}(?![\w'\-])", text))


def main():
    old = declared()
    names = {name: snake(name) for name in old if snake(name) != name}
    clashes = together(old, names)
    for line in clashes:
        print("together: " + line)
    if clashes:
        return 1
    count = 0
    for path in list(files()):
        text = read(path)
        new = turned(path, text, names)
        if new != text:
            count += 1
            with open(path, "w", encoding="utf-8") as file:
                file.write(new)
    print(f"respell: {len(names)} names, {count} files")
    return 0


if __name__ == "__main__":
    sys.exit(main())
