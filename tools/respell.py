#!/usr/bin/env python3
"""Brings this repository's own names to today's spelling: words in snake case. Run once, at the top, after port.py.

A definition, lemma, field or variable such as `policyValue` is named `policy_value` in all files of crates/ (comments and
must-fail edits too), and where README.md, docs/, rust/ and include/ name it in code quotes. Types, modules, functions of src/,
exported names, strings, inputs and outputs keep their names. It prints the names that fall together with one that was there.
"""

import os
import re
import sys

WORD = re.compile(r"[A-Za-z_λμ◌][A-Za-z0-9_'◌₀-₉·-]*")
CAMEL = re.compile(r"[a-z][A-Za-z0-9_'₀-₉-]*[A-Z]")
GENERATED = re.compile(r".*_[A-Z]")  # names that Rattle makes, as `is_Within`
STRING = re.compile(r'"(?:[^"\\]|\\.)*"')
PAGES = ("README.md", "docs", "rust", "include", "examples", "books")


def snake(name):
    return re.sub(r"(?<=[a-z0-9'])([A-Z]+)", lambda m: "_" + m.group(1).lower(), name)


def own(word):
    return bool(CAMEL.match(word)) and not GENERATED.match(word)


def files(top, endings):
    if os.path.isfile(top):
        yield top
    for folder, dirs, names in os.walk(top):
        dirs[:] = sorted(d for d in dirs if d not in ("out", "target", ".git"))
        for name in sorted(names):
            if name.endswith(endings):
                yield os.path.join(folder, name)


def read(path):
    with open(path, encoding="utf-8") as f:
        return f.read()


def outside_strings(text, turn):
    """`turn` of each part of a line that is in no string."""
    parts, at = [], 0
    for string in STRING.finditer(text):
        parts += [turn(text[at : string.start()]), string.group()]
        at = string.end()
    return "".join(parts + [turn(text[at:])])


def write(path, before, after):
    if after != before:
        with open(path, "w", encoding="utf-8") as f:
            f.write(after)


def main():
    sources = list(files("crates", (".rt", ".antt", ".edit")))
    words = {path: set(WORD.findall(read(path))) for path in sources}
    names = {word for found in words.values() for word in found if own(word)}
    there = {}
    for path, found in words.items():
        for word in found:
            there.setdefault(word, path)
    for name in sorted(names):
        if snake(name) in there:
            print(f"together: {name} and {snake(name)} ({there[snake(name)]})")

    def respelled(text):
        return WORD.sub(lambda m: snake(m.group()) if m.group() in names else m.group(), text)

    for path in sources:
        text = read(path)
        write(path, text, "\n".join(outside_strings(line, respelled) for line in text.split("\n")))
    for page in PAGES:
        for path in files(page, (".md", ".rs", ".h", ".c")):
            text = read(path)
            write(path, text, re.sub(r"`[^`\n]+`", lambda m: respelled(m.group()), text))
    print(f"respell: {len(names)} names")


if __name__ == "__main__":
    sys.exit(main())
