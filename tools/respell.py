#!/usr/bin/env python3
"""Spells the repository's own definitions and lemmas as today's Rattle does: words in snake case, as `checkDigit` to `check_digit` and `first-of-nil` to
`first_of_nil`. Types, modules and names made by Rattle stay.

usage: python3 tools/respell.py [--check]        at the top of the repository, once; --check lists the names and writes nothing

What is renamed is what a file of specs/ or proofs/ declares, a function's own proof file apart: its names are Rattle's. Where two names would fall
together, or one would meet a word that stands in the same crates already, OTHER gives it a name of its own.
"""

import os
import re
import sys

WORD = re.compile(r'[^\s(){}.;,@"«»`:\[\]|]+')
SIGNATURE = re.compile(r'(?m)^\s*(?:(?:pub|abbrev|unfoldable)\s+)*([^\s(){}.;,@"«»:]+)(?: \{[^{}\n]*\})* :(?:\s|$)')
RULE = re.compile(r"(?m)^ruleset pub (\S+)|^pub ruleset (\S+)|^ruleset (\S+)")
PROOF = re.compile(r"/proofs/(?:.*/)?Proof\.antt$")
# Lemmas that would have the name of the definition that they speak of.
OTHER = {
    name: name.replace("-", "_") + "_lem"
    for name in ("check-digit", "first-not", "from-b", "from-c", "left-bars", "made-line", "named-line", "one-length", "right-bars", "with-check")
}


def spelled(name):
    if name in OTHER:
        return OTHER[name]
    words = re.sub(r"(?<=[a-z0-9])[A-Z]", lambda m: "_" + m[0].lower(), name)
    return words.replace("-", "_")


def files(top):
    for folder, dirs, names in os.walk(top):
        dirs[:] = sorted(d for d in dirs if d not in ("out", ".git"))
        for name in sorted(names):
            yield os.path.join(folder, name)


def without_comments(text):
    return re.sub(r"(?m)(^|\s)--.*$", r"\1", text)


def declared():
    names = set()
    for path in files("crates"):
        if not path.endswith(".antt") or PROOF.search(path):
            continue
        with open(path, encoding="utf-8") as f:
            code = without_comments(f.read())
        for found in SIGNATURE.findall(code):
            names.add(found)
        for found in RULE.findall(code):
            names.update(it for it in found if it)
    return {it for it in names if it[0].islower() and "◌" not in it}


def turned(text, table, dashes):
    """Every whole word of the text that has a row; a word with a dash only where `dashes` says so, since prose has dashes of its own."""

    def one(found):
        word = found[0]
        if word not in table or ("-" in word and not dashes):
            return word
        return table[word]

    return WORD.sub(one, text)


def antt(text, table):
    """Code turns; of a comment what is in camel case or stands in backticks."""
    lines = []
    for line in text.split("\n"):
        cut = re.search(r"(?:^|(?<=\s))--(?=\s|$)", line)
        at = cut.start() if cut else len(line)
        code, comment = line[:at], line[at:]
        comment = re.sub(r"`[^`]*`", lambda m: turned(m[0], table, True), comment)
        lines.append(turned(code, table, True) + turned(comment, table, False))
    return "\n".join(lines)


def other(text, table):
    text = re.sub(r"`[^`\n]*`", lambda m: turned(m[0], table, True), text)
    return turned(text, table, False)


def main():
    table = {it: spelled(it) for it in declared()}
    table = {old: new for old, new in table.items() if old != new}
    check = "--check" in sys.argv[1:]
    if check:
        report(table)
    for path in files("."):
        kind = os.path.splitext(path)[1]
        inside = path.startswith("./crates/")
        if inside and kind not in (".antt", ".rt", ".edit") or not inside and not (path == "./README.md" or path.startswith("./docs/")):
            continue
        with open(path, encoding="utf-8") as f:
            text = f.read()
        specs = kind == ".antt" or kind == ".edit" and re.search(r"(?m)^file: (specs|proofs)/", text)
        new = antt(text, table) if specs else other(text, table)
        if new != text and not check:
            with open(path, "w", encoding="utf-8") as f:
                f.write(new)
    print(f"respell: {len(table)} names")


def report(table):
    """The names that fall together: with one another, and with a word that some file has already."""
    back = {}
    for old, new in table.items():
        back.setdefault(new, []).append(old)
    for new, olds in sorted(back.items()):
        if len(olds) > 1:
            print("together:", new, olds)
    for path in files("crates"):
        if not path.endswith((".antt", ".rt")):
            continue
        with open(path, encoding="utf-8") as f:
            text = f.read()
        code = without_comments(text) if path.endswith(".antt") else re.sub(r"//[^\n]*", "", text)
        words = set(WORD.findall(code))
        for old in sorted(words & set(table)):
            if table[old] in words:
                print("meets:", path, old, table[old])


if __name__ == "__main__":
    main()
