#!/usr/bin/env python3
"""Respells this repository's own definitions and lemmas as today's Rattle does: words in snake case, types in upper camel case.

usage: tools/respell.py [--check] FOLDER

FOLDER is a checkout that port.py has turned. A name in lower camel case that a file of specs/ or proofs/ defines, or binds, is
written in snake case, wherever it stands in crates/: in .antt files, in the clauses and `ghost use` lines of .rt files, and in the
lines of .edit files. A definition in small letters whose values are types gets capitals (TYPES). It stops where two names would
fall together. A second run changes nothing. --check writes nothing.
"""

import collections
import glob
import os
import re
import sys

TYPES = {"small": "IsSmall"}
TYPES_IN = {"small": ("choices",)}
# Lemmas that have got the name of a definition, or get it here: each is told from it by the ending that a lemma of its function's name has.
LEMMAS = {
    "sheet": ("no_table",),
    "text": ("told_below", "header_read", "least_first"),
    "lines": ("header_read", "cell_as", "with_read", "first_read", "pair_read", "line_read"),
}
WORD = re.compile(r"--[^\n]*|\"(?:[^\"\\\n]|\\.)*\"|[^\s(){}.;,@\"«»\[\]\\`]+")


def snake(name):
    return re.sub(r"(?<=[a-z0-9'])([A-Z])", lambda it: "_" + it.group(1).lower(), name)


def is_camel(name):
    return bool(re.match(r"[a-z][A-Za-z0-9_'-]*\Z", name)) and bool(re.search(r"[a-z0-9'][A-Z]", name))


def read(path):
    with open(path, encoding="utf-8") as it:
        return it.read()


def files(root, *ends):
    for end in ends:
        for path in glob.glob(f"{glob.escape(root)}/crates/*/**/*{end}", recursive=True):
            if "/out/" not in path:
                yield path


def crate_of(path, root):
    return os.path.relpath(path, os.path.join(root, "crates")).split(os.sep)[0]


def names(root):
    """Every lower camel case name that stands in a file of specs/ or proofs/: what is defined there, and what is bound."""
    found = collections.defaultdict(set)
    for path in files(root, ".antt"):
        for word in WORD.findall(read(path)):
            if word.startswith(("--", '"')):
                continue
            for part in re.findall(r"[A-Za-z][\w'₀-₉-]*", word):
                if is_camel(part):
                    found[part].add(path)
    return found


def borrowed(root):
    """The names that a `use` line takes from the kit."""
    out = set()
    for path in files(root, ".antt", ".rt"):
        for module, listed in re.findall(r"(?m)^(?:ghost )?use ([\w.·'+-]+)\.\{([^}]*)\}", read(path)):
            if not module.startswith("Rattle.") or module.split(".")[1] in KIT:
                out |= set(re.split(r"[,\s]+", listed))
    return out


KIT = {"std", "core", "io", "libc", "os", "bytes", "check", "std_io", "std_alloc", "std_collections", "std_heap"}


def main(argv):
    check = "--check" in argv
    root = [it for it in argv if it != "--check"][0]
    found = names(root)
    of_kit = borrowed(root)
    table = {it: snake(it) for it in found if it not in of_kit}
    clashes = 0
    back = collections.defaultdict(list)
    for old, new in table.items():
        back[new].append(old)
    for new, olds in back.items():
        if len(olds) > 1:
            print("fall together:", new, olds)
            clashes += 1
    # A file that already has the new spelling as a name of its own, beside the old one.
    for path in files(root, ".antt"):
        text = read(path)
        words = set()
        for word in WORD.findall(text):
            if not word.startswith(("--", '"')):
                words.add(word)
        crate = crate_of(path, root)
        bare = set(re.findall(r"(?<![\w.'-])([a-z][\w']*)(?![\w'-])", re.sub(r"--[^\n]*", "", text)))
        for old in words & set(table):
            if table[old] in bare and table[old] not in LEMMAS.get(crate, ()):
                print("beside:", os.path.relpath(path, root), old, table[old])
                clashes += 1
    # A checkout that has none of these names left has its lemmas' endings too.
    already = not table
    changed = 0
    for path in files(root, ".antt", ".rt", ".edit"):
        text = read(path)

        def turned(it):
            word = it.group(0)
            return table.get(word, word)

        crate = crate_of(path, root)
        lemma = text
        if "/proofs/" in path and not already:
            for name in LEMMAS.get(crate, ()):
                lemma = re.sub(r"(?<![\w.'-])%s(?![\w.'-])" % name, name + "_lem", lemma)
        new = re.sub(r"(?<![\w'.-])[a-z][\w'₀-₉]*(?:-[\w'₀-₉]+)*|(?<=\.)[a-z][\w']*(?:-[\w']+)*", turned, lemma)
        for old, now in TYPES.items():
            if crate in TYPES_IN[old]:
                new = re.sub(r"(?<![\w'.-])%s(?![\w'-])" % old, now, new)
        if new != text:
            changed += 1
            if not check:
                with open(path, "w", encoding="utf-8") as it:
                    it.write(new)
    print(f"{len(table)} names; {changed} files; {clashes} places to look at")


if __name__ == "__main__":
    main(sys.argv[1:])
