#!/usr/bin/env python3
"""Respells the repository's own definitions, lemmas, record fields and named steps of proofs as respell.txt beside this file says: a line
`OLD NEW` for each.

usage: tools/respell.py [FOLDER]     rewrites the .antt and .rt files below FOLDER/crates (FOLDER is . if it is not given)

A dash becomes an underscore; it stays only between the names of two functions, as in length-flat. Names are replaced as whole words, and in
comments only between backticks. Behind a dot only the fields of the repository's own records are replaced: other names there are those that
the check makes of the code. A name that a file imports from a library is left alone in that file.
"""
import os
import re
import sys

HERE = os.path.dirname(os.path.realpath(__file__))
FIELDS = set("high-within join-least join-of-kind join-second last-most low-within meet-first meet-greatest meet-of-kind meet-second not-before not-below of-kind of-text ranges-are silent-join silent-meet silent-unread stands-first".split())
IMPORT = re.compile(r"(?m)^\s*(?:pub )?(?:ghost )?use ([^\s{]+)\.\{([^}]*)\}")
WORD = re.compile(r"(?<![^\s(){}\[\];,.|λ←])([^\s(){}\[\];,.|λ←]+)(?![^\s(){}\[\];,.|])")


def main():
    root = sys.argv[1] if len(sys.argv) > 1 else "."
    with open(os.path.join(HERE, "respell.txt"), encoding="utf-8") as f:
        names = dict(line.split() for line in f)

    crates = os.listdir(os.path.join(root, "crates"))

    def of_libraries(text):
        """The names that a file imports from elsewhere than the repository's own crates."""
        lists = [m.group(2) for m in IMPORT.finditer(text) if m.group(1).split(".")[1:2] not in [[c] for c in crates]]
        return {name.split(" as ")[0].strip() for it in lists for name in it.split(",")}

    def respelled(line, kept):
        def turn(m):
            word = m.group(1)
            if word in kept or (m.start() and m.string[m.start() - 1] == "." and word not in FIELDS):
                return word
            return names.get(word, word)

        if not line.lstrip().startswith(("--", "//")):
            return WORD.sub(turn, line)
        return re.sub(r"`([^`]*)`", lambda m: "`" + WORD.sub(turn, m.group(1)) + "`", line)

    for folder, dirs, files in os.walk(os.path.join(root, "crates")):
        dirs[:] = [d for d in dirs if d != "out"]
        for name in files:
            if name.endswith((".antt", ".rt")):
                path = os.path.join(folder, name)
                with open(path, encoding="utf-8") as f:
                    text = f.read()
                kept = of_libraries(text)
                new = "".join(respelled(line, kept) for line in text.splitlines(keepends=True))
                if new != text:
                    with open(path, "w", encoding="utf-8") as f:
                        f.write(new)


main()
