#!/usr/bin/env python3
"""Holds the Markdown files to the repository: every relative link and every path in backquotes is there, and every law,
definition and function that a line names with its file is declared in that file. Prints what is not, and ends with
status 1 then.

A name is held to a file where it is written "`name` in `crate/proofs/File.antt`" or "of" that file, or stands in the cell
before one that is nothing but a file.
"""

import os
import re
import sys

ROOT = os.path.join(os.path.dirname(os.path.abspath(__file__)), "..")
# Paths are given from the file's own folder, from the root, or from one of these.
BASES = ["", "crates", "oracle", "oracle/lists", "oracle/compare"]
SKIPPED = {".git", "target", "out"}
# Parts of paths that every crate has, and paths that a build writes.
GENERIC = re.compile(r"(src|specs|proofs|must-fail)(/(Inner/?|lib\.rt)?)?|(\.\./)?target/.*|.*/target/release|crate/.*|crates/crate/.*")
FILE = r"`([\w/]+\.(?:antt|rt))`"
# How a line begins that declares a name: an item of code, and a definition, a law, a field or a case. An import is none.
DECLARES = {
    ".rt": r"^\s*(?:pub(?:\(\w+\))? )?(?:(?:unsafe|const|final|extern \"C\") )*(?:fn|struct|enum|trait|type|const|mod|ghost) {}(?![\w\-])",
    ".antt": r"^\s*(?:(?:pub|abbrev|unfoldable|record|data|module) )*{}(?![\w\-])[^=\n]*:",
}

wrong = []


def walk():
    for folder, folders, files in os.walk("."):
        folders[:] = [name for name in folders if name not in SKIPPED]
        for name in files:
            yield os.path.join(folder, name)


def is_there(path, folder):
    if any(os.path.exists(os.path.join(base, path)) for base in [folder, *BASES]):
        return True
    parts = path.split("/")
    return len(parts) == 2 and os.path.exists(f"crates/{parts[0]}/must-fail/{parts[1]}.edit")


def links(file, text):
    for target in re.findall(r"\]\(([^)#\s]+)[^)\s]*\)", text):
        if "://" not in target and not os.path.exists(os.path.join(os.path.dirname(file), target)):
            wrong.append(f"{file}: link {target}")


def paths(file, number, line, names):
    for words in re.findall(r"`([^`]+)`", line):
        for word in words.split():
            word = word.rstrip(",;:")
            if GENERIC.fullmatch(word) or not re.fullmatch(r"[\w.\-/]*\w[\w.\-/]*", word) or word.startswith(("/", "-")):
                continue
            if "/" in word and not is_there(word, os.path.dirname(file)):
                wrong.append(f"{file}:{number}: path {word}")
            elif re.fullmatch(r"[\w\-]+\.(antt|rt|txt|sh|rs|md)", word) and word not in names:
                wrong.append(f"{file}:{number}: file {word}")


def declared(name, path):
    text = open(path, encoding="utf-8").read()
    begins = DECLARES[os.path.splitext(path)[1]].replace("{}", re.escape(name))
    return re.search(begins, text, re.MULTILINE) is not None


def held(file, number, line):
    """The names of a line with the file that they are to be in."""
    for listed, path in re.findall(r"((?:`[^`]+`(?:, | and |; )?)+) (?:in|of) " + FILE, line):
        yield from ((name, path) for name in re.findall(r"`([^`]+)`", listed))
    cells = [cell.strip() for cell in line.strip().strip("|").split(" | ")]
    for before, cell in zip(cells, cells[1:]):
        found = re.fullmatch(FILE, cell)
        if found and "`" in before and not re.search(FILE, before):
            yield from ((name, found[1]) for name in re.findall(r"`([^`]+)`", before))


def names_of(file, number, line):
    count = 0
    for name, path in held(file, number, line):
        path = os.path.join("crates", path)
        if not re.fullmatch(r"[^\s/]+", name) or not os.path.exists(path):
            continue
        count += 1
        if not declared(name, path):
            wrong.append(f"{file}:{number}: {name} is not in {path}")
    return count


def main():
    os.chdir(ROOT)
    # docs/PORT.md names what is gone
    files = sorted(file for file in walk() if (file.endswith(".md") or file == "./NOTICE") and file != "./docs/PORT.md")
    all_names = {os.path.basename(file) for file in walk()}
    checked = 0
    for file in files:
        text = open(file, encoding="utf-8").read()
        links(file, text)
        for number, line in enumerate(text.split("\n"), 1):
            paths(file, number, line, all_names)
            checked += names_of(file, number, line)
    print(*wrong, sep="\n", end="\n" if wrong else "")
    print(f"{len(files)} files, {checked} names with their files, {len(wrong)} wrong")
    sys.exit(1 if wrong else 0)


main()
