#!/usr/bin/env python3
"""Counts, in the code of all crates, the places where an older form of the language could stand.

usage: python3 tools/places.py [-l] [COMMIT]     of the files as they are, or of COMMIT; -l lists each place

The rows are those of docs/DESIGN-PASS.md. A row says what a pattern finds; which of it stays, and why, is said there.
"""
import difflib
import re
import subprocess
import sys


def files(commit):
    """(crate, text) of each source file, without comments."""
    if commit:
        names = subprocess.run(["git", "ls-tree", "-r", "--name-only", commit, "crates"],
                               capture_output=True, text=True, check=True).stdout.split("\n")
    else:
        names = subprocess.run(["git", "ls-files", "crates"], capture_output=True, text=True, check=True).stdout.split("\n")
    for name in sorted(names):
        if not re.match(r"crates/\w+/src/.*\.rt$", name):
            continue
        if commit:
            text = subprocess.run(["git", "show", f"{commit}:{name}"], capture_output=True, text=True, check=True).stdout
        else:
            text = open(name).read()
        lines = [re.sub(r"(^|\s)//.*$", "", line) for line in text.split("\n")]
        yield name.split("/")[1], "\n".join(lines)


def items(text, word):
    """(name, text) of each item of the word (`fn`, `enum`, `struct`), which ends at a brace of its own indentation."""
    lines = text.split("\n")
    for i, line in enumerate(lines):
        found = re.match(rf"( *)(?:pub(?:\([a-z]+\))? )?(?:unsafe )?(?:extern \"C\" )?{word} (\w+)", line)
        if not found:
            continue
        end = i
        if not re.search(r"(;|\}|\);)\s*$", line):
            while end + 1 < len(lines) and not re.match(found.group(1) + r"(\}|\);)", lines[end]):
                end += 1
        yield found.group(2), "\n".join(lines[i:end + 1])


def signature(function):
    """The parameters of a function."""
    return function.split("requires")[0].split("ensures")[0].split("\n{")[0]


def body(function):
    found = re.search(r"\n *\{\n(.*)", function, re.S) or re.search(r"\{(.*)", function, re.S)
    return found.group(1) if found else ""


def norm(code):
    """The shape of a body: its words but for names of types, sizes and constants."""
    code = re.sub(r"\b\d[\d_]*(u8|u16|u32|u64|usize)?\b", "N", code)
    code = re.sub(r"\b[A-Z][A-Z0-9_]+\b", "N", code)
    code = re.sub(r"\b(u8|u16|u32|u64|usize)\b", "T", code)
    code = re.sub(r"b'.{1,2}'", "N", code)
    code = re.sub(r'b?"[^"]*"', "N", code)
    return re.findall(r"\w+|[^\s\w]", code)


GROUPS = [
    ("sorts with their counts", r"\bsorts: &", r"\b(counts: Counts|sort_count: usize)"),
    ("sorts, nodes or bindings with their lengths", r"\b(sorts|nodes|binds): &", r"\b(lengths: Lengths|given: Given|node_count: usize)"),
    ("scratch or lists with sizes or a branch", r"\b(scratch|lists): &", r"\b(sizes: Sizes|at: Branch|st: State)"),
    ("a buffer of text and where the next byte goes", r"\b(out|memory): &mut \[u8\]", r"\b(at|start|n|count): usize"),
]


def count(commit):
    rows = {}

    def place(row, where):
        rows.setdefault(row, []).append(where)

    functions = []
    for crate, text in files(commit):
        for name, enum in items(text, "enum"):
            variants = re.findall(r"^ {4}(\w+)", enum, re.M)
            absent = {"Nothing", "Refused", "Full", "NoRoom", "NoList", "Failed", "Stuck", "Missed", "No", "Free",
                      "Unknown", "Neither", "Stop", "NotASort", "Nowhere", "End"}
            if absent & set(variants):
                place("1 enums of the shape of Option or Result", f"{crate}::{name}")
        for name, struct in items(text, "struct"):
            if re.search(r": bool\b", struct):
                place("1 structs with a flag beside a value", f"{crate}::{name}")
            if re.search(r"\b(count|length|depth): (u16|usize|u8)", struct) and re.search(r"\[\w+; \w+\]|: Four|\bfirst: ", struct):
                place("6 an array with a count beside it", f"{crate}::{name}")
        for found in re.finditer(r"\b(?:Refused|Full|NoRoom|Stop)\(\d+|\bcode: u16\b|\bcode\(\w*: u16", text):
            place("1 numbers for refusals", f"{crate}: {found.group(0)}")
        for found in re.finditer(r"\b(?:kind|step|class|reading|stage|k): (?:u8|u16|u32)\b|\bconst (?:K_\w+|\w+_KIND|\w+_LIST|\w+_STAGE|A_[A-Z]+|NO_\w+|FIRST_CONTAINER|FUNCTION_STEP|PACKED_\w+): \w+", text):
            place("1 numbers for kinds", f"{crate}: {found.group(0)}")
        for found in re.finditer(r"^.*?\b(while |loop \{).*$", text, re.M):
            place("3 loops by hand (while, loop)", f"{crate}: {found.group(0).strip()}")
        for found in re.finditer(r"^.*\.0 (==|!=) .*\.0\b.*$", text, re.M):
            place("4 equality of the numbers in place of their types", f"{crate}: {found.group(0).strip()}")
        for name, function in items(text, "fn"):
            functions.append((crate, name, function))
            parameters = signature(function)
            for what, one, other in GROUPS:
                if re.search(one, parameters) and re.search(other, parameters):
                    place(f"5 {what}", f"{crate}::{name}")
            if re.search(r"\[\w+; \w+\]", parameters) and re.search(r"\b(count|n|depth|k|length): (u16|usize|u8)", parameters):
                place("6 an array with a count beside it", f"{crate}::{name}")
            if re.match(r"(same_|compare|kind_of_|op_of_|step_of_(op|sort)|words_of|.*_at_word|wide$|operator$|digit|put_(digit|decimal|number|word|op|kind|six|early|late|message)$|(lit|name)_(kind|target)$)", name):
                place("4 comparing, converting and printing by hand", f"{crate}::{name}")
            if re.search(r"\b(Next|Step|Pairs|Question|Letter)::\w+[^\n]*=>", body(function)):
                place("7 a switch on which step to run", f"{crate}::{name}")
    shapes = [(crate, name, norm(body(function))) for crate, name, function in functions]
    shapes = [shape for shape in shapes if 25 <= len(shape[2])]
    for i, (crate, name, one) in enumerate(shapes):
        for other_crate, other_name, other in shapes[i + 1:]:
            if 0.8 * len(one) <= len(other) <= 1.25 * len(one):
                matcher = difflib.SequenceMatcher(None, one, other, False)
                if matcher.quick_ratio() >= 0.85 and matcher.ratio() >= 0.85:
                    place("2 pairs of functions of one shape (0.85 of their words)", f"{crate}::{name} = {other_crate}::{other_name}")
    return rows


def main(words):
    full = "-l" in words
    words = [word for word in words if word != "-l"]
    rows = count(words[0] if words else None)
    for row in sorted(rows):
        print(f"{len(rows[row]):5}  {row}")
        if full:
            for where in rows[row]:
                print(f"         {where}")


main(sys.argv[1:])
