#!/usr/bin/env python3
"""Counts the places of tools/places.py in another way: by the tokens of the code, the types of parameters, fields and results, and the shapes
of bodies, where places.py goes by patterns over lines and by names.

usage: python3 tools/places_by_text.py [-l] [COMMIT]     of the files as they are, or of COMMIT; -l lists each place

Its rows have the names of those of places.py. It finds more in some and less in others; rows that begin with + are of this way alone.
"""
import collections
import itertools
import re
import sys

import source

NUMBER = re.compile(r"u8|u16|u32|u64|usize")
Function = collections.namedtuple("Function", "crate name parameters result body tokens requires")


def words(text):
    return [text for _, text, _ in source.tokens(text)]


def split(tokens, mark=","):
    """The tokens between the marks that stand in no bracket."""
    out, deep = [[]], 0
    for i, t in enumerate(tokens):
        deep += (t in "([{<") - (t in ")]}" or t == ">")
        if t == mark and deep == 0:
            out.append([])
        else:
            out[-1].append(t)
    return [part for part in out if part]


def bracket(tokens, i):
    """The tokens within the bracket at i, and the place behind it."""
    deep = 0
    for k in range(i, len(tokens)):
        deep += (tokens[k] in "([{") - (tokens[k] in ")]}")
        if deep == 0:
            return tokens[i + 1:k], k + 1
    return tokens[i + 1:], len(tokens)


def function(crate, item):
    head = words(re.split(r"\b(?:requires|ensures)\b", item.head)[0])
    start = head.index("fn") + 2
    deep = 0
    while deep or head[start] != "(":
        deep += (head[start] == "<") - (head[start] == ">")
        start += 1
    inside, end = bracket(head, start)
    parameters = []
    for part in split(inside):
        if ":" in part:
            at = part.index(":")
            parameters.append((part[at - 1], " ".join(part[at + 1:])))
        else:
            parameters.append(("self", item.place))
    rest = head[end:]
    result = " ".join(rest[1:]) if rest[:1] == ["->"] else ""
    requires = re.findall(r"\brequires\b[^{]*(\{.*?\})\s*(?=\brequires\b|\bensures\b|$)", item.head, re.S)
    name = f"{crate}::{item.place}::{item.name}" if item.place else f"{crate}::{item.name}"
    return Function(crate, name, parameters, result, item.body, words(item.body), requires)


def variants(item):
    """Name -> tokens of what it carries, of an enum; of a struct, name -> type of each field."""
    plain = words(item.head)
    if item.kind == "struct" and "{" not in plain:
        inside, _ = bracket(plain, plain.index("(")) if "(" in plain else ([], 0)
        return {str(i): " ".join(t for t in part if t != "pub") for i, part in enumerate(split(inside))}
    inside, _ = bracket(plain, plain.index("{"))
    out = {}
    for part in split(inside):
        while part and part[0] == "#":
            part = part[bracket(part, 1)[1]:]
        if part[:1] == ["pub"]:
            part = part[1:]
        if part[:1] == ["ghost"] or not part:
            continue
        out[part[0]] = " ".join(part[2:] if item.kind == "struct" else part[1:])
    return out


def shape(tokens, near):
    """Tokens with names as numbers in the order in which they come; with near, by eight tokens at a time."""
    def renamed(part):
        seen = {}
        return tuple("N" if re.match(r"\d|b?['\"]", t) or re.fullmatch(r"[A-Z][A-Z0-9_]+", t) else
                     str(seen.setdefault(t, len(seen))) if re.match(r"[^\W\d]", t) and t not in KEPT else t for t in part)
    return {renamed(tokens[i:i + 8]) for i in range(len(tokens) - 7)} if near else renamed(tokens)


KEPT = {"if", "else", "match", "for", "in", "while", "loop", "return", "let", "mut", "as", "true", "false", "self", "Some", "None", "Ok", "Err"}


def arms(tokens, i):
    """The scrutinee and the arms (pattern, body) of the match at i."""
    k = i + 1
    while tokens[k] != "{":
        k = bracket(tokens, k)[1] if tokens[k] in "([" else k + 1
    inside, _ = bracket(tokens, k)
    out, at = [], 0
    while at < len(inside) and "=>" in inside[at:]:
        arrow = inside.index("=>", at)
        deep, end = 0, arrow + 1
        if inside[end] == "{":
            end = bracket(inside, end)[1]
        else:
            while end < len(inside) and not (inside[end] == "," and deep == 0):
                deep += (inside[end] in "([{") - (inside[end] in ")]}")
                end += 1
        out.append((inside[at:arrow], inside[arrow + 1:end]))
        at = end + (end < len(inside) and inside[end] == ",")
    return tokens[i + 1:k], out


def constant(tokens):
    """A number, a text, a constant, or a variant that carries at most constants."""
    return all(re.match(r"\d|b?['\"]|[A-Z]|::$|[|(),&_]$|-$|Some$|None$", t) for t in tokens)


def converts(f):
    """Whether a body is one match from constants to constants."""
    if f.tokens[1:2] != ["match"]:
        return False
    _, cases = arms(f.tokens, 1)
    return len(cases) > 2 and all(constant(p) and constant(b) for p, b in cases if p != ["_"])


def count(commit):
    tree = source.files(commit)
    rows = collections.defaultdict(list)
    functions, enums, structs, constants = [], {}, {}, []
    for path, text in sorted(tree.items()):
        if not path.endswith(".rt"):
            continue
        crate = path.split("/")[1]
        for item in source.items(text):
            if item.kind == "fn":
                functions.append(function(crate, item))
            elif item.kind == "enum":
                enums[f"{crate}::{item.name}"] = variants(item)
            elif item.kind == "struct":
                structs[f"{crate}::{item.name}"] = variants(item)
            elif item.kind == "const":
                found = re.search(r"const (\w+): (\w+) = ([^;]+);", item.head)
                if found:
                    constants.append((crate,) + found.groups())
    points_1(rows, functions, enums, structs, constants)
    point_2(rows, functions, enums, structs)
    points_3_4(rows, functions, tree)
    points_5_6(rows, functions, structs)
    point_7(rows, functions, enums)
    point_8(rows, tree)
    return rows


def points_1(rows, functions, enums, structs, constants):
    # an enum of two to four cases of which one carries something; a larger one that a function answers, where some cases carry and some do not
    for name, cases in enums.items():
        carrying = [c for c in cases.values() if c]
        answered = any(re.search(rf"\b{name.split('::')[1]}\b", f.result) for f in functions)
        if carrying and (1 < len(cases) < 5 or answered and len(carrying) < len(cases)):
            rows["1 enums of the shape of Option or Result"].append(name)
    for name, fields in structs.items():
        if "bool" in fields.values() and len(fields) > 1:
            rows["1 structs with a flag beside a value"].append(name)
    for f in functions:
        if re.search(r"\(.*\bbool\b.*,|, bool \)", f.result):
            rows["1 structs with a flag beside a value"].append(f"{f.name} answers {f.result}")
        own = {v for cases in enums.values() for v in cases}
        for i in range(len(f.tokens) - 3):
            if f.tokens[i] in own and f.tokens[i + 1] == "(" and re.match(r"\d", f.tokens[i + 2]):
                rows["1 numbers for refusals"].append(f"{f.name}: {f.tokens[i]}({f.tokens[i + 2]}")
        if NUMBER.fullmatch(f.result) and re.search(r"return \d+ ;", " ".join(f.tokens)):
            rows["1 numbers for refusals"].append(f"{f.name} answers a number by return")
        numbers = {p for p, t in f.parameters if NUMBER.fullmatch(t)}
        for i, t in enumerate(f.tokens):
            if t == "match" and i + 2 < len(f.tokens):
                on, cases = arms(f.tokens, i)
                told = sum(bool(re.match(r"\d|[A-Z][A-Z_0-9]+$", p[0])) for p, _ in cases if p)
                if told > 1 and "(" not in cases[0][0]:
                    rows["1 numbers for kinds"].append(f"{f.name} matches on {' '.join(on)}")
            elif t in ("==", "!=") and re.fullmatch(r"[A-Z][A-Z_0-9]+", f.tokens[i + 1]) and (f.tokens[i - 1] in numbers or ")" == f.tokens[i - 1]):
                rows["1 numbers for kinds"].append(f"{f.name}: {' '.join(f.tokens[max(0, i - 4):i + 2])}")
    for name, cases in itertools.chain(enums.items(), structs.items()):
        for case, carries in cases.items():
            if re.search(r"code|refus|reason", case, re.I) and re.search(r"\bu(8|16)\b", carries):
                rows["1 numbers for refusals"].append(f"{name}::{case}: {carries}")
    # constants of one type that count 0, 1, 2 .. one after another, three or more
    for crate, group in itertools.groupby(constants, lambda c: c[0]):
        run = []
        for _, name, kind, value in list(group) + [("", "", "", "")]:
            if run and value.isdigit() and kind == run[-1][1] and int(value) == int(run[-1][2]) + 1:
                run.append((name, kind, value))
                continue
            if len(run) > 2:
                rows["1 numbers for kinds"] += [f"{crate}::{one[0]} of a run of {len(run)}" for one in run]
            run = [(name, kind, value)] if value.isdigit() else []


def point_2(rows, functions, enums, structs):
    # a match from constants to constants is of point 4: all of these have one shape
    large = [f for f in functions if len(f.tokens) >= 20 and not converts(f)]
    shapes = [(f.name, shape(f.tokens, False), shape(f.tokens, True)) for f in large]
    for (one, a, near_a), (other, b, near_b) in itertools.combinations(shapes, 2):
        if a == b:
            rows["2 pairs of functions of one shape (0.85 of their words)"].append(f"{one} = {other}")
        elif len(near_a & near_b) >= 0.6 * len(near_a | near_b):
            rows["2 pairs of functions of one shape (0.85 of their words)"].append(f"{one} ~ {other}")
    # types of the same parts: enums with the same variants, structs with the same fields, two or more
    for kind in (enums, structs):
        for (one, a), (other, b) in itertools.combinations(kind.items(), 2):
            if a == b and len(a) > 1 or len(a) > 2 and list(a) == list(b):
                rows["+2 types of the same parts"].append(f"{one} = {other}")


def points_3_4(rows, functions, tree):
    for f in functions:
        for i, t in enumerate(f.tokens):
            if t in ("while", "loop"):
                rows["3 loops by hand (while, loop)"].append(f"{f.name}: {' '.join(f.tokens[i:i + 9])}")
            if t in ("==", "!=") and f.tokens[i - 2:i] == [".", "0"] and ". 0" in " ".join(f.tokens[i + 1:i + 8]):
                rows["4 equality of the numbers in place of their types"].append(f"{f.name}: {' '.join(f.tokens[i - 3:i + 4])}")
            if t == "for" and f.tokens[i + 2:i + 3] == ["in"] and ".." in f.tokens[i + 3:f.tokens.index("{", i)]:
                k, (inside, _) = f.tokens[i + 1], bracket(f.tokens, f.tokens.index("{", i))
                used = [j for j, x in enumerate(inside) if x == k]
                if used and all(inside[j - 1] == "[" and inside[j + 1] == "]" for j in used) and len({inside[j - 2] for j in used}) == 1:
                    rows["+3 for over an index that only indexes one list"].append(f"{f.name}: {k} of {inside[used[0] - 2]}")
        own = f.name.split("::")[-1]
        for i, t in enumerate(f.tokens[:-1]):
            if t == own and f.tokens[i + 1] == "(":
                inside, _ = bracket(f.tokens, i + 1)
                if any(part[1:] in (["+", "1"], ["-", "1"]) for part in split(inside)):
                    rows["+3 functions that call themselves with a counted argument"].append(f.name)
                    break
        if converts(f) and "From<" not in f.name:
            rows["4 comparing, converting and printing by hand"].append(f"{f.name} is a match from constants to constants")
        kinds = [t for _, t in f.parameters]
        if f.result == "bool" and len(kinds) == 2 and kinds[0] == kinds[1] and "==" in f.tokens:
            rows["4 comparing, converting and printing by hand"].append(f"{f.name} compares two of one type")
        if "Ordering" in f.result and not {"cmp", "partial_cmp"} & set(f.tokens):
            rows["4 comparing, converting and printing by hand"].append(f"{f.name} orders")
        if "/" in f.tokens and "%" in f.tokens and "b'0'" in f.tokens:
            rows["4 comparing, converting and printing by hand"].append(f"{f.name} prints a number")


PLAIN = re.compile(r"(&\s?(mut )?)?(\[ ?u16 ?\]|&?\s?mut|u8|u16|u32|u64|usize|bool|SortId)")


def points_5_6(rows, functions, structs):
    # parameters of the same names and types that stand together in three functions or more of a crate, as large as they come
    by = collections.defaultdict(list)
    for f in functions:
        by[f.crate].append((f.name, frozenset(p for p in f.parameters if p[0] != "self")))
    named = {"sorts with their counts": ({"sorts"}, {"counts", "sort_count"}),
             "sorts, nodes or bindings with their lengths": ({"sorts", "nodes", "binds"}, {"lengths", "given", "node_count"}),
             "scratch or lists with sizes or a branch": ({"scratch", "lists"}, {"sizes", "at", "st"}),
             "a buffer of text and where the next byte goes": ({"out", "memory"}, {"at", "start", "n", "count"})}
    everyone = [one for group in by.values() for one in group]
    for what, (first, second) in named.items():
        for name, parameters in everyone:
            names = {p for p, t in parameters if "Out" not in t}
            lists = {p for p, t in parameters if t.startswith("&") and "[" in t}
            if lists & first and names & second:
                rows[f"5 {what}"].append(name)
    for crate, group in by.items():
        together = collections.Counter()
        for (_, a), (_, b) in itertools.combinations(group, 2):
            if len(a & b) > 1:
                together[a & b] = sum((a & b) <= c for _, c in group)
        for few in sorted(together, key=lambda s: (-together[s], sorted(s))):
            if together[few] > 2 and not any(few < more and together[more] == together[few] for more in together):
                rows["+5 parameters that stand together in three functions or more"].append(
                    f"{crate}: {', '.join(f'{p}: {t}' for p, t in sorted(few))} in {together[few]}")
    said = collections.defaultdict(list)
    for f in functions:
        for clause in f.requires:
            for part in split(words(clause)[1:-1], "×"):
                while part[0] == "(" and bracket(part, 0)[1] == len(part):
                    part = part[1:-1]
                said[" ".join(part)].append(f.name)
    for clause, names in said.items():
        if len(names) > 2:
            rows["+5 one requires of three functions or more"].append(f"{clause} of {len(names)}: {', '.join(names)}")
    for name, fields in structs.items():
        lists = [k for k, t in fields.items() if re.search(r"\[", t)]
        numbers = [k for k, t in fields.items() if NUMBER.fullmatch(t)]
        if lists and numbers:
            rows["6 an array with a count beside it"].append(f"{name}: {', '.join(lists)} with {', '.join(numbers)}")
    for f in functions:
        text = " ".join(f.tokens)
        for p, t in f.parameters:
            if not NUMBER.fullmatch(t):
                continue
            ends = re.findall(rf"(\w+) \[ \.\. {p}\b", text) + re.findall(rf"(\w+) \[ 0 \.\. {p}\b", text)
            if any(re.search(r"\[", kind) for q, kind in f.parameters if q in ends):
                rows["6 an array with a count beside it"].append(f"{f.name}: {ends[0]} up to {p}")
            elif any(re.fullmatch(r"&? ?(mut )?\[ \w+ ; \w+ \]|\[ \w+ ; \w+ \]", kind) for _, kind in f.parameters) and re.search(rf"\.\. {p}\b|< {p}\b", text):
                rows["6 an array with a count beside it"].append(f"{f.name}: an array up to {p}")


def point_7(rows, functions, enums):
    """A match on an own enum of which two arms or more each call one function: what to do next, as a value."""
    known = {f.name.split("::")[-1] for f in functions}
    for f in functions:
        for i, t in enumerate(f.tokens):
            if t != "match":
                continue
            _, cases = arms(f.tokens, i)
            calls, paths = set(), set()
            for pattern, body in cases:
                body = body[1:-1] if body[:1] == ["{"] else body
                body = [x for x in body if x != "?"]
                for k, x in enumerate(body):
                    # the call is the whole arm, but for a path before it
                    if x in known and body[k + 1:k + 2] == ["("] and bracket(body, k + 1)[1] == len(body) and "(" not in body[:k]:
                        calls.add(x)
                paths.update(x for x, y in zip(pattern, pattern[1:]) if y == "::" and any(n.endswith("::" + x) for n in enums))
            if len(calls) > 1 and paths:
                rows["7 a switch on which step to run"].append(f"{f.name}: on {', '.join(sorted(paths))}")


def point_8(rows, tree):
    """Laws and helper definitions of proofs/ that nothing names outside of themselves, in no file: no proof, no contract, no document."""
    used = collections.Counter()
    laws = []
    for path, text in tree.items():
        text = "\n".join(re.sub(r"(^|\s)--.*$", "", line) for line in text.split("\n")) if path.endswith(".antt") else text
        used.update(re.findall(r"[^\W\d][\w'-]*", text))
        parts = path.split("/")
        if len(parts) == 4 and parts[2] == "proofs":
            for law in source.declared(text):
                laws.append((parts[1], parts[3][:-5], law.name, re.findall(r"[^\W\d][\w'-]*", law.text).count(law.name)))
    for crate, file, name, times in laws:
        if re.fullmatch(r"[^\W\d][\w'-]*", name) and used[name] == times:
            rows["+8 laws of proofs/ that nothing names"].append(f"{crate}/proofs/{file}: {name}")


def main(arguments):
    full = "-l" in arguments
    arguments = [word for word in arguments if word != "-l"]
    rows = count(arguments[0] if arguments else None)
    for row in sorted(rows, key=lambda row: (row.lstrip("+"), row)):
        print(f"{len(rows[row]):5}  {row}")
        if full:
            for where in rows[row]:
                print(f"         {where}")


if __name__ == "__main__":
    main(sys.argv[1:])
