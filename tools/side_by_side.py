#!/usr/bin/env python3
"""Sets each public signature with its clauses, each public type, constant and trait, each definition, and each law that the documents
name, old and new side by side, where they differ in two states of this repository. Prints Markdown.

usage: python3 tools/side_by_side.py [OLD [NEW]]     OLD: a commit, by default the one of docs/DESIGN-PASS.md; NEW: the files as they are, or a commit
       python3 tools/side_by_side.py -u [OLD [NEW]]  only the names that went and of which tools/moved.tsv says nothing

What took the place of another name or stands elsewhere is found by its name where that is plain, and by tools/moved.tsv else.
"""
import collections
import difflib
import fnmatch
import os
import re
import sys

import source

HERE = os.path.dirname(os.path.abspath(__file__))
DOCS = re.compile(r"README\.md|docs/(?!DESIGN-PASS-CHANGES)\w+\.md")
KEPT = 3  # lines shown at each end of a run that did not change
KINDS = ["functions", "types", "traits", "constants", "definitions", "laws"]
Thing = collections.namedtuple("Thing", "crate kind key text")


def same(text):
    """The words of a text, as they are compared: without layout and without commas or semicolons before a bracket that closes."""
    return re.sub(r"[,;] ?(?=[)\]}])", "", " ".join(re.findall(r"[\w']+|[^\s\w]", text)))


def things(tree, named):
    """All that is compared, by key; and how often each other law of proofs/ stands, by crate."""
    found, inner = {}, collections.defaultdict(collections.Counter)

    def add(crate, kind, key, text):
        while (kind, key) in found:
            key += "'"
        found[kind, key] = Thing(crate, kind, key, text)

    for path, text in sorted(tree.items()):
        parts = path.split("/")
        if path.endswith(".rt"):
            module = "" if parts[3] in ("lib.rt", "main.rt") else parts[3][:-3] + "::"
            for item in source.items(text):
                if not item.public and not (item.name == "main" and parts[3] == "main.rt"):
                    continue
                key = f"{parts[1]}::{module}" + (f"{item.place}::" if item.place else "") + item.name
                kind = {"fn": "functions", "const": "constants", "trait": "traits", "impl": "traits"}.get(item.kind, "types")
                if not (item.kind == "fn" and ("traits", f"{parts[1]}::{module}{item.place}") in found):
                    add(parts[1], kind, key, item.head)
        elif path.endswith(".antt"):
            for law in source.declared(text):
                key = ".".join(parts[1:])[:-5] + "." + law.name
                statement = "\n".join(law.modules + (law.text if law.kind or parts[2] == "specs" else law.head,))
                if parts[2] == "specs":
                    add(parts[1], "definitions", key, statement)
                elif ": goal." in law.head:  # the answer to a goal of a function
                    continue
                elif named(law.name, parts[1], parts[-1][:-5]):
                    add(parts[1], "laws", key, statement)
                else:
                    inner[parts[1]][law.name, same(statement)] += 1
    return found, inner


def named_in_documents(trees):
    """Whether a document of one of the states names a law: in backquotes, beside its file; or, of a name of several words, in a line or below a
    heading that names its crate, or where one crate alone has the name."""
    beside, owners = collections.defaultdict(set), collections.defaultdict(set)
    for tree in trees:
        for path, text in tree.items():
            if path.endswith(".antt"):
                # declarations, and fields of records
                fields = re.findall(r"^ *(?:pub )?(\w+) : ", text, re.M)
                for name in [law.name for law in source.declared(text)] + fields:
                    owners[name].add(path.split("/")[1])
            heading = set()
            for line in text.split("\n") if DOCS.fullmatch(path) else []:
                words = set(re.findall(r"\w+", line))
                heading = words if line.startswith("#") else heading
                for name in re.findall(r"`([^\W\d][\w']*)`", line):
                    beside[name] |= words | heading
    return lambda name, crate, file: name in beside and (
        file in beside[name] or "_" in name and (crate in beside[name] or len(owners[name]) == 1))


def moved():
    """(OLD, NEW.., why) for what is said by hand. OLD may hold a *, for names that went into one thing together."""
    out = []
    with open(os.path.join(HERE, "moved.tsv"), encoding="utf-8") as lines:
        for line in lines:
            if line.strip() and not line.startswith("#"):
                old, new, why = (line.rstrip("\n").split("\t") + ["", ""])[:3]
                out.append((old, new.split(), why))
    return out


def said(key, hand):
    return next(((names, why) for old, names, why in hand if fnmatch.fnmatchcase(key, old)), None)


def pair(old, new, hand):
    """(old, new or None, names said, why) for each thing of the old state, and the things of the new one that nothing led to."""
    plain = collections.defaultdict(list)
    for thing in new.values():
        plain[thing.crate, thing.kind, bare(thing.key)].append(thing)
    everything = {thing.key: thing for thing in new.values()}
    pairs, used = [], set()
    for (kind, key), thing in old.items():
        to = new.get((kind, key))
        names, why = (not to and said(key, hand)) or ((), "")
        for name in names:
            if name not in everything:
                print(f"moved.tsv: {name}, named for {key}, is not there", file=sys.stderr)
        if names:
            to = next((everything[name] for name in names if name in everything and everything[name].kind == kind), None)
        elif not to and not why:
            other = [t for t in plain[thing.crate, kind, bare(key)] if (kind, t.key) not in old]
            alike = [t for t in old.values() if (t.crate, t.kind, bare(t.key)) == (thing.crate, kind, bare(key)) and (kind, t.key) not in new]
            if len(other) == len(alike) == 1:
                to = other[0]
        used.update(names if names else [to.key] if to else [])
        pairs.append((thing, to, names, why))
    return pairs, [thing for thing in new.values() if thing.key not in used]


def bare(key):
    return re.split(r"::|\.", key)[-1].rstrip("'")


def beside(old, new):
    """Both texts: lines of the old one alone with -, of the new one alone with +, of both with none; of long runs of these only the ends."""
    a, b = old.split("\n"), new.split("\n")
    lines = []
    for what, i, j, k, m in difflib.SequenceMatcher(None, [same(x) for x in a], [same(x) for x in b], False).get_opcodes():
        if what != "equal":
            lines += ["- " + x for x in a[i:j]] + ["+ " + x for x in b[k:m]]
        elif m - k > 3 * KEPT:
            lines += ["  " + x for x in b[k:k + KEPT]] + [f"  .. {m - k - 2 * KEPT} lines as before"] + ["  " + x for x in b[m - KEPT:m]]
        else:
            lines += ["  " + x for x in b[k:m]]
    return lines


def marked(mark, text):
    return [f"{mark} {line}" for line in text.split("\n")]


def headed(text, why):
    return ["", f"@@ {text}{': ' + why if why else ''} @@"]


PAGE = """# Old and new, side by side

What `python3 tools/side_by_side.py` prints, of {old} and of {new}:
by crate each public function or method with its clauses, each public type (with its ghost fields), trait (with what impls say for its ghost
items) and constant, each definition of specs/, and each law of proofs/ that README or docs/ name, where it differs. A line with - is the old text, one with + the new, one with neither stands in
both; of more than nine such lines in a row only the ends are shown. Comments, attributes and bodies of functions are left out, and so is what differs
in layout alone or by a comma or semicolon before a closing bracket; nothing else is. A law is a statement, with the modules around it, and no proof.
Of the laws that no document names their number is told, and the names that went: they were steps in the proofs of contracts of functions, and the
contracts of these, or of the functions that took their place, state what they were for. Answers to goals are left out.
What took the place of another name is told by the name itself or by tools/moved.tsv. docs/DESIGN-PASS.md says the reasons by crate.

Names exported for C: {exports}.
"""


def exports(old, new):
    """Whether the functions with an exported name are the same, by crate."""
    was, now = ({(path.split("/")[1], name) for path, text in tree.items() if path.endswith(".rt")
                 for name in re.findall(r"no_mangle[^\n]*\n(?:\s*#\[[^\n]*\n)*[^\n]*\bfn (\w+)", text)} for tree in (old, new))
    left = [f"{crate}::{name} {what}" for what, some in (("went", was - now), ("came", now - was)) for crate, name in sorted(some)]
    return f"{len(was)}, the same ones" if not left else ", ".join(left)


def elsewhere(old, new):
    """Words that a file of specs/ or src/ took from one place and takes from another: their text stands, and says another thing."""
    found = collections.defaultdict(set)
    for path in sorted(set(old) & set(new)):
        if "/proofs/" not in path and not path.endswith(".md"):
            was, now = source.imports(old[path]), source.imports(new[path])
            for word in was.keys() & now.keys():
                if was[word] != now[word]:
                    found[word, was[word], now[word]].add(path[7:].rsplit(".", 1)[0])
    print("## Words that a file takes from elsewhere\n\n| word | from | now from | in |\n|---|---|---|---|")
    for (word, was, now), paths in sorted(found.items()):
        print(f"| {word} | {was} | {now} | {', '.join(sorted(paths))} |")
    print()


def main(words):
    only_unsaid = "-u" in words
    words = [word for word in words if word != "-u"]
    with open(os.path.join(HERE, "..", "docs", "DESIGN-PASS.md"), encoding="utf-8") as page:
        first = page.readline().strip()
    trees = [source.files(words[0] if words else first), source.files(words[1] if len(words) > 1 else None)]
    named = named_in_documents(trees)
    (old, old_inner), (new, new_inner) = (things(tree, named) for tree in trees)
    hand = moved()
    pairs, fresh = pair(old, new, hand)
    for name, _, _ in hand:
        if not any(fnmatch.fnmatchcase(key, name) for _, key in old):
            print(f"moved.tsv: {name} was not there", file=sys.stderr)
    if only_unsaid:
        print("\n".join(f"{thing.kind} {thing.key}" for thing, to, names, why in pairs if not to and not why))
        return
    new_commit = words[1] if len(words) > 1 else "the files as they are"
    print(PAGE.format(old=words[0] if words else first, new=new_commit, exports=exports(*trees)))
    elsewhere(*trees)
    for crate in source.crates(trees[1]):
        print(f"## {crate}\n")
        for kind in KINDS:
            rows = [row for row in pairs if row[0].crate == crate and row[0].kind == kind]
            changed = [row for row in rows if row[1] and (same(row[0].text) != same(row[1].text) or row[0].key != row[1].key)]
            gone = [row for row in rows if not row[1]]
            made = [thing for thing in fresh if thing.crate == crate and thing.kind == kind]
            if not changed and not gone and not made:
                continue
            print(f"### {crate}: {kind}\n\nThere were {len(rows)}: {len(changed)} changed, {len(gone)} went, {len(made)} are new.\n")
            lines = []
            # what went into one thing together stands together, before it
            for names, why, group in grouped(changed):
                olds, to = [thing for thing, _, _, _ in group], group[0][1]
                one = len(group) == 1 and to.key == olds[0].key
                lines += headed(", ".join(thing.key for thing in olds) + ("" if one else f" → {', '.join(names or [to.key])}"), why)
                if len(group) > 1:
                    lines += [line for thing in olds for line in marked("-", thing.text)] + marked("+", to.text)
                elif same(olds[0].text) != same(to.text):
                    lines += beside(olds[0].text, to.text)
            for names, why, group in grouped(gone):
                to = f" → {', '.join(names)}" if names else ""
                lines += headed(", ".join(thing.key for thing, _, _, _ in group) + " went" + to, why or ("" if names else "not said"))
                lines += [line for thing, _, _, _ in group for line in marked("-", thing.text)]
            for thing in made:
                lines += headed(thing.key + " is new", "") + marked("+", thing.text)
            print("```diff\n" + "\n".join(lines[1:]) + "\n```\n")
        was, now = old_inner[crate], new_inner[crate]
        print(f"Other laws of proofs/: {sum(was.values())} before, {sum(now.values())} now, {sum((was & now).values())} of them with the same statement.", end="")
        went = {name for name, _ in was} - {name for name, _ in now} - {bare(thing.key) for thing in new.values() if thing.crate == crate}
        print(f" Names that went: {', '.join(sorted(went))}.\n" if went else "\n")


def grouped(rows):
    """Rows that one line of moved.tsv speaks of stand together: (names, why, rows)."""
    out = {}
    for thing, to, names, why in rows:
        out.setdefault((tuple(names), why) if names or why else thing.key, []).append((thing, to, names, why))
    return [(group[0][2], group[0][3], group) for group in out.values()]


if __name__ == "__main__":
    main(sys.argv[1:])
