#!/usr/bin/env python3
"""Brings the repository's own definitions, constructors, fields and lemmas to one spelling: words in snake case, types and facts in camel case.

usage: python3 tools/respell.py        at the top of the repository, once, after port.py
       python3 tools/respell.py --list prints old and new names and changes nothing

A name is respelled where it is declared, imported or reached through an imported module, in specs/, proofs/, the clauses of src/ and,
between backticks, in the documents. Names of the library, of Rust items and of bound variables keep their spelling.
Two names that would fall together in a file: the later one gets `_lem` (a lemma beside its definition).
"""
import collections
import os
import re
import sys

WORD = r"[^\s(){}\[\].,;@\"|λ:=→×⊎⌜⌝#`]"
TOKEN = re.compile(r"[A-Za-z◌⊥](?:" + WORD[:-1] + r"])*")
STRING = re.compile(r'"(?:[^"\\]|\\.)*"')
DECLARED = re.compile(r"^( *)(?:(?:pub|abbrev|unfoldable|data|record) +)*([A-Za-z][^\s(){}.,;:]*) *:(?!=)")
FIELDS = {}


def files(root, ends):
    for folder, dirs, names in os.walk(os.path.join(root, "crates")):
        dirs[:] = sorted(d for d in dirs if d not in ("out", "must-fail"))
        for n in sorted(names):
            if n.endswith(ends):
                yield os.path.join(folder, n)


def snake(name):
    name = name.replace("-", "_")
    name = re.sub(r"([a-z0-9₀-₉])([A-Z])", lambda m: m.group(1) + "_" + m.group(2).lower(), name)
    # only the first letter of a run of capitals is lowered by the line above
    head, tail = name[:1], name[1:]
    return head + re.sub(r"_([A-Z])", lambda m: "_" + m.group(1).lower(), tail)


def wanted(name):
    if not re.match(r"[a-z]", name):
        return name
    new = snake(name)
    return new


def uncommented(line, comment):
    """The line's text and its comment; a string stays in the text."""
    i = 0
    while i < len(line):
        if line[i] == '"':
            m = STRING.match(line, i)
            i = m.end() if m else i + 1
            continue
        if line.startswith(comment, i):
            return line[:i], line[i:]
        i += 1
    return line, ""


def statements(text):
    """Joined use statements: (module, names or None, alias or None)."""
    for m in re.finditer(r"(?m)^ *(?:ghost +|pub +)*use +([^\s{;]+?)(?:\.?\{([^}]*)\})?(?: +as +([^\s;]+))? *;?$", text):
        module, names, alias = m.group(1), m.group(2), m.group(3)
        yield module.rstrip("."), None if names is None else [n.strip() for n in names.split(",") if n.strip()], alias


def main(argv):
    root = os.getcwd()
    own = {l.split(":")[0].split()[0] for l in open("crates.txt") if ":" in l and not l.startswith("#")}
    texts = {p: open(p, encoding="utf-8").read() for p in files(root, (".antt", ".rt"))}
    declared = collections.defaultdict(set)  # file -> names
    fields, globals_ = set(), collections.Counter()
    for p, t in texts.items():
        if not p.endswith(".antt"):
            continue
        inside = None
        for line in t.split("\n"):
            code, _ = uncommented(line, "--")
            if re.match(r"^ *(pub +)?record ", code) and code.rstrip().endswith("where"):
                inside = len(code) - len(code.lstrip())
            elif code.strip() and len(code) - len(code.lstrip()) <= (inside if inside is not None else -1):
                inside = None
            m = DECLARED.match(code)
            if m:
                if inside is not None and len(m.group(1)) > inside:
                    fields.add(m.group(2))
                else:
                    declared[p].add(m.group(2))
                    globals_[m.group(2)] += 1
    # what a module of the repository exports, by its path
    modules = collections.defaultdict(set)
    for p, names in declared.items():
        rel = os.path.relpath(p, os.path.join(root, "crates"))[: -len(".antt")].split(os.sep)
        modules["Rattle." + ".".join(rel)] |= names
    for m in list(modules):
        if m.endswith(".Lib"):
            modules[m[: -len(".Lib")]] |= modules[m]

    def is_own(module):
        parts = module.split(".")
        if len(parts) < 3 or parts[0] != "Rattle" or parts[1] not in own:
            return False
        return module in modules

    new = {n: wanted(n) for n in set(globals_) | fields}
    new = {o: n for o, n in new.items() if n != o}
    visible, aliases, foreign = {}, {}, {}
    for p, t in texts.items():
        seen, al, out = set(declared.get(p, ())), set(), set()
        for module, names, alias in statements(t):
            mine = is_own(module)
            if names is None:
                if mine:
                    al.add(alias or module.split(".")[-1])
                    al.add(module)
                continue
            for n in names:
                a = re.match(r"(\S+) as (\S+)$", n)
                first, bound = (a.group(1), a.group(2)) if a else (n, n)
                # a constructor is imported behind its type
                if mine and "." in first:
                    al.add(first.split(".")[0])
                    first = first.split(".")[-1]
                    bound = a.group(2) if a else first
                # modules of the repository in a list
                if module.startswith("Rattle.") and (module + "." + first) in modules:
                    al.add(bound)
                    continue
                if mine:
                    seen.add(first)
                    if a:
                        seen.add(bound) if bound in new else out.add(bound)
                else:
                    out.add(bound)
        visible[p], aliases[p], foreign[p] = seen, al, out
    # names bound or used in a file that are not respelled there
    def tokens(p):
        res = collections.Counter()
        for line in texts[p].split("\n"):
            code, _ = uncommented(line, "--" if p.endswith(".antt") else "//")
            for m in TOKEN.finditer(STRING.sub('""', code)):
                if m.start() and code[m.start() - 1] == ".":
                    continue
                res[m.group(0)] += 1
        return res

    toks = {p: tokens(p) for p in texts}
    # collisions: two old names with one new name in one file, or a new name that stands there already
    rename = dict(new)
    clash = collections.defaultdict(set)
    for _ in range(4):
        clash.clear()
        for p in texts:
            here = [n for n in visible[p] if n in rename and n not in foreign[p]]
            by = collections.defaultdict(set)
            for n in here:
                by[rename[n]].add(n)
            for n in visible[p] - set(here):
                by[n].add(n)
            for n in toks[p]:
                if n not in here and n in by:
                    if p.endswith(".rt") and not re.search(r"(?<![\w.])(?:let (?:mut )?|\(|, |&|mut )" + re.escape(n) + r"\s*[:=]", texts[p]):
                        continue
                    by[n].add(n)
            for n, olds in by.items():
                if len(olds) > 1:
                    for o in olds:
                        if o in rename:
                            clash[n].add((o, p))
        if not clash:
            break
        for n, pairs in clash.items():
            olds = sorted({o for o, _ in pairs}, key=lambda o: ("-" in o, o))
            plain = any(n in visible[p] or (n in toks[p] and n not in rename) for _, p in pairs)
            keep = None if plain else olds[0]
            for o in olds:
                if o != keep:
                    rename[o] = rename[o] + ("_lem" if "-" in o else "_of")
    for n, pairs in sorted(clash.items()):
        print("look: still falls together:", n, sorted(pairs)[:4])
    if "--list" in argv:
        for o in sorted(rename):
            print(o, rename[o])
        return 0

    def turn(p, t):
        antt = p.endswith(".antt")
        here = {n for n in visible[p] if n in rename and n not in foreign[p]}
        # the words of infix operators stay
        here -= {w for o in re.findall(r"◌([^\s◌]+)◌", t) for w in [o]}
        out = []
        for line in t.split("\n"):
            code, comment = uncommented(line, "--" if antt else "//")
            strings = []

            def hide(m):
                strings.append(m.group(0))
                return '"%d"' % (len(strings) - 1)

            code = STRING.sub(hide, code)

            def one(m):
                w, i = m.group(0), m.start()
                if i and code[i - 1] == ".":
                    before = re.search(r"([^\s(){}\[\],;]+)\.$", code[:i])
                    prefix = before.group(1) if before else ""
                    if prefix in aliases[p] or (prefix.startswith("Rattle.") and prefix in modules):
                        return rename.get(w, w)
                    if w in fields and w in rename:
                        return rename[w]
                    return w
                if w in here:
                    return rename[w]
                if w in fields and w in rename and re.match(r"\s*(:|=|,|;|\})", code[m.end():]) and w not in foreign[p]:
                    return rename[w]
                return w

            code = TOKEN.sub(one, code)
            code = re.sub(r'"(\d+)"', lambda m: strings[int(m.group(1))], code) if strings else code
            if comment:
                comment = TOKEN.sub(lambda m: rename.get(m.group(0), m.group(0)) if len(m.group(0)) > 2 and re.search(r"[a-z][A-Z]", m.group(0)) else m.group(0), comment)
            out.append(code + comment)
        return "\n".join(out)

    n = 0
    for p, t in texts.items():
        t2 = turn(p, t)
        if t2 != t:
            open(p, "w", encoding="utf-8").write(t2)
            n += 1
    # documents: names between backticks
    docs = ["README.md"] + sorted(os.path.join("docs", f) for f in os.listdir("docs") if f.endswith(".md")) + ["rust/README.md", "oracle/README.md"]
    for d in docs:
        if not os.path.exists(d):
            continue
        t = open(d, encoding="utf-8").read()
        t2 = re.sub(r"`([^`\n]*)`", lambda m: "`" + TOKEN.sub(lambda k: rename.get(k.group(0), k.group(0)) if len(k.group(0)) > 2 else k.group(0), m.group(1)) + "`", t)
        if t2 != t:
            open(d, "w", encoding="utf-8").write(t2)
            n += 1
    with open(os.path.join("tools", "respelled.tsv"), "w", encoding="utf-8") as f:
        f.write("".join(f"{o}\t{rename[o]}\n" for o in sorted(rename)))
    print(f"respell: {len(rename)} names, {n} files")
    return 0


if __name__ == "__main__":
    raise SystemExit(main(sys.argv[1:]))
