"""Reads a state of this repository (a commit, or the files as they are) and takes its text apart: items of the code (.rt) and
declarations of definitions and proofs (.antt). Used by side_by_side.py and places_by_text.py."""
import collections
import io
import re
import subprocess
import tarfile

Item = collections.namedtuple("Item", "kind name place public head body text")
Declared = collections.namedtuple("Declared", "name kind modules head text")

TOKEN = re.compile(r"""
    (?P<comment>//[^\n]*)
  | (?P<text>b?"(?:\\[\s\S]|[^"\\])*"|b?'(?:\\(?:x[0-9a-fA-F]{2}|u\{\w+\}|.)|[^'\\\n])')
  | (?P<life>'[a-z_]\w*)
  | (?P<number>\d[\d_]*(?:[iu](?:8|16|32|64|128|size))?)
  | (?P<word>[^\W\d][\w']*)
  | (?P<mark>::|->|=>|==|!=|<=|>=|&&|\|\||\.\.=|\.\.|[+\-*/%&|^]=|[^\s\w])
""", re.X)


def files(commit):
    """Path -> text of the crates' sources and the Markdown files, of a commit or of the work tree."""
    wanted = re.compile(r"crates/\w+/(src|specs|proofs)/.*\.(rt|antt)|README\.md|docs/\w+\.md|crates\.txt")
    if commit:
        packed = subprocess.run(["git", "archive", commit], capture_output=True, check=True).stdout
        with tarfile.open(fileobj=io.BytesIO(packed)) as tar:
            return {m.name: tar.extractfile(m).read().decode() for m in tar if m.isfile() and wanted.fullmatch(m.name)}
    names = subprocess.run(["git", "ls-files"], capture_output=True, text=True, check=True).stdout.split("\n")
    out = {}
    for name in names:
        if wanted.fullmatch(name):
            try:
                with open(name, encoding="utf-8") as file:
                    out[name] = file.read()
            except FileNotFoundError:  # removed, and not committed yet
                pass
    return out


def crates(tree):
    return re.findall(r"^(\w+)(?: staticlib)?:", tree["crates.txt"], re.M)


def tokens(text):
    """(kind, text, place) of each token that is no comment."""
    for m in TOKEN.finditer(text):
        if m.lastgroup != "comment":
            yield m.lastgroup, m.group(), m.start()


def blanked(text, kinds):
    """The text with tokens of these kinds (comment, text) as spaces, each place as it was."""
    out = list(text)
    for m in TOKEN.finditer(text):
        if m.lastgroup in kinds:
            out[m.start():m.end()] = re.sub(r"[^\n]", " ", m.group())
    return "".join(out)


def closing(text, i):
    """The place behind the bracket that closes the one at i."""
    other = {"(": ")", "[": "]", "{": "}"}[text[i]]
    deep = 0
    for k in range(i, len(text)):
        deep += (text[k] == text[i]) - (text[k] == other)
        if deep == 0:
            return k + 1
    return len(text)


def head_end(text, i):
    """Where the head of a function ends: at its body or its semicolon. Braces of clauses belong to the head."""
    clause = False
    while i < len(text):
        if text[i] in "([" or (text[i] == "{" and clause):
            clause = clause and text[i] != "{"
            i = closing(text, i)
            continue
        if text[i] in "{;":
            return i
        word = re.compile(r"[^\W\d]\w*").match(text, i)
        if word:
            clause = clause or word.group() in ("requires", "ensures")
        i = word.end() if word else i + 1
    return i


def laid(text):
    """Lines without blank ones, moved to the left margin together."""
    lines = [line.rstrip() for line in text.split("\n") if line.strip()]
    margin = min((len(line) - len(line.lstrip()) for line in lines), default=0)
    return "\n".join(line[margin:] for line in lines)


def items(text):
    """Functions, structs, enums, constants, traits and ghost items of impls of a source file, outside of tests."""
    plain = blanked(text, {"comment"})
    bare = blanked(text, {"comment", "text"})
    return list(items_within(bare, plain, 0, len(bare), "", False))


def items_within(bare, plain, at, end, place, shown):
    key = re.compile(r"\b(fn|struct|enum|const|trait|impl|mod)\b")
    while found := key.search(bare, at, end):
        kind = found[1]
        before = re.search(r"[^;{}\]]*$", bare[at:found.start()])[0]
        start = found.start() - len(before)
        start += len(plain[start:found.start()]) - len(plain[start:found.start()].lstrip())
        start = bare.rfind("\n", 0, start) + 1 if not bare[bare.rfind("\n", 0, start) + 1:start].strip() else start
        public = shown or bool(re.search(r"\bpub\b(?!\s*\()", before))
        named = re.compile(r"\s*([^\W\d]\w*)").match(bare, found.end())
        name = named[1] if named else ""
        if kind == "fn":
            stop = head_end(bare, found.end())
            at = closing(bare, stop) if stop < len(bare) and bare[stop] == "{" else stop + 1
            yield Item(kind, name, place, public, laid(plain[start:stop]), plain[stop:at], plain[start:at])
            continue
        stop = found.end()
        while stop < end and bare[stop] not in "{;=":
            stop = closing(bare, stop) if bare[stop] in "([" else stop + 1
        if kind == "const":
            if stop < end and bare[stop] == "=":
                stop = bare.find(";", stop)
            at = stop + 1
            yield Item(kind, name, place, public, laid(plain[start:at]), "", plain[start:at])
            continue
        at = closing(bare, stop) if stop < end and bare[stop] == "{" else stop + 1
        if kind in ("struct", "enum"):
            yield Item(kind, name, place, public, laid(plain[start:at]), "", plain[start:at])
        elif kind == "mod":
            if bare[stop] == "{" and "cfg" not in bare[max(0, start - 40):start]:
                yield from items_within(bare, plain, stop + 1, at - 1, place, False)
        else:
            of = re.sub(r"\s+", " ", plain[found.end():stop]).strip()
            of = re.sub(r"^<[^>]*>\s*", "", re.sub(r"\s+where .*", "", of))
            of = re.sub(r"<[^<>]*>", "", re.sub(r"<[^<>]*>", "", of)) if kind == "impl" and " for " not in of else of
            if kind == "trait":
                of = name
                yield Item(kind, name, place, public, laid(plain[start:at]), "", plain[start:at])
            elif " for " in of:
                # what the impl says for the trait's ghost items
                ghosts = [laid(plain[g.start():closing(bare, g.end() - 1)]) for g in re.compile(r"\bghost [\w']+ = \{").finditer(bare, stop, at)]
                if ghosts:
                    yield Item("impl", of, place, True, "\n".join([f"impl {of}"] + ["    " + ghost for ghost in ghosts]), "", "")
            yield from items_within(bare, plain, stop + 1, at - 1, of, public if kind == "trait" else " for " in of)


# ---- definitions and proofs

WORDS = r"(?:pub|abbrev|unfoldable|opaque|instance)"
SKIPPED = {"use", "mod", "open", "infix", "infixl", "infixr", "prefix", "ruleset"}


def blocks(lines):
    """The lines of one indentation, each with the deeper ones after it."""
    out, margin = [], None
    for line in lines:
        deep = len(line) - len(line.lstrip())
        margin = deep if margin is None else margin
        if deep <= margin or not out:
            out.append([line])
        else:
            out[-1].append(line)
    return out


def declared(text):
    lines = [re.sub(r"(^|\s)--.*$", "", line).rstrip() for line in text.split("\n")]
    return list(declared_within([line for line in lines if line.strip()], ()))


def declared_within(lines, modules):
    current = None
    for block in blocks(lines):
        words = [word for word in block[0].split() if not re.fullmatch(WORDS, word)]
        whole = " ".join(line.strip() for line in block)
        if words and words[0] in SKIPPED or words and words[0] in ("module", "mutual"):
            if current:
                yield finished(current, modules)
            current = None
            if words[0] in ("module", "mutual"):
                # the head of a module may go over several lines, as far as its `where`
                n = next((i for i, line in enumerate(block) if line.rstrip().endswith(" where")), 0) if words[0] == "module" else 0
                header = () if words[0] == "mutual" else (laid("\n".join(block[:n + 1])),)
                yield from declared_within(block[n + 1:], modules + header)
            continue
        name = declares(whole)
        if name:
            if current:
                yield finished(current, modules)
            current = [name, block, []]
        elif current:
            current[2].append(block)
    if current:
        yield finished(current, modules)


def declares(line):
    """The name that a line declares, with its kind; None where it is an equation."""
    found = re.match(rf"((?:{WORDS}\s+)*)(?:(record|data)\s+)?(\S+)", line)
    if not found or found[3] in ("unfolding", "=", "where"):
        return None
    kind = found[2] or next((word for word in ("abbrev", "unfoldable", "opaque") if word in found[1].split()), "")
    deep = 0
    for i in range(found.end(), len(line)):
        c = line[i]
        deep += (c in "({[⟨") - (c in ")}]⟩")
        if deep == 0 and c == "=" and line[i - 1] == " ":
            return None
        if deep == 0 and c == ":" and line[i - 1] == " " and line[i + 1:i + 2] in (" ", ""):
            return found[3], kind
    return None


def finished(current, modules):
    (name, kind), block, rest = current
    head = "\n".join(block)
    text = "\n".join(["\n".join(lines) for lines in [block] + rest])
    return Declared(name, kind, modules, laid(head), laid(text))


def imports(text):
    """Word -> where it comes from, by the `use` lines of a file."""
    out = {}
    for found in re.finditer(r"^(?:ghost |pub |unfoldable )*use ([\w+]+(?:\.[\w+]+)*)(?:\.\{([^}]*)\})?(?: as (\w+))?", text, re.M):
        path, names, other = found[1], found[2], found[3]
        if not path.startswith(("Rattle.", "mathlib.", "Prim.", "native.")):
            continue
        for name in (names or "").split(","):
            old, _, new = name.strip().partition(" as ")
            if old:
                out[new.strip() or old] = f"{path}.{old}"
        if other:
            out[other] = path
    return out
