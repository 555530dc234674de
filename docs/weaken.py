#!/usr/bin/env python3
"""Tries weakenings of a crate's definitions and says what refuses each.

usage: docs/weaken.py [--laws A,B] NAME LIST [LABEL..]

LIST has a block for each weakening: a line `= LABEL`, then lines as a must-fail edit has them (`file:`, `old:`, `new:`; a `file:` line holds for the
pairs after it, an `old:` text stands once in its file). Each block is applied to a copy of crates/NAME below target/weaken/ and checked by `rt check`
(the environment's RT instead, where set), which keeps its work in that copy's out/. With --laws only those files of proofs/ are checked, and those that they
import: quicker, for laws about definitions alone. Printed for each: the places of the first errors, or NOT REFUSED, or BAD where the edit could not be applied. The log is target/weaken/NAME/logs/LABEL. The status is 0 if all were refused.

Where something refuses, read the log: a definition is pinned if a fact no longer holds, not if the text of a proof no longer fits.
"""
import os
import re
import shutil
import subprocess
import sys
import time
from pathlib import Path

ROOT = Path(__file__).resolve().parent.parent


def blocks(path):
    found, label = {}, None
    for line in path.read_text().splitlines():
        if line.startswith("= "):
            label = line[2:].strip()
            if label in found:
                sys.exit(f"weaken: {label} stands twice in {path}")
            found[label] = []
        elif label and line.startswith(("file: ", "old: ", "new:")):
            found[label].append(line)
    return found


def applied(crate, lines):
    """Applies the replacements to the copy; answers what is wrong with them, or None."""
    name = old = None
    for line in lines:
        if line.startswith("file: "):
            name = line[6:]
        elif line.startswith("old: "):
            old = line[5:]
        else:
            new = line[4:].removeprefix(" ")
            path = crate / name
            text = path.read_text()
            if text.count(old) != 1:
                return f"in {name} {text.count(old)} times: {old}"
            path.write_text(text.replace(old, new))
    return None if old else "no replacement"


def only(name, crate, laws):
    """Leaves those files of proofs/, with what they import, and their lines of Lib.antt."""
    left, todo = set(), list(laws)
    while todo:
        law = todo.pop()
        if law not in left:
            left.add(law)
            text = (crate / "proofs" / f"{law}.antt").read_text()
            todo += re.findall(rf"^use Rattle\.{name}\.proofs\.(\w+)", text, re.M)
    lib = crate / "proofs" / "Lib.antt"
    declared = re.findall(r"^pub mod (\w+)$", lib.read_text(), re.M)
    lib.write_text("".join(f"pub mod {law}\n" for law in declared if law in left))
    for path in (crate / "proofs").iterdir():
        if path.suffix == ".antt" and path.stem not in left | {"Lib"}:
            path.unlink()


def main():
    words, laws = sys.argv[1:], []
    if words[:1] == ["--laws"]:
        laws, words = words[1].split(","), words[2:]
    if len(words) < 2:
        sys.exit(__doc__)
    name, wanted = words[0], words[2:]
    scratch = ROOT / "target" / "weaken" / name
    (scratch / "logs").mkdir(parents=True, exist_ok=True)
    (scratch / "crates").mkdir(exist_ok=True)
    shutil.copy(ROOT / "crates.txt", scratch / "crates.txt")
    # with this file it is a repository of its own, which rt at the top here passes over
    (scratch / "MODULE.bazel").touch()
    for crate in (ROOT / "crates").iterdir():
        below = scratch / "crates" / crate.name
        for part in ("src", "specs", "proofs"):
            if crate.name != name and (crate / part).exists():
                shutil.rmtree(below / part, ignore_errors=True)
                shutil.copytree(crate / part, below / part)
    copy = scratch / "crates" / name
    all_refused = True
    for label, lines in blocks(Path(words[1])).items():
        if wanted and label not in wanted:
            continue
        for part in ("src", "specs", "proofs"):
            shutil.rmtree(copy / part, ignore_errors=True)
            if (ROOT / "crates" / name / part).exists():
                shutil.copytree(ROOT / "crates" / name / part, copy / part)
        wrong = applied(copy, lines)
        if wrong:
            print(f"{label}: BAD: {wrong}", flush=True)
            all_refused = False
            continue
        if laws:
            only(name, copy, laws)
        began = time.time()
        run = subprocess.run([os.environ.get("RT", "rt"), "check"], cwd=copy, capture_output=True, text=True)
        said = run.stdout + run.stderr
        (scratch / "logs" / label).write_text(said)
        took = f"{time.time() - began:.0f} s"
        errors = re.findall(r"^(\S+): error(.*)$", said, re.M)
        if run.returncode == 0:
            print(f"{label}: NOT REFUSED ({took})", flush=True)
            all_refused = False
        elif errors:
            places = dict.fromkeys(place.removeprefix("./") for place, _ in errors)
            print(f"{label}: refused at {', '.join(list(places)[:6])} ({took})", flush=True)
        else:
            print(f"{label}: refused, see its log ({took})", flush=True)
    sys.exit(0 if all_refused else 1)


main()
