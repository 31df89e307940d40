#!/usr/bin/env python3
"""Spells the repository's own names of definitions and lemmas in snake case: `insertAnswer` is `insert_answer`, `cut-cells` is `cut_cells`.

usage: tools/respell.py [--show]      at the top of the repository, once, after port.py

It turns the names that files of specs/ and proofs/ declare (a function's Proof.antt aside, whose own names stay) wherever they stand: in .antt
files, in .rt files, in must-fail edits and in the code spans of the pages. In a comment it turns what has a hump or stands in a code span. It
leaves a name where the file imports it from a library, in a Proof.antt that declares it, and behind a dot unless it is a record's field or a module's
name is before the dot. Types and modules keep their spelling. A lemma that would meet the definition of its name gets `_lem`. Each crate is laid out anew by `rt fmt`. --show prints the table of names and writes nothing.
A line that begins 'meets:' lists a new name that stood in a file already.
"""

import collections
import os
import re
import subprocess
import sys

WORD = re.compile(r"[^\s(){}\[\].;,@\"«»`]+")
DECLARED = re.compile(r"^(\s*)((?:(?:abbrev|unfoldable|opaque|pub|ruleset|data|record|mutual)\s+)*)([^\s(){}:]+)\s*(?:\{[^{}\n]*\}\s*)*:(?:\s|$)")
MANY = re.compile(r"^\s+(?:pub )?((?:[^\s(){}:]+ )+):(?:\s|$)")
RECORD = re.compile(r"^(\s*)(?:(?:pub|abbrev|unfoldable)\s+)*record\s")
USE = re.compile(r"(?:^|\s)use\s+([^\s{;]+?)\.\{([^}]*)\}", re.S)
COMMENT = re.compile(r"(?m)(?:--|//|^#).*$")
HUMP = re.compile(r"[a-z0-9][A-Z]")
# A name in lower case with a dash or a hump, or with a prime of the older form.
IS_OLD = re.compile(r"(?=\w*(?:-|[a-z0-9][A-Z]|′))[a-zμ][\w'′₀-₉-]*")
SPAN = re.compile(r"(`+)(.+?)\1", re.S)


def respelled(name):
    words = re.sub(r"(?<=[a-z0-9])([A-Z])", lambda m: "_" + m[1].lower(), name)
    return words.replace("-", "_").replace("′", "'")


def files(*ends):
    for folder, dirs, names in os.walk("crates"):
        dirs[:] = sorted(d for d in dirs if d != "out")
        for name in sorted(names):
            if name.endswith(ends):
                yield os.path.join(folder, name)


def read(path):
    with open(path, encoding="utf-8", newline="") as f:
        return f.read()


def is_proof(path):
    return path.endswith("/Proof.antt")


def declared(text):
    """The names that an .antt file declares, and those of them that are fields of a record."""
    names, fields, inside = set(), set(), None
    for line in text.split("\n"):
        if not line.strip() or line.lstrip().startswith("--"):
            continue
        indent = len(line) - len(line.lstrip())
        if inside is not None and indent <= inside:
            inside = None
        begins = RECORD.match(line)
        found = DECLARED.match(line)
        many = MANY.match(line) if inside is not None else None
        if found:
            names.add(found[3])
        if inside is not None:
            fields |= set(many[1].split()) if many else {found[3]} if found else set()
        if begins:
            inside = indent
    return names | fields, fields


def imported(text, from_own):
    """The names that a file imports from the repository's own crates, or else from other libraries."""
    own = set(os.listdir("crates"))
    names = set()
    for path, items in USE.findall(text):
        steps = path.split(".")
        is_own = steps[0] == "Rattle" and len(steps) > 1 and steps[1] in own
        if is_own == from_own:
            names |= {word for item in items.split(",") for word in item.split()}
    return names


def table():
    """The rows of old and new names, and the fields of records."""
    names, fields, snake = set(), set(), set()
    for path in files(".antt"):
        text = read(path)
        if is_proof(path):
            continue
        a, b = declared(text)
        snake |= a
        fields |= b
        keep = imported(text, from_own=False)
        for m in WORD.finditer(COMMENT.sub("", text)):
            word = m[0]
            if word not in keep and IS_OLD.fullmatch(word) and m.string[m.start() - 1 : m.start()] != ".":
                names.add(word)
    rows, groups = {}, collections.defaultdict(set)
    for name in names:
        groups[respelled(name)].add(name)
    for new, olds in groups.items():
        if new in snake and new not in fields:
            olds.add(new)
        first = [n for n in sorted(olds) if HUMP.search(n) and "-" not in n] or [n for n in olds if n == new] or sorted(olds)
        for old in olds:
            is_lemma_beside = old != first[0] and old not in fields
            rows[old] = new + "_lem" if is_lemma_beside else new
    return {a: b for a, b in rows.items() if a != b}, fields


def turned(text, rows, fields, keep):
    def one(m):
        word = m[0]
        if word not in rows or word in keep:
            return word
        if m.string[m.start() - 1 : m.start()] == "." and word not in fields:
            # Behind a dot stands a name of ours only where a module's name is before it, as Laws.cut-cells.
            head = re.search(r"([^\s(){},;]*)\.$", m.string[max(0, m.start() - 120) : m.start()])
            if not head or not re.search(r"(^|\.)[A-Z]\w*$", head[1]):
                return word
        return rows[word]

    return WORD.sub(one, text)


def turned_code(text, rows, fields, keep):
    """The code wholly, in comments what has a hump or stands in a code span: a word with a dash may be English there."""
    humps = {a: b for a, b in rows.items() if HUMP.search(a)}
    parts, at = [], 0
    for m in COMMENT.finditer(text):
        parts.append(turned(text[at : m.start()], rows, fields, keep))
        parts.append(in_spans(turned(m[0], humps, fields, ()), rows, fields))
        at = m.end()
    return "".join(parts) + turned(text[at:], rows, fields, keep)


def in_spans(text, rows, fields):
    return SPAN.sub(lambda m: m[1] + turned(m[2], rows, fields, ()) + m[1], text)


def main(argv):
    rows, fields = table()
    if argv == ["--show"]:
        for a in sorted(rows):
            print(f"{a}\t{rows[a]}")
        return
    back = collections.defaultdict(set)
    for a, b in rows.items():
        back[b].add(a)
    for b, olds in sorted(back.items()):
        if len(olds) > 1:
            print(f"meets: {sorted(olds)} would all be {b}")
    # port.py turned some names of the code already, and no page: there they turn now.
    every = set().union(*(declared(read(p))[0] for p in files(".antt")))
    in_rust = {a: b for a, b in rows.items() if HUMP.search(a) or "-" in a}
    new = {}
    for path in files(".antt", ".rt", ".edit"):
        text = read(path)
        keep = imported(text, from_own=False)
        if is_proof(path):
            keep |= declared(text)[0] - imported(text, from_own=True)
        if path.endswith(".antt"):
            words = set(WORD.findall(COMMENT.sub("", text)))
            for a in sorted(words & set(rows) - keep):
                if rows[a] in words and rows[a] not in rows and a not in fields:
                    print(f"meets: {path}: {a} and {rows[a]}")
        new[path] = turned_code(text, in_rust if path.endswith(".rt") else rows, fields, keep)
    for folder, dirs, names in os.walk("."):
        dirs[:] = sorted(d for d in dirs if d not in (".git", "target", "crates", "out"))
        for name in sorted(names):
            if name.endswith(".md"):
                path = os.path.join(folder, name)
                text = read(path)
                words = {w for m in SPAN.finditer(text) for w in WORD.findall(m[2]) if IS_OLD.fullmatch(w)}
                there = {w: respelled(w) for w in words if respelled(w) in every}
                new[path] = in_spans(text, there | in_rust, fields)
    changed = 0
    for path, text in new.items():
        if text != read(path):
            changed += 1
            with open(path, "w", encoding="utf-8", newline="") as f:
                f.write(text)
    for crate in sorted(os.listdir("crates")):
        if os.path.isdir(f"crates/{crate}/src"):
            subprocess.run(["rt", "fmt"], cwd=f"crates/{crate}", stdout=subprocess.DEVNULL)
    print(f"{len(rows)} names, {changed} files")


if __name__ == "__main__":
    main(sys.argv[1:])
