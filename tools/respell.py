#!/usr/bin/env python3
"""Brings this repository's own definitions and lemmas to the spelling of today's Rattle.

usage: python3 tools/respell.py     at the top of the repository, once, after port.py

A name that is defined in a specs/ or proofs/ file and has a dash is respelled wherever it stands in crates/, README.md and docs/: types and
facts in upper camel case (In-body becomes InBody), everything else in snake case (bodies-end becomes bodies_end). Names that
Rattle makes (goals and the fields of what an answer is given) and names of the library keep their spelling. It stops where two
names would fall together. Functions of src/, strings, inputs and outputs are not touched.
"""

import os
import re
import sys

WORD = r"[A-Za-z_][A-Za-z0-9_'′]*(?:-[A-Za-z0-9_'′]+)+"
NAME = re.compile(r"(?<![A-Za-z0-9_'′\"-])" + WORD + r"(?![A-Za-z0-9_'′\"-])")
ANY = re.compile(r"(?<![A-Za-z0-9_'′-])[A-Za-z_][A-Za-z0-9_'′]*(?:-[A-Za-z0-9_'′]+)*")
SIGNATURE = re.compile(r"^\s*(?:(?:abbrev|unfoldable|pub|record|data)\s+)*(" + WORD + r")\s*(?:[:({]|\s\()")
BINDER = re.compile(r"[({]((?:[A-Za-z_][A-Za-z0-9_'′-]*\s+)+):")
LAMBDA = re.compile(r"λ((?:\s*(?:\([^():]*:[^.]*?\)|[A-Za-z_][A-Za-z0-9_'′-]*))+)\.")
LET_PAIR = re.compile(r"\blet\s+\(([^():=]*)\)\s*=")
ALIAS = re.compile(r"^use \S+ as (\S+)$")
GOAL = re.compile(r"^(?:(?:abbrev|pub|unfoldable)\s+)*(" + WORD + r")\s*:\s*(?:\w+)\.\1(?:\s.*)?$")
LET = re.compile(r"\blet\s+(" + WORD + r")\s*[:=]")
EQUATION = re.compile(r"^\s*[A-Za-z_][^:]*?=")
QUOTED = re.compile(r"`[^`\n]*`")
OWN_LIBRARY = re.compile(r"^(?:ghost )?use Rattle\.(\w+)\.(.*?)\.?\{(.*)\};?$|^(?:ghost )?use (\S+)\.\{(.*)\};?$")


def texts(root, ends):
    for folder, dirs, files in os.walk(os.path.join(root, "crates")):
        dirs[:] = sorted(d for d in dirs if d != "out")
        for f in sorted(files):
            if f.endswith(ends):
                yield os.path.join(folder, f)


def pages(root):
    """README and docs/, where a name stands between back-quotes."""
    docs = os.path.join(root, "docs")
    found = [os.path.join(root, "README.md")]
    found += [os.path.join(docs, f) for f in sorted(os.listdir(docs)) if f.endswith(".md")]
    return [p for p in found if os.path.isfile(p)]


def read(path):
    with open(path, encoding="utf-8") as f:
        return f.read()


def dashed(word):
    return "-" in word and re.fullmatch(WORD, word)


def defined(path, text):
    """The dashed names that a file defines or binds."""
    found = set()
    for line in text.split("\n"):
        if line.lstrip().startswith("--"):
            continue
        m = SIGNATURE.match(line)
        if m and not GOAL.match(line):
            found.add(m.group(1))
        for m in BINDER.finditer(line):
            found.update(w for w in m.group(1).split() if dashed(w))
        for m in LAMBDA.finditer(line):
            found.update(w for w in re.findall(r"[A-Za-z_][A-Za-z0-9_'′-]*", m.group(1)) if dashed(w))
        for m in LET.finditer(line):
            found.add(m.group(1))
        # the patterns of an equation
        m = EQUATION.match(line)
        if m and "use " not in line:
            head = m.group(0)[:-1]
            if not re.search(r"[:→]", head) and "let " not in head and "λ" not in head:
                found.update(w for w in ANY.findall(head)[1:] if dashed(w))
        for m in LET_PAIR.finditer(line):
            found.update(w for w in ANY.findall(m.group(1)) if dashed(w))
        m = ALIAS.match(line)
        if m and dashed(m.group(1)):
            found.add(m.group(1))
    return found


def foreign(text, own):
    """The dashed names that a file imports from a library that is not of this repository, or that Rattle makes."""
    found = set()
    for line in text.split("\n"):
        m = GOAL.match(line)
        if m:
            found.add(m.group(1))
        m = OWN_LIBRARY.match(line.strip())
        if not m:
            continue
        if m.group(1) is not None:
            crate, path, names = m.group(1), m.group(2), m.group(3)
            if crate in own and not path.startswith(("specs.declared", "specs.contracts")) and not path.endswith((".Goals", ".Given")):
                continue
        else:
            names = m.group(5)
        for part in names.split(","):
            found.update(w for w in re.split(r"\sas\s", part.strip()) if dashed(w.strip()))
    return {w.strip() for w in found}


def camel(word, kinds):
    return "".join(p[:1].upper() + p[1:] for p in word.split("-"))


def respelled(word, types):
    word_ = word.replace("′", "'")
    if word in types:
        return camel(word_, types)
    if word_[0].isupper():
        # a lemma about a fact keeps the fact's name
        return word_
    return word_.replace("-", "_")


def type_names(files):
    """The capital names whose signature ends in a type."""
    found = set()
    for path, text in files.items():
        for m in re.finditer(r"^\s*(?:(?:abbrev|unfoldable|pub)\s+)*(record|data)\s+(" + WORD + r")", text, re.M):
            found.add(m.group(2))
        for m in re.finditer(r"^\s*(?:(?:abbrev|unfoldable|pub)\s+)*(" + WORD + r")\s*:([^\n]*)", text, re.M):
            if m.group(1)[0].isupper() and re.search(r"(?:Type [01]|Grammar [^→]*)$", m.group(2).strip()):
                found.add(m.group(1))
    return found


def main():
    root = os.getcwd()
    crates = os.path.join(root, "crates")
    if not os.path.isdir(crates):
        sys.exit("respell: run it at the top of the repository")
    own = set(os.listdir(crates))
    files = {p: read(p) for p in texts(root, (".antt",))}
    code = {p: read(p) for p in texts(root, (".rt", ".edit"))}
    names = set()
    for path, text in files.items():
        names |= defined(path, text)
    types = type_names(files)
    for word in sorted(n for n in names if n[0].isupper() and n not in types):
        print(f"look: {word} is no type, and stays")
    turn = {n: respelled(n, types) for n in names if n not in KEPT}
    check_apart(files, turn)
    for path, text in {**files, **code}.items():
        new = rewritten(path, text, turn, foreign(text, own))
        if new != text:
            with open(path, "w", encoding="utf-8") as f:
                f.write(new)
    for path in pages(root):
        text = read(path)
        new = QUOTED.sub(lambda m: NAME.sub(lambda n: turn.get(n.group(0), n.group(0)), m.group(0)), text)
        if new != text:
            with open(path, "w", encoding="utf-8") as f:
                f.write(new)
    print(f"respell: {sum(a != b for a, b in turn.items())} names")


def check_apart(files, turn):
    """Stops where a new name is one that a file already has, or that another name becomes."""
    back = {}
    for old, new in sorted(turn.items()):
        if back.setdefault(new, old) != old:
            sys.exit(f"respell: {old} and {back[new]} would both be {new}")
    for path, text in files.items():
        words = set(ANY.findall(text))
        for old, new in turn.items():
            if old != new and old in words and new in words:
                print(f"look: {path} has both {old} and {new}")


def rewritten(path, text, turn, kept):
    lines = []
    for line in text.split("\n"):

        def one(m):
            word = m.group(0)
            if word in kept or word not in turn:
                return word
            before = line[: m.start()]
            if before.endswith(("goal.", "\"")) or re.search(r"(?:^|\s)(?:--|//)\s", before):
                return word
            return turn[word]

        # a comment is words, but for what it quotes
        if line.lstrip().startswith(("--", "//")) and "`" not in line:
            lines.append(line)
        else:
            lines.append(NAME.sub(one, line))
    return "\n".join(lines)


# names that Rattle makes, or that antt reads otherwise
KEPT = set()

if __name__ == "__main__":
    main()
