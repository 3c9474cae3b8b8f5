#!/usr/bin/env python3
"""Spells the definitions and lemmas of this repository in snake case, as today's Rattle spells its own.

usage: python3 tools/respell.py          at the top of the repository: rewrites the files below crates/
       python3 tools/respell.py --list   prints each name with its new spelling, and writes nothing

A name that a file of specs/ or proofs/ declares goes from camel case to snake case, and its dashes become underscores; a part that is a type keeps its
capitals and its dash. Strings keep their text. A name whose new spelling stands in the repository already, or would meet another new one, keeps its dashes or stays
as it is ('kept:').
"""

import os
import re
import sys

TOKEN = re.compile(r"[^\s(){}\[\].;,@\"«»:|#]+")
DECLARED = re.compile(r"(?m)^[ \t]*(?:(?:abbrev|unfoldable|pub) )*([^\s(){}:.;,]+)(?: \{[^{}\n]*\})* :(?= |$)")
ANSWER = re.compile(r"(?m)^[ \t]*(?:(?:abbrev|unfoldable|pub) )*([^\s(){}:.;,]+) : tie\.(?:Need-|invariant-|decreases-)")
HEAD = re.compile(r"(?m)^[ \t]*(?:(?:abbrev|unfoldable|pub) )*(?:data|record) ([^\s(){}:.;,]+)")
RESERVED = set(
    "data record deriving module where use mod pub package open as unfoldable abbrev axiom unfold unfolding ruleset mutual infix infixl infixr elim let in do"
    " Type coe fcoe tcoe hcom com search grind simp rw cc omega hlevel assumption ground first_of tt absurd".split()
)
# Spellings that stand already, of other things in other places: the name takes its spelling all the same.
APART = {"isOne": "is_one", "toldAt": "told_at", "wordAt": "word_at", "countOf": "count_of", "listedBy": "listed_by", "numberAt": "number_at", "tooSmall": "too_small"}
# Lemmas that make room for them.
ROOM = {"listed_by": ("listed-by", "crates/automaton/"), "told_at": ("told-at", "crates/waiting/proofs/Calling.antt")}
# Words of English that comments write with a dash, and that are lemmas too.
ENGLISH = set("look-back bit-packed one-line well-formed must-fail so-called".split())


def files():
    for folder, dirs, names in os.walk("crates"):
        dirs[:] = sorted(d for d in dirs if d != "out")
        for name in sorted(names):
            if name.endswith((".rt", ".antt", ".edit")):
                yield os.path.join(folder, name)


def pieces(path, text):
    """The text in pieces: (kind, piece), kind being 'code', 'comment' or 'string'."""
    mark = {"rt": r"//[^\n]*", "antt": r"--[^\n]*", "edit": r"(?m:^#[^\n]*)"}[path.rsplit(".", 1)[1]]
    at = 0
    for m in re.finditer(rf"(?P<comment>{mark})|(?P<string>b?\"(?:[^\"\\\n]|\\.)*\")", text):
        if m["comment"] and path.endswith(".antt") and m.start() and text[m.start() - 1] not in " \n\t":
            continue
        yield "code", text[at : m.start()]
        yield m.lastgroup, m[0]
        at = m.end()
    yield "code", text[at:]


def snake(name):
    """The new spelling, with underscores, and the one that keeps the dashes."""
    parts = [p if p[:1].isupper() else re.sub(r"(?<=[a-z0-9])[A-Z]", lambda m: "_" + m[0].lower(), p) for p in name.split("-")]
    whole = parts[0]
    for before, part in zip(parts, parts[1:]):
        whole += ("-" if before[:1].isupper() or part[:1].isupper() else "_") + part
    return whole, "-".join(parts)


def table(texts):
    declared, tokens = set(), set()
    for path, text in texts.items():
        bare = "".join(p if kind == "code" else " " for kind, p in pieces(path, text))
        if path.endswith(".antt"):
            declared |= (set(DECLARED.findall(bare)) - set(ANSWER.findall(bare))) | set(HEAD.findall(bare))
            # The path of a module names functions of src/, which no definition meets.
            tokens |= set(TOKEN.findall(re.sub(r"(?m)^((?:pub )?use )[^\s{]*", r"\1", bare)))
        elif path.endswith(".rt"):
            # A function of src/ may share its name with the definition of what it returns; a parameter, a field, a variable or a constant hides it.
            tokens |= set(re.findall(r"(\w+)\s*:(?!:)|\blet (?:mut )?(\w+)|\bfor (\w+)", bare) and [x for t in re.findall(r"(\w+)\s*:(?!:)|\blet (?:mut )?(\w+)|\bfor (\w+)", bare) for x in t if x])
    declared = {d for d in declared if re.fullmatch(r"[A-Za-z0-9_'?-]+", d) and not d.endswith("_spec") and not d.endswith("-spec")}
    new, kept = {}, []
    for name in sorted(declared, key=lambda n: ("-" in n, len(n), n)):
        if name in APART:
            new[name] = APART[name]
            continue
        whole, dashed = snake(name)
        taken = tokens | set(new.values()) | RESERVED
        for it in (whole, dashed):
            if it == name:
                break
            if it not in taken:
                new[name] = it
                break
        if new.get(name) != whole and whole != name:
            kept.append((name, whole, new.get(name, name)))
    return new, kept


def turned(path, text, new):
    out = []
    for kind, piece in pieces(path, text):
        if kind == "string":
            out.append(piece)
            continue

        def each(m, kind=kind):
            if kind == "comment" and m[0] in ENGLISH:
                return m[0]
            if m[0] in ROOM and path.startswith(ROOM[m[0]][1]):
                return ROOM[m[0]][0]
            return new.get(m[0], m[0])

        out.append(TOKEN.sub(each, piece))
    return "".join(out)


def main(argv):
    texts = {}
    for path in files():
        with open(path, encoding="utf-8") as f:
            texts[path] = f.read()
    new, kept = table(texts)
    for name, whole, got in kept:
        print(f"kept: {name} would be {whole}, which stands already: {got}")
    if argv == ["--list"]:
        for name in sorted(new):
            print(f"{name}\t{new[name]}")
        return 0
    for path, text in texts.items():
        it = turned(path, text, new)
        if it != text:
            with open(path, "w", encoding="utf-8") as f:
                f.write(it)
    print(f"{len(new)} names")
    return 0


if __name__ == "__main__":
    raise SystemExit(main(sys.argv[1:]))
