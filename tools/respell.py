#!/usr/bin/env python3
"""Brings the repository's own definitions and lemmas to snake case: tools/respell.py, once, at the top, right after the kit's port script.

A name that an .antt file of specs/ or proofs/ declares with a small first letter, `fieldAt` or `first-pass`, becomes `field_at` or
`first_pass`, in the .antt files, in the clauses and `ghost` lines of the .rt files, in the must-fail edits and in code spans of the pages.
What a function's proof folder declares keeps its name: those are the labels that Rattle makes. Functions, strings and folders keep theirs.
Where a lemma would fall together with a definition in some file, it gets `_lem` at its end.
"""
import collections
import glob
import os
import re
import sys

WORD = re.compile(r'[^\s(){}.;,@"«»]+')
QUIET = re.compile(r'"(?:[^"\\\n]|\\.)*"|(?<![^\s(){}.;,@"«»])--[^\n]*|\{-.*?-\}', re.S)
SPAN = re.compile(r"`[^`\n]+`")
DECLARED = re.compile(r"(?m)^ *(?:(?:pub|abbrev|unfoldable|pattern|axiom) +)*([^\s(){}.;,@\"]+(?: [^\s(){}.;,@\":=→λ]+)*)(?: \{[^{}\n]*\})* : ")
CLAUSE = re.compile(r"(?:requires|ensures)\s*\*?\s*(?:\w+\s*)?\{|ghost\s*(?:\w+\s*(?::\s*(?:(?:owns|lends)\s*)?|=\s*))?\{")
USE = re.compile(r"ghost\s+use\b[^;]*;")
LIBRARY = re.compile(r"(?m)^ *(?:pub )?(?:ghost )?use ((?!Rattle\.)[^\s;{]+|Rattle\.(?:std|core)\.[^\s;{]+)\.\{([^}]*)\}")
# Heads behind which stand the names that Rattle makes.
MADE = re.compile(r"(?<![^\s(){};,@«»])(?:goal|tie|c|w|l|g|k)[0-9₀-₉']*(?:\.[^\s(){}.;,@\"«»]+)+")


PATH = re.compile(r"\bRattle(?:\.[A-Za-z_0-9+]+)+")


def snake(name):
    words = re.sub(r"(?<=[a-z0-9])[A-Z]", lambda m: "_" + m[0].lower(), name)
    return words.replace("-", "_")


def read(path):
    with open(path, encoding="utf-8") as f:
        return f.read()


def in_function_folder(path):
    return re.match(r"crates/\w+/proofs/[+\w]+/", path) is not None


def turned(text, table, made=False):
    """The code with each word of the table turned; comments and strings stay, but for a comment's words that the code has."""
    def word(m):
        return table.get(m[0], m[0])

    def code(part):
        out, at = [], 0
        for m in MADE.finditer(part) if made else ():
            out += [WORD.sub(word, part[at : m.start()]), m[0]]
            at = m.end()
        return "".join(out + [WORD.sub(word, part[at:])])

    def quiet(m):
        if m[0].startswith('"'):
            return m[0]
        return re.sub(r"[^\s(){}.;,@\"«»`:]+", word, m[0])

    out, at = [], 0
    for m in QUIET.finditer(text):
        out += [code(text[at : m.start()]), quiet(m)]
        at = m.end()
    return "".join(out + [code(text[at:])])


def closing(text, at):
    depth = 0
    for m in re.compile(r'"(?:[^"\\\n]|\\.)*"|[{}]').finditer(text, at):
        depth += (m[0] == "{") - (m[0] == "}")
        if depth < 0:
            return m.start()
    return len(text)


def source(text, table):
    """A .rt file: its clauses, ghost blocks and ghost lines, and its comments' code spans."""
    out, at = [], 0
    for m in re.compile(CLAUSE.pattern + "|" + USE.pattern + r"|//[^\n]*").finditer(text):
        if m.start() < at:
            continue
        out.append(text[at : m.start()])
        if m[0].startswith("//"):
            out.append(SPAN.sub(lambda s: WORD.sub(lambda w: table.get(w[0].strip("`"), w[0].strip("`")).join(["`"] * 2) if w[0].count("`") == 2 else w[0], s[0]), m[0]))
            at = m.end()
        elif m[0].startswith("ghost") and m[0].endswith(";"):
            out.append(turned(m[0], table))
            at = m.end()
        else:
            end = closing(text, m.end())
            out += [m[0], turned(text[m.end() : end], table)]
            at = end
    return "".join(out + [text[at:]])


def page(text, table):
    def span(m):
        inner = m[0][1:-1]
        return "`" + re.sub(r"[^\s(){}.;,@\"«»`/<>]+", lambda w: table.get(w[0], w[0]), inner) + "`"

    return SPAN.sub(span, text)


def main():
    check = "--check" in sys.argv
    antt = sorted(p for p in glob.glob("crates/*/**/*.antt", recursive=True) if "/out/" not in p)
    rt = sorted(p for p in glob.glob("crates/*/**/*.rt", recursive=True) if "/out/" not in p)
    texts = {p: read(p) for p in antt + rt}
    names, brought = set(), set()
    for p in antt:
        bare = QUIET.sub(" ", texts[p])
        brought.update(w for _, l in LIBRARY.findall(bare) for w in WORD.findall(l))
        if not in_function_folder(p):
            for group in DECLARED.findall(bare):
                names.update(w for w in group.split() if re.match(r"[a-z]", w))
    table = {n: snake(n) for n in names if snake(n) != n and n not in brought and re.search(r"-|[A-Z]", n) and "≡" not in n and "≢" not in n}
    for n in sorted(x for x in names if snake(x) != x and x in brought):
        print(f"stays: {n}: some file brings a library's of that name in")
    # Names that would fall together in some file: the definition, which is in camel case, has the plain spelling.
    for _ in range(5):
        bad = {}
        for p, t in texts.items():
            bare = QUIET.sub(" ", t) if p.endswith(".antt") else " ".join(USE.findall(t))
            bare = PATH.sub(" ", MADE.sub(" ", bare))
            by = collections.defaultdict(set)
            for w in set(WORD.findall(bare)):
                by[table.get(w, w)].add(w)
            for new, olds in by.items():
                if len(olds) > 1 and any(o in table for o in olds):
                    camel = [o for o in olds if re.search(r"[a-z0-9][A-Z]", o)]
                    bad.update((o, p) for o in olds if o not in (camel or [new]))
        if not bad:
            break
        for o, p in sorted(bad.items()):
            print(f"{o} becomes {snake(o)}_lem: it meets a definition in {p}")
            table[o] = snake(o) + "_lem"
    print(f"{len(table)} names turned")
    if check:
        return
    for p, t in texts.items():
        new = source(t, table) if p.endswith(".rt") else turned(t, table, in_function_folder(p))
        if new != t:
            with open(p, "w", encoding="utf-8") as f:
                f.write(new)
    for p in sorted(glob.glob("crates/*/must-fail/*.edit")):
        t = read(p)
        antt_edit = re.search(r"(?m)^file: \S+\.antt$", t)
        new = "".join(turned(l, table) if re.match(r"(old|new): ", l) and antt_edit else l for l in t.splitlines(keepends=True))
        if new != t:
            with open(p, "w", encoding="utf-8") as f:
                f.write(new)
    for p in ["README.md", *sorted(glob.glob("docs/**/*.md", recursive=True))]:
        t = read(p)
        new = page(t, table)
        if new != t:
            with open(p, "w", encoding="utf-8") as f:
                f.write(new)
    with open("/tmp/respelled.tsv", "w", encoding="utf-8") as f:
        f.writelines(f"{a}\t{b}\n" for a, b in sorted(table.items()))


main()
