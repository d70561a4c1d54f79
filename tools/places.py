#!/usr/bin/env python3
"""Counts the places that docs/DESIGN-PASS.md speaks of, in crates/*/src: places.py [FOLDER]."""
import collections, glob, os, re, sys

root = sys.argv[1] if len(sys.argv) > 1 else "."
files = {os.path.relpath(f, root): open(f).read() for f in sorted(glob.glob(root + "/crates/*/src/*.rt"))}


def functions(text):
    """name, parameters, contract and body of each function"""
    for m in re.finditer(r"^( *)(?:pub )?(?:extern \"C\" )?fn (\w+)([^(]*)\(", text, re.M):
        depth, i = 1, m.end()
        while depth:
            depth += {"(": 1, ")": -1}.get(text[i], 0)
            i += 1
        end = re.compile(r"\{\n((?:.|\n)*?)^" + m.group(1) + r"\}$", re.M)
        b = re.compile(r"^" + m.group(1) + r"\{$|\{$", re.M).search(text, i)
        body = end.match(text, b.end() - 1) if b else None
        params = [p for p in re.split(r",\s*(?![^<\[(]*[>\])])", text[m.end() : i - 1].strip()) if p.strip()]
        yield m.group(2), params, text[i : b.start()] if b else "", body.group(1) if body else ""


def show(point, what, places):
    print(f"{point}: {what}: {len(places)}")
    for p in places:
        print("    " + p)


def lines(pattern):
    return [f"{f}:{t[:m.start()].count(chr(10)) + 1}: {m.group(0).strip()}" for f, t in files.items() for m in re.finditer(pattern, t, re.M)]


show(1, "enums", lines(r"^ *(?:pub )?enum \w+"))
show(1, "fields that say which state", lines(r"^ +(?:pub )?\w+: (?:Outcome|bool),"))
show(1, "comments on a number that stands for nothing or for yes", lines(r"^ *//.*(?:0 (?:where|if) (?:there|it|nobody)|16 where|[Oo]ne more than|1 (?:where|if)).*"))
bodies = collections.defaultdict(list)
for f, t in files.items():
    for name, params, contract, body in functions(t):
        flat = re.sub(r"\s+", " ", body).strip()
        flat = re.sub(r"\b[uif](?:8|16|32|64|size)\b|\b[A-Z][A-Z_]+\b|\b\d+\w*\b|b?\"[^\"]*\"", "_", flat)
        flat = re.sub(r"\b[a-z_]+(?= \()|\b[a-z_]+(?=\()", "f", flat)
        # demands, oblakosh and the crates exported to C say operations once more: the auditor's door and the C interface
        if len(flat) > 12 and not re.match(r"crates/(demands|oblakosh|linked_judge|moving_c)", f):
            bodies[flat].append(f"{f}: {name}")
show(2, "groups of functions with one body but for types, numbers and names called", ["; ".join(v) for v in bodies.values() if len(v) > 1])
counted = r"^( *)(?:'\w+: )?while ([^{]*) \{\n(?:.*\n)*?\1    (?:\w+) [+-]= \w+;\n(?:.*\n)*?\1\}$"
show(3, "loops that count by hand", [f"{f}: while {m.group(2)}" for f, t in files.items() for m in re.finditer(counted, t, re.M) if f"\n{m.group(1)}}}" not in m.group(0)[: m.group(0).rindex("=")]])
show(4, "functions that convert or compare by hand", lines(r"^ *(?:pub )?fn (?:number|wide|later|least|least_time|one_less|comes_before|wins_tie|is_given|put_two|digit)\b"))
show(4, "calls that print piece by piece", lines(r"\b(?:put|say|tell|put_cart|put_both|put_two|put_byte|put_bytes|end_line|write_all)\(\w+[,)]"))
many, facts = [], collections.defaultdict(list)
for f, t in files.items():
    for name, params, contract, body in functions(t):
        if len(params) > 6:
            many.append(f"{f}: {name}: {len(params)}")
        for m in re.finditer(r"requires \w*\s*\{(.*?)\}\s*(?=requires|ensures|$)", contract, re.S):
            for fact in re.split(r"\s×\s", re.sub(r"\s+", " ", m.group(1)).strip()):
                fact = fact.strip(" ()")
                if len(fact) > 14:
                    facts[fact].append(f"{f}: {name}")
show(5, "functions with more than six parameters", many)
show(5, "premises of three functions or more", [f"{k}: {len(v)}" for k, v in facts.items() if len(v) > 2])
show(6, "functions with three arrays or more side by side", [f"{f}: {name}" for f, t in files.items() for name, params, c, b in functions(t) if sum(bool(re.search(r"&(?:'\w+ )?(?:mut )?\[[^\]]*;", p)) for p in params) > 2])
show(6, "arrays written place by place, and parts of one array told by constants", lines(r"^ *(?:pub )?const [A-Z]+: usize = \d+;"))
show(7, "switches on a kind, and yes or no as a parameter", lines(r"^ *(?:let \w+ = )?match \w+ \{$|\b\w+: bool\b(?=[,)])"))
