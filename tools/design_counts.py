#!/usr/bin/env python3
"""Counts, in crates/*/src, the places that docs/DESIGN-PASS.md speaks of, point by point.

    tools/design_counts.py [-v] [POINT..]      -v lists them; POINT is 1 to 8
"""
import re
import subprocess
import sys
from collections import defaultdict
from pathlib import Path

ROOT = Path(__file__).resolve().parent.parent
FILES = sorted(ROOT.glob("crates/*/src/**/*.rt"))


def code(text):
    """The text without comments."""
    return re.sub(r"//[^\n]*", "", text)


SOURCES = {f.relative_to(ROOT / "crates"): code(f.read_text()) for f in FILES}


def braces(text, start):
    """The end of the block whose opening brace stands at start."""
    depth = 0
    for i in range(start, len(text)):
        if text[i] == "{":
            depth += 1
        elif text[i] == "}":
            depth -= 1
            if depth == 0:
                return i + 1
    return len(text)


def items(word):
    """(file, name, body) of each enum or struct."""
    for f, s in SOURCES.items():
        for m in re.finditer(r"\b%s (\w+)[^{;(]*\{" % word, s):
            yield f, m[1], s[m.end() : braces(s, m.end() - 1) - 1]


def functions():
    """(file, name, head, body) of each function."""
    for f, s in SOURCES.items():
        for m in re.finditer(r"\bfn (\w+)", s):
            i = s.index("(", m.end())
            depth, j = 0, i
            while True:
                depth += {"(": 1, ")": -1}.get(s[j], 0)
                j += 1
                if depth == 0:
                    break
            n = re.compile(r"\s*(->[^{]*?)?(?=\b(?:requires|ensures|where)\b|\{|;\s*\n)").match(s, j)
            if not n:
                continue
            k = n.end()
            while True:
                n = re.compile(r"\s*(?:requires|ensures)[^{]*\{").match(s, k)
                if not n:
                    break
                k = braces(s, n.end() - 1)
            head_end = k
            n = re.compile(r"\s*\{").match(s, k)
            body = s[n.end() : braces(s, n.end() - 1) - 1] if n else ""
            yield f, m[1], s[m.start() : head_end], body


def parts(body):
    """The variants or fields of a body, split at the commas outside brackets."""
    out, depth, last = [], 0, 0
    for i, c in enumerate(body):
        depth += {"{": 1, "(": 1, "[": 1, "}": -1, ")": -1, "]": -1}.get(c, 0)
        if c == "," and depth == 0:
            out.append(body[last:i].strip())
            last = i + 1
    out.append(body[last:].strip())
    return [p for p in out if p]


def point1():
    for f, name, body in items("enum"):
        v = parts(body)
        if len(v) == 2 and any("(" in x or "{" in x for x in v):
            yield f, f"enum {name}, of the shape of Option or Result"
    for f, name, body in items("struct"):
        fields = parts(body)
        if len(fields) > 1 and any(
            re.search(r"\b(ok|line|instant|answer|known|found|is_\w+|taken): (bool|Decision)$", x) for x in fields
        ):
            yield f, f"struct {name}, a flag with a value beside it"
    for f, s in SOURCES.items():
        for m in re.finditer(r"\b(Refused\(u8\)|const (?!MAX_)\w+: u8 = (?:[1-9]|1\d);)", s):
            yield f, f"a number for a refusal: {m[0]}"
        for m in re.finditer(r"\bpart: usize", s):
            yield f, "a number for a set: part: usize"
        for m in re.finditer(r"\b(Decision|Written|LineRead|Status|Reply|NewObligation|Panel)::\w+|\bRecord::(?:Whole|Torn)", s):
            yield f, f"a case of one: {m[0]}"


def shape(text):
    """A body with its numbers, constants, types and field names taken out."""
    text = re.sub(r"\b[A-Z][A-Z0-9_]+\b|\b\d[\d_]*(?:u8|u16|u32|u64|usize|i16|i64)?\b", "N", text)
    text = re.sub(r"\b(?:u8|u16|u32|u64|usize|i16|i64|bool)\b", "T", text)
    text = re.sub(r"\b[A-Z]\w*::", "E::", text)
    return re.sub(r"\s+", "", text)


def point2():
    by = defaultdict(list)
    for f, name, head, body in functions():
        if len(re.sub(r"\s", "", body)) >= 60:
            by[shape(body)].append((f, name))
    for group in by.values():
        if len(group) > 1:
            for f, name in group:
                yield f, f"fn {name}, the same as {', '.join(n for _, n in group if n != name)[:80]} but for types and numbers"
    matches = defaultdict(list)
    for f, name, head, body in functions():
        arms = re.findall(r"(\w+::\w+)[^=]*=> (true|false|\w+)", body)
        if "-> bool" in head and len(arms) >= 7 and all(a[1] in ("true", "false") for a in arms):
            yield f, f"fn {name}, a match with an arm for each kind that answers a flag"
    structs = defaultdict(list)
    for f, name, body in items("struct"):
        names = tuple(sorted(re.sub(r"pub(\(crate\))? ", "", p).split(":")[0].strip() for p in parts(body)))
        if len(names) > 1:
            structs[names].append((f, name))
    for group in structs.values():
        if len(group) > 1:
            for f, name in group:
                yield f, f"struct {name}, with the fields of {', '.join(n for _, n in group if n != name)}"


def point3():
    for f, s in SOURCES.items():
        for m in re.finditer(r"\bwhile ([^{]*)\{", s):
            body = s[m.end() : braces(s, m.end() - 1)]
            for w in re.findall(r"\b[a-z]\w*\b", m[1]):
                if re.search(r"\b%s [+-]= 1;" % w, body):
                    yield f, f"while {m[1].strip()}"
                    break


def point4():
    for f, name, head, body in functions():
        b = re.sub(r"\s+", " ", body).strip()
        if re.fullmatch(r"\(?\w+\)? as \w+", b):
            yield f, f"fn {name}, a conversion: {b}"
        elif re.fullmatch(r"if \w+ \{ \d+ \} else \{ \d+ \}", b):
            yield f, f"fn {name}, a flag as a number"
        elif re.search(r"% (BYTE|256)|/ (BYTE|256)", b) and len(b) < 90:
            yield f, f"fn {name}, bytes by arithmetic: {b}"
        elif name.startswith("same_") and "else { false }" in b:
            yield f, f"fn {name}, equality by hand"
    for f, s in SOURCES.items():
        for m in re.finditer(r"if [^{}]*\{\s*(?:true|false|[^{};]*)\s*\} else \{\s*(?:true|false)\s*\}", s):
            yield f, "a test by if and else: " + re.sub(r"\s+", " ", m[0])[:70]
        for m in re.finditer(r"\b\w+ as (?:usize|u64|u32|i64)\b", s):
            yield f, f"a widening by as: {m[0]}"


def point5():
    facts = defaultdict(set)
    for f, name, head, body in functions():
        for m in re.finditer(r"requires[^{]*\{(.*?)\}\s*(?=requires|ensures|$)", head, re.S):
            for fact in re.split(r"×", m[1]):
                fact = re.sub(r"[()\s]+", " ", fact).strip()
                facts[(f.parts[0], fact)].add(name)
    for (crate, fact), names in sorted(facts.items()):
        if len(names) >= 3:
            yield crate, f"{len(names)} contracts: {fact}"
    groups = defaultdict(set)
    for f, name, head, body in functions():
        params = re.findall(r"(\w+: &?(?:mut )?\[?[\w;, ]+\]?)", head.split("->")[0])
        params = [p.strip() for p in params if not p.startswith("self")]
        for i in range(len(params) - 2):
            groups[(f.parts[0], ", ".join(params[i : i + 3]))].add(name)
    for (crate, three), names in sorted(groups.items()):
        if len(names) >= 3:
            yield crate, f"{len(names)} functions take together: {three}"


def point6():
    for f, name, body in items("struct"):
        fields = [re.sub(r"pub(\(crate\))? ", "", p) for p in parts(body)]
        arrays = [p for p in fields if re.search(r": \[.*; ", p)]
        counts = [p for p in fields if re.match(r"(count|len|owed|counting|live|size|used)\w*: (usize|Status|u8|Option)", p)]
        if arrays and counts:
            yield f, f"struct {name}: {counts[0].split(':')[0]} beside an array"
        if len(arrays) > 1:
            yield f, f"struct {name}: {len(arrays)} arrays beside each other"


def point7():
    for f, s in SOURCES.items():
        for m in re.finditer(r"(?:if|match) (?:part|which|step|turn|sort|mode)\b[^{]*\{", s):
            yield f, re.sub(r"\s+", " ", m[0])


def point8():
    for p in sorted(ROOT.glob("crates/*/proofs/**/*.antt")):
        s = p.read_text()
        if p.name == "Proof.antt":
            yield p.relative_to(ROOT / "crates"), "a proof in the older form"


POINTS = {"1": point1, "2": point2, "3": point3, "4": point4, "5": point5, "6": point6, "7": point7, "8": point8}
LIBRARY = {"records", "remainders", "lines", "step", "judge", "logs", "lent", "text", "panel", "gateway", "gateway_c", "programs", "tesl", "theory", "work"}

args = sys.argv[1:]
verbose = "-v" in args
for p in [a for a in args if a in POINTS] or sorted(POINTS):
    places = list(POINTS[p]())
    library = sum(1 for f, _ in places if Path(f).parts[0] in LIBRARY)
    print(f"point {p}: {len(places)} places, {library} in the library, {len(places) - library} in tests and programs of tests")
    if verbose:
        for f, what in places:
            print(f"  {f}: {what}")
