#!/usr/bin/env python3
"""Counts places in src/ (and proofs/) that keep an older form, a line for each kind of place; with -v each place.

usage: python3 tools/places.py [-v] [TREE]       TREE: the top of a checkout, by default this one
"""
import collections
import glob
import os
import re
import sys

verbose = "-v" in sys.argv
tops = [a for a in sys.argv[1:] if a != "-v"]
top = tops[0] if tops else os.path.dirname(os.path.dirname(os.path.abspath(__file__)))
os.chdir(top)
SOURCES = {p: open(p, encoding="utf-8").read() for p in sorted(glob.glob("crates/*/src/*.rt"))}


def bare(text):
    """Without comments and contracts."""
    text = re.sub(r"//[^\n]*", "", text)
    return re.sub(r"(?ms)^\s*(requires|ensures)( \w+)? \{.*?\}\n(?=\s*(requires|ensures|\{))", "", text)


def functions(text):
    """(name, signature, body) of each function."""
    for m in re.finditer(r"(?ms)^( *)(?:pub(?:\(crate\))? )?(?:extern \"C\" )?fn (\w+)([^{]*?)\{\n(.*?)^\1\}", text):
        yield m[2], m[3], m[4]


def count(kind, places):
    print(f"{len(places):5}  {kind}")
    if verbose:
        for p in places:
            print(f"         {p}")


# 1
enums = []
for p, s in SOURCES.items():
    for m in re.finditer(r"(?ms)^(?:pub )?enum (\w+) \{\n(.*?)^\}", s):
        variants = re.findall(r"(?m)^    (\w+)(\([^)]*\))?", m[2])
        held = [v for v in variants if v[1]]
        if len(variants) == 2 and held:
            enums.append(f"{p}: {m[1]} = {' | '.join(a + b for a, b in variants)}")
count("1. enums of two variants of which one holds a value (the shape of Option or Result)", enums)
flags = []
for p, s in SOURCES.items():
    for m in re.finditer(r"(?ms)^(?:pub )?struct (\w+) \{\n(.*?)^\}", s):
        fields = re.findall(r"(?m)^    (?:pub )?(\w+): ([^,\n]+),", m[2])
        if len(fields) > 1 and any(t in ("bool", "Section", "Begun") for _, t in fields):
            flags.append(f"{p}: {m[1]} {{ {', '.join(a + ': ' + t for a, t in fields)} }}")
count("1. structs with a flag, or an answer of such an enum, beside other fields", flags)
codes = []
for p, s in SOURCES.items():
    for n, sig, body in functions(bare(s)):
        if re.search(r"\bmatch \w+ \{\s*\d", body) or re.search(r"\bkind [<>=]=? ?\d|\bside [=!]= \d", body):
            codes.append(f"{p}: {n}")
        elif re.search(r"-> u8\b", sig) and set(re.findall(r"(?m)^\s*(?:return )?(\d+);?$", body)) >= {"0", "1"}:
            codes.append(f"{p}: {n}")
        elif "refusals::" in body and re.search(r"refusals::[A-Z_]+", body):
            codes.append(f"{p}: {n}")
count("1. functions that tell kinds, orders or refusals apart by numbers", codes)
nones = []
for p, s in SOURCES.items():
    for n, sig, body in functions(bare(s)):
        if re.search(r"(?m)^\s*(?:return |else \{ )?(?:numbers::)?NONE\b|\{ (?:numbers::)?NONE \}|\* 65536 \+ NONE|best = NONE", body):
            nones.append(f"{p}: {n}")
count("1. functions that give a number for none", nones)

# 2
shapes = collections.defaultdict(list)
for p, s in SOURCES.items():
    for n, sig, body in functions(bare(s)):
        names = {}

        def name(m):
            w = m[0]
            if w in ("if", "else", "while", "for", "in", "let", "mut", "return", "match", "as", "true", "false", "loop"):
                return w
            if re.match(r"(u8|u16|u32|u64|usize|\d)", w):
                return "T"
            return names.setdefault(w, f"x{len(names)}")

        shape = re.sub(r"[A-Za-z_][\w:]*|\d+", name, re.sub(r"\s+", " ", sig.split("->")[0] + body))
        if len(body.strip().split("\n")) >= 1 and len(shape) > 50:
            shapes[shape].append(f"{p}: {n}")
count("2. functions that have the shape of another but for types, constants and names", [", ".join(v) for v in shapes.values() if len(v) > 1 for _ in v[1:]])
count("2. uses of a function of small_numbers, one for each width", [f"{p}: {u}" for p, s in SOURCES.items() for u in re.findall(r"small_numbers::\w+", bare(s))])

# 3
loops, others = [], []
for p, s in SOURCES.items():
    for n, sig, body in functions(bare(s)):
        for m in re.finditer(r"(?m)^( *)while (.*?) \{\n", body):
            inner = body[m.end():]
            inner = inner[:re.search(rf"(?m)^{m[1]}\}}", inner).start()]
            by_one = [v for v in re.findall(rf"(?m)^{m[1]}    (\w+) [+-]= 1;", inner) if re.search(rf"\b{v}\b", m[2])]
            (loops if by_one else others).append(f"{p}: {n}: while {m[2]}")
count("3. while loops that count an index by one", loops)
count("3. other while loops", others)

# 4
hand = []
for p, s in SOURCES.items():
    for n, sig, body in functions(bare(s)):
        if re.search(r"^(same_|equal|compare$|is_word|begins_with|same$)", n) or re.search(r"^(verdict_number|outcome_number|answer_number|all_number|rounds_number)$", n):
            hand.append(f"{p}: {n}")
count("4. functions that compare or convert by hand", hand)

# 5
facts = collections.defaultdict(set)
params = collections.defaultdict(set)
for p, s in SOURCES.items():
    for m in re.finditer(r"(?ms)^ *(?:pub(?:\(crate\))? )?(?:extern \"C\" )?fn (\w+)(.*?)^ *\{\n", s):
        req = "".join(re.findall(r"(?ms)requires(?: \w+)? \{(.*?)\}\n", m[2]))
        for part in re.split(r" × |\n", req):
            part = re.sub(r"^\s*\(|\)\s*$", "", part.strip())
            part = re.sub(r"\.(now|old)\b", "", part)
            if part:
                facts[part].add(f"{p}: {m[1]}")
many = {k: v for k, v in facts.items() if len(v) >= 3}
count("5. facts that stand in the requires of three or more functions", [f"{len(v):3} {k}" for k, v in sorted(many.items(), key=lambda x: -len(x[1]))])
for p, s in SOURCES.items():
    for n, sig, body in functions(bare(s)):
        names = re.findall(r"(\w+): ([^,)\n]+)", sig.split("->")[0])
        for i in range(len(names) - 1):
            a, b = names[i], names[i + 1]
            params[f"{a[0]}: {a[1]}, {b[0]}: {b[1]}"].add(f"{p}: {n}")
together = {k: v for k, v in params.items() if len(v) >= 5}
count("5. neighbouring parameters that five or more functions have", [f"{len(v):3} {k}" for k, v in sorted(together.items(), key=lambda x: -len(x[1]))])

# 6
buffers = []
for p, s in SOURCES.items():
    for n, sig, body in functions(bare(s)):
        head = sig.split("->")[0]
        if re.search(r"\w+: (&mut |&)?\[\w+; [\w:]+\],\s*(k|n|count|rule_count|width)\b: ", head):
            buffers.append(f"{p}: {n}")
count("6. functions that take an array with how much of it counts beside it", buffers)

# 7
switches = []
for p, s in SOURCES.items():
    for n, sig, body in functions(bare(s)):
        if re.search(r"\w+: bool\b", sig.split("->")[0]):
            switches.append(f"{p}: {n}")
count("7. functions that a bool argument switches", switches)

# 8
whole = glob.glob("crates/*/proofs/**/Proof.antt", recursive=True)
count("8. proofs that list the answer to every goal (Proof.antt)", whole)
text = "".join(open(f, encoding="utf-8").read() for f in whole)
kept = "".join(open(f, encoding="utf-8").read() for f in glob.glob("crates/*/proofs/**/Answers.antt", recursive=True))
answers = len(re.findall(r"(?m)^\S+ : tie\.Need", text)) + len(re.findall(r"(?m)^pub \S+ : goal\.", kept))
print(f"{answers:5}  8. answers to goals")
print(f"{len(re.findall(r'(?m)^[^ ].* = search rules$', text + kept)):5}  8. of these the search alone")
