#!/usr/bin/env python3
"""Makes crates.txt name only what a crate's code calls, what its proofs take from generated modules, and what no other dependency leads to.

usage: python3 tools/lean_deps.py        once, at the top

`rt` walks over every way that leads from a crate to those below it, so that a list of all that a crate cites makes it slow. A module of specs/ that a crate
cites of a library that it no longer names comes from one that it names, which passes it on by a line `pub use` in its specs/Lib.antt.
"""
import functools
import glob
import os
import re

LINES = open("crates.txt", encoding="utf-8").read().split("\n")
D = {}
for line in LINES:
    line = line.split("#")[0].strip()
    if line:
        name, deps = line.split(":")
        D[name.split()[0]] = deps.split()


def files(crate):
    return glob.glob(f"crates/{crate}/specs/**/*.antt", recursive=True) + glob.glob(f"crates/{crate}/proofs/**/*.antt", recursive=True) + glob.glob(f"crates/{crate}/src/*.rt")


def text_of(f):
    return open(f, encoding="utf-8").read()


@functools.lru_cache(None)
def below(c):
    return frozenset(x for d in D.get(c, []) for x in {d, *below(d)})


needed = {}
cited = {}
for c in D:
    code, all_text = "", ""
    for f in files(c):
        t = text_of(f)
        all_text += t
        if f.endswith(".rt"):
            code += re.sub(r"ghost use [^;]*;", "", re.sub(r"//.*", "", t))
    called = {d for d in D[c] if re.search(rf"\b{d}::", code)}
    made = {d for d in D[c] if re.search(rf"Rattle\.{d}\.(specs\.declared|proofs|specs\.contracts)\b", all_text)}
    covers = {d for d in D[c] if not any(d in below(e) for e in D[c] if e != d)}
    needed[c] = [d for d in D[c] if d in called or d in made or d in covers]
    cited[c] = {(x, m) for x, m in re.findall(r"Rattle\.(\w+)\.specs\.(\w+)", all_text) if x in D and x != c and m != "declared"}

own = {c: {os.path.basename(f)[:-5] for f in glob.glob(f"crates/{c}/specs/*.antt")} - {"Lib"} for c in D}
passed = {c: {} for c in D}  # module -> (library, from)


@functools.lru_cache(None)
def reach(c):
    return frozenset(x for d in needed.get(c, []) for x in {d, *reach(d)})


@functools.lru_cache(None)
def far(c, x):
    """The length of the shortest way from c to x."""
    return 0 if c == x else 1 + min((far(d, x) for d in needed.get(c, []) if d == x or x in reach(d)), default=10**6)


def provide(c, x, m):
    """Makes c name (x, m), and returns the library by which it does."""
    if x in needed[c]:
        return x
    for d in sorted((d for d in needed[c] if x in reach(d)), key=lambda d: (passed[d].get(m, (None,))[0] != x, far(d, x), needed[c].index(d))):
        if m in own[d] or passed[d].get(m, (x,))[0] != x:
            continue
        if m not in passed[d]:
            by = provide(d, x, m)
            passed[d][m] = (x, by)
        return d
    needed[c].append(x)
    return x


order = sorted(D, key=lambda c: len(below(c)))
reach.cache_clear()
ways = {c: {(x, m): provide(c, x, m) for x, m in sorted(cited[c])} for c in order}
for c in order:
    for f in files(c):
        t = text_of(f)
        new = re.sub(r"Rattle\.(\w+)\.specs\.(\w+)", lambda m: f"Rattle.{ways[c][m[1], m[2]]}.specs.{m[2]}" if (m[1], m[2]) in ways[c] else m[0], t)
        if new != t:
            open(f, "w", encoding="utf-8").write(new)
    if passed[c]:
        lib = f"crates/{c}/specs/Lib.antt"
        os.makedirs(os.path.dirname(lib), exist_ok=True)
        t = text_of(lib) if os.path.isfile(lib) else ""
        open(lib, "w", encoding="utf-8").write("".join(f"pub use Rattle.{by}.specs.{m}\n" for m, (x, by) in sorted(passed[c].items())) + t)


def lean(line):
    name = line.split("#")[0].split(":")[0].split()
    return line.split(":")[0] + ":" + "".join(f" {d}" for d in needed[name[0]] + [d for d in D[name[0]] if d not in D and d not in needed[name[0]]]) if name and name[0] in D else line


open("crates.txt", "w", encoding="utf-8").write("\n".join(map(lean, LINES)))


@functools.lru_cache(None)
def count(c):
    return 1 + sum(count(d) for d in needed.get(c, []))


print(f"{sum(map(len, D.values()))} names of libraries became {sum(map(len, needed.values()))}; {sum(map(len, passed.values()))} modules are passed on; ways: {sum(map(count, D))}")
