#!/usr/bin/env python3
"""Spells the repository's own definitions and lemmas as today's Rattle does: words in snake case with plain underscores, types in camel case.

usage: python3 tools/respell_names.py        once, at the top, right after port.py

The names are those that the files of specs/ and of proofs/ itself declare, fields and constructors among them. Functions, types and constants of src/ keep
their names, and so do texts. A name whose new spelling another name of the repository has, or that a file which uses it has as another word, gets the
ending `_lem`; each such name is printed. Contracts, proofs, comments' code spans and the pages turn by the kit's own snake.py.
"""
import glob
import os
import re
import subprocess
import sys
import tempfile

SNAKE = "/opt/rattle/port/notes/2026-11-18-names-are-in-snake-case/snake.py"
WORD = re.compile(r'[^\s(){}.;,@"«»]+')
DECLARED = re.compile(r"^( *)((?:(?:abbrev|unfoldable|opaque|pub|record|data|package) )*)([^\s:(){}\[\].,;]+)((?: +[^\s:=]+| *\([^()]*(?:\([^()]*\)[^()]*)*\)| *\{[^{}]*\})*) :(?= |$)", re.M)
OF_A_LIBRARY = re.compile(r"(?:^|\n)(?:pub )?(?:ghost )?use (?:Rattle\.(?:std|core|std_alloc|std_heap|std_io|std_collections)\.|mathlib|native|lib\.|Prim|borrow|seplogic|logic|meta|cubical)[^\n]*?\{([^}]*)\}")


def spelled(name):
    if not name[0].isupper():
        name = re.sub(r"(?<=[a-z0-9])[A-Z]", lambda m: "_" + m[0].lower(), name)
    return name.replace("-", "_")


def bare(text):
    """The text without comments."""
    return re.sub(r"(?m)(?<![^\s(){}.;,@])--.*$", "", text)


def main():
    specs = sorted(glob.glob("crates/*/specs/**/*.antt", recursive=True))
    lemmas = sorted(glob.glob("crates/*/proofs/*.antt"))
    texts = {f: open(f, encoding="utf-8").read() for f in specs + lemmas}
    own = set()
    for f, text in texts.items():
        if f.endswith("/Lib.antt"):
            continue
        for m in DECLARED.finditer(bare(text)):
            name = m[3]
            if name[0] in "-=|λ" or "◌" in name or "→" in name or name in ("where", "let", "elim", "in"):
                continue
            own.add(name)
    turned = {n: spelled(n) for n in own if spelled(n) != n}
    every = glob.glob("crates/*/specs/**/*.antt", recursive=True) + glob.glob("crates/*/proofs/**/*.antt", recursive=True) + glob.glob("crates/*/src/*.rt")
    # new spellings that fall together: the lemma gets the ending, and so does a definition whose new spelling a file that uses it has as a variable
    ends = {}
    olds = {}
    for n, new in turned.items():
        olds.setdefault(new, []).append(n)
    for new, names in sorted(olds.items()):
        free = new not in own
        for n in sorted(names, key=lambda it: ("-" in it, it)):
            if not free:
                ends[n] = "another name of the repository"
            free = False
    for f in every:
        text = open(f, encoding="utf-8").read()
        if f.endswith(".antt"):
            text = re.sub(r"(?m)^(?:pub )?use .*$", "", bare(text))
            words = set(re.findall(r'(?<![^\s(){},;@"«»])' + WORD.pattern, text))
            taken = words
        else:
            words = set(WORD.findall(text))
            taken = set(re.findall(r"\b(\w+)\s*:(?!:)", re.sub(r"//.*", "", text)))
        for w in words & turned.keys():
            if turned[w] in taken and w not in ends:
                ends[w] = f
    for n in sorted(ends):
        turned[n] += "_lem"
        print(f"{n}\t{turned[n]}\t{ends[n]}")
    news = list(turned.values())
    for n, new in turned.items():
        if news.count(new) > 1 or new in own:
            print(f"falls together: {n} {new}")
    with tempfile.NamedTemporaryFile("w", suffix=".tsv", delete=False) as table:
        table.write("".join(f"{a}\t{b}\n" for a, b in sorted(turned.items())))
    pages = glob.glob("docs/*.md") + ["README.md"]
    r = subprocess.run([sys.executable, SNAKE, "--table", table.name, "--only", "antt,rt,md", "crates", *pages], stdout=subprocess.PIPE, stderr=subprocess.STDOUT, text=True)
    # a word that a file takes from a library keeps the library's spelling there
    before = {}
    for a, b in turned.items():
        before.setdefault(b, a)
    for f in every:
        text = open(f, encoding="utf-8").read()
        taken = {it.strip().split(" as ")[0].strip() for m in OF_A_LIBRARY.finditer(text) for it in m[1].split(",")}
        back = {it: before[it] for it in taken if it in before}
        if back:
            with open(f, "w", encoding="utf-8") as it:
                it.write(WORD.sub(lambda m: back.get(m[0], m[0]), text))
    with open("/tmp/respell-said.txt", "w") as it:
        it.write(r.stdout)
    print(r.stdout[-1500:])
    print(f"{len(turned)} names, {len(ends)} with the ending; snake.py ended with {r.returncode}; the table is {table.name}")


main()
