#!/usr/bin/env python3
"""Turns the names that Rattle makes, in each Proof.antt of a crate, to today's.

usage: python3 tools/turn_proofs.py CRATE..       at the top; the crates below must prove

The names come from `rt check --generated DIR --old-names`. What stands behind a stage of a function, as `c.before.before.args`, is led there anew by the name
of the step, since a stage may lie further in or out than it did. A stage that a `let` or a function names is written out.
"""
import glob
import json
import os
import re
import subprocess
import sys

ROOT = os.getcwd()
ID = r"[^\s(){}.;,@\"«»:=λ]+"
START = ("args", "requires", "pre", "well_formed", "lifetimes", "ranges", "entry", "type_inv", "utf8")


def norm(n):
    n = re.sub(r"(?<=[_-])Is([A-Z])", lambda m: m[1].lower(), n.replace("_", "-"))
    n = re.sub(r"-lem$", "", n)
    for p in ("overflow-", "nonzero-"):
        if n.startswith(p):
            n = n[len(p):]
    return n


def parts(ty):
    """The arguments of a type, split at arrows outside brackets."""
    out, depth, cur, i = [], 0, "", 0
    while i < len(ty):
        ch = ty[i]
        if ch in "({[":
            depth += 1
        if ch in ")}]":
            depth -= 1
        if ch == "→" and depth == 0:
            out.append(cur.strip())
            cur = ""
        else:
            cur += ch
        i += 1
    out.append(cur.strip())
    # several binders with no arrow between
    flat = []
    for p in out[:-1]:
        while True:
            m = re.match(r"^(\((?:[^()]|\((?:[^()]|\([^()]*\))*\))*\)|\{[^{}]*\})\s*(?=[({])", p)
            if not m:
                break
            flat.append(m[1])
            p = p[m.end():].strip()
        flat.append(p)
    return flat, out[-1]


class Function:
    def __init__(self, crate, path, j, text):
        self.j, self.text, self.said = j, text, []
        self.label = f"{crate} {path}"
        self.fn = path.split(".")[-1]
        self.tree = {}
        self.arms = {}
        for (a, parent, (so, sn), callee, more), b, arm in zip(j["places"], j["places_by_name"], j["arms"]):
            if arm:
                self.arms[norm(a)] = arm
            self.tree[norm(a)] = (norm(parent) if parent else None, norm(so), sn, b, callee)
        self.needs = [(norm(a), b, norm(p[0])) for (a, b), p in zip(j["needs"], j["asked_at"])]
        self.loops = {norm(a): b for (a, b), _ in j["loops"]}
        self.helpers, self.stages = {}, {}

    def depth(self, a, b):
        k = 0
        while a != b:
            up = self.tree.get(a)
            if not up or up[0] is None:
                return None
            one, other = self.arms.get(a), self.arms.get(up[0])
            a, k = up[0], k + (not (one and other and one[0] == other[0]))
        return k

    def at_step(self, place, step):
        """(how far out, the step's new name) from a place."""
        k, at = 0, place
        while at:
            up = self.tree.get(at)
            if not up:
                return None
            if up[0] is None and step in START:
                self.found = at
                return k, {"pre": "requires"}.get(step, step)
            if up[1] and up[1].lower() == norm(step).lower():
                self.found = at
                return k, up[2]
            at, k = up[0], k + 1
        return None

    def place_of(self, ty):
        m = re.match(r"\(?tie\.([A-Z][^\s()]*)", ty)
        return norm(m[1]) if m and norm(m[1]) in self.tree else None

    def turn(self):
        text = self.text
        chunks = re.split(r"(?m)^(?=\S)", text)
        # join a signature with its definition lines
        decls, order = [], []
        for ch in chunks:
            m = re.match(rf"((?:abbrev |pub |unfoldable )*)({ID}) :", ch)
            if m and not ch.startswith(("--", "use ")):
                decls.append([m[2], ch, "", m[1]])
                order.append(decls[-1])
            elif decls and not ch.startswith(("--", "use ")) and (ch.startswith(decls[-1][0]) or ch.startswith("unfolding") or ch.startswith("where")):
                decls[-1][2] += ch
            else:
                order.append(ch)
        # shapes that are no longer asked
        if len(re.search(r"tie\.spec\s+([^)]*)\)", text)[1].split()) != 2 * len(self.loops) + len(self.needs):
            known = {a for a, b, p in self.needs}
            for it in list(decls):
                m = re.search(r"tie\.Need-(slice-aggregate[^\s()]*)", it[1])
                if m and norm(m[1]) not in known:
                    decls.remove(it)
                    order.remove(it)
                    for x in decls:
                        x[2] = re.sub(rf"(?m)^ +{re.escape(it[0])}(\)?)$\n?|(?<=[ ]){re.escape(it[0])}(?=[ )])", lambda q: q[1] or "", x[2]) if "tie.spec" in x[2] else x[2]
            text = "".join(x if isinstance(x, str) else x[1] + x[2] for x in order)
        # what tie.spec takes
        m = re.search(r"tie\.spec\s+([^)]*)\)", text)
        given = m[1].split() if m else []
        nl = len(self.loops)
        positional = {}
        if len(given) == 2 * nl + len(self.needs):
            for n, need in zip(given[2 * nl:], self.needs):
                positional[n] = need
        by_name = {a: (a, b, p) for a, b, p in self.needs}
        used, need_of = [], {}
        for name, sig, body, mods in decls:
            m = re.search(r"tie\.Need-([^\s()]+)", sig)
            if m:
                need = positional.get(name) or by_name.get(norm(m[1]))
                if not need:
                    self.said.append(f"no Need-{m[1]}")
                    continue
                if norm(m[1]) != need[0] and norm(m[1]) in by_name:
                    self.said.append(f"{m[1]} stands where {need[0]} does")
                    need = by_name[norm(m[1])]
                need_of[name] = need
                continue
            ps, res = parts(sig.split(" :", 1)[1])
            if len(ps) == 1 and self.place_of(ps[0]) and self.place_of(res):
                self.stages[name] = self.place_of(res)
                continue
            places = []
            for p in ps:
                if p.startswith("{"):
                    continue
                m = re.match(r"\(([^:]*) : (.*)\)$", p, re.S)
                if m:
                    places += [self.place_of(m[2])] * len(m[1].split())
                else:
                    places.append(self.place_of(p))
            if any(places):
                self.helpers[name] = places
        if len(given) != 2 * nl + len(self.needs):
            self.said.append(f"tie.spec takes {2 * nl + len(self.needs)}, given {len(given)}")
        out = []
        for it in order:
            if isinstance(it, str):
                out.append(it)
                continue
            name, sig, body, mods = it
            if name in self.stages:
                continue
            if name in need_of:
                a, b, place = need_of[name]
                sig = re.sub(r"tie\.Need-[^\s()]+", f"tie.Need-{b}", sig)
                roots = [place]
            elif name in self.helpers:
                roots = self.helpers[name]
            else:
                roots = []
            env = {}
            # binders with names in the signature
            for m in re.finditer(rf"\(([^():]*) : (tie\.[^()]*)\)", sig):
                for v in m[1].split():
                    if self.place_of(m[2]):
                        env[v] = (v, self.place_of(m[2]))
            sig = self.flatten(sig, dict(env))
            sig = re.sub(r"tie\.([A-Za-z][^\s()]*)", self.tie, sig)
            new = ""
            for cl in re.split(rf"(?m)^(?={re.escape(name)}[ \n])", body):
                m = re.match(rf"{re.escape(name)}((?: +(?:{ID}|\{{[^{{}}]*\}}|\([^()]*\)))*) *=", cl)
                e = {}
                if m and roots:
                    vs = [v for v in re.findall(rf"\{{[^{{}}]*\}}|\([^()]*\)|{ID}", m[1]) if not v.startswith("{")]
                    for v, p in zip(vs, roots):
                        if p and re.fullmatch(ID, v):
                            e[v] = (v, p)
                    head, rest = cl[:m.end()], cl[m.end():]
                    rest = self.flatten(rest, e)
                    cl = head + rest
                cl = re.sub(r"tie\.([A-Za-z][^\s()]*)", self.tie, cl)
                new += cl
            out.append(sig + new)
        new = "".join(out)
        m = re.search(r"(?m)^pub (\S+) : \{M : Type 1\} → statement M", new)
        if m and m[1] != f"{self.fn}_spec":
            new = re.sub(rf"(?<![\w-]){re.escape(m[1])}(?![\w-])", f"{self.fn}_spec", new)
        return re.sub(r"\n{3,}", "\n\n", new)

    def tie(self, m):
        w = m[1]
        if w in ("close", "spec") or w.startswith("Need-"):
            return m[0]
        for head in ("invariant-", "decreases-"):
            if w.startswith(head):
                rest = norm(w[len(head):])
                if rest in self.loops:
                    return f"tie.{head}{self.loops[rest]}"
                self.said.append(f"no {w}")
                return m[0]
        if norm(w) in self.tree:
            return "tie." + self.tree[norm(w)][3]
        self.said.append(f"no place {w}")
        return m[0]

    def news(self, text):
        """Names what a call left in a reference, which had a number."""
        callees = {sn: callee for parent, so, sn, b, callee in self.tree.values() if callee}
        by = dict(callees)
        for m in re.finditer(rf"let ({ID}) = [^\s(){{}};,]*?\.([^\s.(){{}};,]+)\s+in(?=\s)", text):
            if m[2] in callees:
                by[m[1]] = callees[m[2]]

        def one(m):
            name = m[1]
            params = self.j["params"].get(by[name]) or []
            i = m[2].count("1")
            if i < len(params):
                return f"{name}.new.{params[i]}"
            self.said.append(f"{m[0]} of {by[name]}")
            return m[0]

        if not by:
            return text
        names = "|".join(sorted(map(re.escape, by), key=len, reverse=True))
        return re.sub(rf"(?<![^\s(),;{{}}.])({names})\.(?:new|last)((?:\.1)*)\.0(?![\w-])", one, text)

    def flatten(self, text, env):
        """Writes stages of the variables of env out: env maps a variable to (root, place of the root); an alias has a third part, its own place or None."""
        if not env:
            return text
        for _ in range(60):
            names = "|".join(sorted(map(re.escape, env), key=len, reverse=True))
            fs = "|".join(sorted(map(re.escape, self.stages), key=len, reverse=True)) or "(?!)"
            q = re.search(rf"\(({fs}) ({names})((?:\.before)*)\)", text)
            while q and re.search(rf"(?:{fs}) $", text[:q.start()]):
                text = text[:q.start()] + q[2] + text[q.end():]
                q = re.search(rf"\(({fs}) ({names})((?:\.before)*)\)", text)
            m = re.search(rf"let ({ID}) = (?:({fs}) )?\(?({names})((?:\.before)*)\)?\s+in(?=\s)[ ]?", text)
            if not m:
                break
            x, f, v, chain = m[1], m[2], m[3], m[4]
            root = env[v]
            env[x] = (root[0], root[1], self.stages.get(f) if f else (root[2] if len(root) > 2 and not chain else None))
            text = text[:m.start()] + text[m.end():]
            # a line that only had the let
            text = re.sub(r"(?m)^[ \t]+\n", "", text)
        names = "|".join(sorted(map(re.escape, env), key=len, reverse=True))
        fs = "|".join(sorted(map(re.escape, self.stages), key=len, reverse=True)) or "(?!)"
        # a stage by a function of a function
        for _ in range(9):
            m = re.search(rf"\(({fs}) \(({fs}) ({names})((?:\.before)*)\)\)", text)
            if not m:
                break
            text = text[:m.start()] + f"({m[1]} {m[3]})" + text[m.end():]
        ref = rf"(?:\(({fs}) ({names})((?:\.before)*)\)|(?<![^\s(),;{{}}])({names}))((?:\.before)*)(\.[A-Za-z_][^\s(){{}}.;,@]*)?(?![^\s(){{}}.;,@])((?:\.[^\s(){{}}.;,@]+)*)"

        def one(m):
            f, v = m[1], m[2] or m[4]
            root = env[v]
            step = m[6]
            if step and step != ".before":
                found = self.at_step(root[1], step[1:])
                if not found:
                    self.said.append(f"no {step} out of {root[1]}")
                    return m[0]
                rest = m[7]
                arm = self.arms.get(self.found)
                if arm:
                    steps = rest.split(".")[1:]
                    best = None
                    for new, old, way in arm[2]:
                        if norm(old).lower() == norm(step[1:]).lower() and steps[:len(way)] == way and (best is None or len(way) > len(best[1])):
                            best = new, way
                    if not rest and any(norm(old).lower() == norm(step[1:]).lower() and way for new, old, way in arm[2]):
                        return root[0] + "." + arm[0]
                    if best and best[1]:
                        return ".".join([root[0], arm[0], best[0], *steps[len(best[1]):]])
                return root[0] + "." + found[1] + rest
            # bare: a stage that a helper takes
            if m[7]:
                self.said.append(f"odd {m[0]}")
                return m[0]
            place = self.stages.get(f) if f else (root[2] if len(root) > 2 else None)
            if (m[5] or m[3]) and not (f and not m[5]):
                place = None
            if place is None and not (m[5] or m[3]) and len(root) == 2:
                place = root[1] if v == root[0] else None
            # what takes it
            before = text[:m.start()]
            best = None
            for h in self.helpers:
                for q in re.finditer(rf"(?<![^\s(),;{{}}]){re.escape(h)}(?![^\s(),;{{}}])", before):
                    if best is None or q.start() > best[0]:
                        best = (q.start(), h, before[q.end():])
            if best and not re.search(r"[;\n]\s*\n|→", best[2]):
                ps = [p for p in self.helpers[best[1]] if p]
                if ps:
                    place = ps[0] if len(set(ps)) == 1 else place
            if place is None:
                self.said.append(f"bare {m[0]}")
                return m[0]
            k = self.depth(root[1], place)
            if k is None:
                self.said.append(f"{place} is not around {root[1]}")
                return m[0]
            return root[0] + ".before" * k

        text = re.sub(ref, one, text)
        text = self.news(text)
        for m in list(re.finditer(rf"let ({ID}) = [^\s(){{}};,]*?\.([^\s.(){{}};,]+)\s+in(?=\s)", text)):
            ways = {".".join(way): new for arm in self.arms.values() if arm[0] == m[2] for new, old, way in arm[2] if way}
            for way in sorted(ways, key=len, reverse=True):
                text = re.sub(rf"(?<![^\s(),;{{}}]){re.escape(m[1])}\.{re.escape(way)}(?![\w-])", f"{m[1]}.{ways[way]}", text)
        text = re.sub(r"not-(?:true|false) (?:_|[^\s(),;]+) ([^\s(),;]+\.if[^\s(),;.]*\.(?:true|false))(?![\w-])", r"\1", text)
        text = re.sub(r"(\.loop[^\s(){}.;,]*|(?<![^\s(),;]l))\.inv(?![\w-])", r"\1.invariant", text)
        text = re.sub(r"(\.if[^\s(){}.;,]*)\.branch(?![\w-])", r"\1.branch-raw", text)
        text = re.sub(r"(\.in-[^\s(){}.;,]*)\.keys\d*(?![\w-])", r"\1.is", text)
        text = re.sub(r"(\.(?:if|loop)[^\s(){}.;,]*)\.taken(?![\w-])", r"\1.true", text)
        return re.sub(r"(\.(?:if|loop)[^\s(){}.;,]*)\.left(?![\w-])", r"\1.false", text)


def turn(crate, only=()):
    d = f"/tmp/names-{crate}"
    subprocess.run(["rm", "-rf", d])
    subprocess.run(["rt", "check", "--generated", d, "--old-names"], cwd=f"{ROOT}/crates/{crate}", stdout=subprocess.PIPE, stderr=subprocess.STDOUT)
    if not os.path.isfile(f"{d}/names.json"):
        print(f"{crate}: no names.json")
        return
    names = json.load(open(f"{d}/names.json"))
    for f in sorted(glob.glob(f"{ROOT}/crates/{crate}/proofs/**/Proof.antt", recursive=True)):
        path = os.path.relpath(os.path.dirname(f), f"{ROOT}/crates/{crate}/proofs").replace("/", ".")
        if only and path not in only:
            continue
        key = f"Rattle-{crate}-proofs.{path}.Lts"
        if key not in names:
            print(f"{crate} {path}: not in names.json")
            continue
        text = open(f, encoding="utf-8").read()
        if "Tie as tie" not in text:
            continue
        it = Function(crate, path, names[key], text)
        new = it.turn()
        if new != text:
            open(f, "w", encoding="utf-8").write(new)
        if it.said:
            print(f"{it.label}: {'; '.join(dict.fromkeys(it.said))}")


if __name__ == "__main__":
    for c in sys.argv[1:]:
        turn(c)
