#!/usr/bin/env python3
"""Turns the proofs that walked the code, proofs/F/Proof.antt, into the forms of today's Rattle: Invariants.antt and Answers.antt.

usage: tools/answers.py NAMES CRATE [F]..

NAMES is a folder in which NAMES/CRATE/names.json is what `rattle check --generated --old-names` wrote of the crate: the goals' old and new names.
An answer that only searches goes, since the check searches anyway. What the script could not turn is told in lines 'left:'.
"""
import json
import os
import re
import sys

SEG = r"[^\s(){}.,;@\"\[\]]+"
WORD = r"[^\s(){}.,;@\"\[\]=]+"


def norm(name):
    return name.replace("_", "-").strip("«»")


def chunks(text):
    """The declarations of a file, each with the comments in front of it."""
    out, now = [], []
    for line in text.split("\n"):
        if line and not line[0].isspace() and now and not starts_more(now, line):
            out.append("\n".join(now).strip("\n"))
            now = []
        now.append(line)
    if now:
        out.append("\n".join(now).strip("\n"))
    return [c for c in out if c.strip()]


def starts_more(now, line):
    """Whether the line goes on with what `now` began: comments, the signature, `unfolding`, the clauses, a closing bracket."""
    body = [it for it in now if it.strip()]
    if not body:
        return True
    if all(it.startswith("--") for it in body):
        return bool(now[-1].strip())
    head = next((it for it in body if not it.startswith("--")), "")
    name = declared(head)
    if line.startswith("--"):
        return False
    if line.startswith(("unfolding ", "}", ")", "]")):
        return True
    if head.startswith("use "):
        return head.count("{") > head.count("}") and not any("}" in it for it in body)
    if name and re.match(re.escape(name) + r"(\s|$)", line) and not re.match(re.escape(name) + r"\s+(\{.*\}\s+)?:", line):
        return True
    return False


def declared(head):
    m = re.match(r"(?:(?:pub|abbrev|unfoldable|pattern)\s+)*(" + SEG + r")\s*(?:\{[^}]*\}\s*)?(?:\(.*\)\s*)?:\s", head)
    return m[1] if m else None


class Turn:
    def __init__(self, x, path):
        self.x, self.path, self.left = x, path, []
        self.place = {norm(p[0]): p for p in x["places"]}
        self.index = {norm(p[0]): i for i, p in enumerate(x["places"])}
        self.new_place = {norm(p[0]): n for p, n in zip(x["places"], x["places_by_name"])}
        self.new_place |= {norm(a): b for a, b in x["asked_at"]}
        self.need = {norm(a): b for a, b in x["needs"]}
        self.at = {norm(a): norm(b[0]) for (a, _), b in zip(x["needs"], x["asked_at"])}
        self.loop = {norm(a): b for (a, b), _ in x["loops"]}
        self.vars = {norm(a): v for (a, _), v in x["loops"]}
        self.changed = {norm(a): c for ((a, _), _), c in zip(x["loops"], x["changed"])}
        self.returns = {}
        self.locals = {}
        self.helpers = {}
        self.wants = set()
        self.roots = {}

    def nested(self, text, env):
        """A record handed through words that give places: how long it is, and what it is of."""
        m = re.match(r"\s+", text)
        at = m.end() if m else 0
        if not text[at:].startswith("("):
            return None
        depth, end = 0, None
        for i, ch in enumerate(text[at:]):
            depth += ch == "("
            depth -= ch == ")"
            if depth == 0:
                end = at + i + 1
                break
        if end is None:
            return None
        words = re.findall(SEG + r"(?:\." + SEG + r")*", text[at:end])
        heads = [w.split(".")[0] for w in words]
        if words and all(h in self.returns for h in heads[:-1]) and heads[-1] in env:
            return end, env[heads[-1]][0]
        return None

    def lets(self, root):
        """The words of the file that an answer wants, as `let`s of its record `root`, and what they unfold."""
        done, unfold = [], []
        waiting = set(self.wants)
        while waiting:
            name = waiting.pop()
            if name in done:
                continue
            done.append(name)
            self.wants = set()
            self.made(name, root)
            waiting |= self.wants - set(done)
        out = ""
        for name in [n for n in self.helpers if n in done]:
            sort, body, more, note = self.made(name, root)
            unfold += more
            out += note + (f"    let {name} : {sort} = {body} in\n" if sort else f"    let {name} = {body} in\n")
        self.wants = set()
        return out, unfold

    def made(self, name, root):
        params, sort, body, more, place, note = self.helpers[name]
        env = {params[0]: place}
        def own(text):
            text = self.body(text, env)
            return re.sub(r"(?<![\w.'₀-₉-])" + re.escape(params[0]) + r"(?=[.\s)])", root, text) if params[0] != root else text
        b = own(body.strip())
        if len(params) > 1:
            b = f"λ {' '.join(params[1:])}. {b}"
        b = b.replace("\n", "\n    ")
        return (" ".join(own(sort.strip()).split()) if sort else None), b, more, note

    def step(self, place, seg):
        """The place at or above `place` whose step is spelled `seg`."""
        while place:
            p = self.place.get(place)
            if p is None:
                return None
            if norm(p[2][0]).lower() == norm(seg).lower() and p[2][0]:
                return place
            place = norm(p[1]) if p[1] else None
        return None

    def resolve(self, var, place, segs):
        """`var.segs` as it is spelled now, and the place that it is, if it is one."""
        at, i = place, 0
        while i < len(segs) and segs[i] == "before":
            above = self.place[at][1] if at in self.place else None
            if above is None:
                break
            at = norm(above)
            i += 1
        while i < len(segs) and segs[i] == "before":
            i += 1
        rest = segs[i:]
        if not rest:
            return var + ".before" * i, at
        s = rest[0]
        if s == "pre":
            rest[0] = s = "requires"
        if s in ("args", "requires", "ranges", "lifetimes", "well_formed"):
            if s == "args" and len(rest) > 1:
                rest[1] = rest[1].replace("-", "_")
            return var + "." + ".".join(rest), None
        # the old names are one for each step, so the step is found from where the goal stands
        found = self.step(self.roots.get(var, at), s) or self.step(at, s) or self.step(place, s)
        if found is None:
            self.left.append(f"{var}.{'.'.join(segs)}: no step {s} at {at}")
            return var + "." + ".".join(rest), None
        p = self.place[found]
        new = p[2][1]
        # what an arm names: the longest old path that fits
        arm = None
        for a, b in zip(self.x["places"], self.x["arms"]):
            if b and norm(a[0]) in self.above(place):
                for field in b[2]:
                    if norm(field[1]) == norm(s) and rest[1 : 1 + len(field[2])] == field[2] and field[2] and not field[0].endswith("-own"):
                        if arm is None or len(field[2]) > len(arm[2]):
                            arm = (b[0], field[0], field[2])
        if arm:
            return ".".join([var, arm[0], arm[1], *rest[1 + len(arm[2]) :]]), None
        tail = rest[1:]
        if tail and not p[0].startswith("Joined") and new.startswith(("if-", "loop-")) and tail[0] in ("left", "taken"):
            tail = [{"left": "false", "taken": "true"}[tail[0]]] + tail[1:]
        if len(tail) > 1 and tail[0] in ("new", "auto", "last") and p[3] in self.x["params"]:
            k = 0
            while k + 1 < len(tail) and tail[1 + k] == "1":
                k += 1
            params = self.x["params"][p[3]]
            if tail[1 + k] == "0" and k < len(params):
                tail = [tail[0], params[k]] + tail[2 + k :]
        if tail:
            for a, b in p[4]:
                if tail[0] == a:
                    tail = [b] + tail[1:]
                    break
        c = self.x["clauses"][self.index[found]]
        if c and c.get("fields") and len(tail) > 1 and tail[0] == "ensures" and tail[1].isdigit():
            k = int(tail[1])
            if k < len(c["fields"]):
                tail = ["ensures", c["fields"][k]] + tail[2:]
        return ".".join([var, new, *tail]), None

    def above(self, place):
        out = set()
        while place and place in self.place:
            out.add(place)
            p = self.place[place]
            place = norm(p[1]) if p[1] else None
        return out

    def body(self, text, env):
        """The text of an answer. env: the records by their names, each with the name that it stands for, how far above it and its place."""
        self.roots = dict(env)
        env = {k: (k, 0, v) for k, v in env.items()}
        pos, out = 0, []
        path = re.compile(r"(?:\(((?:" + SEG + r")) ([^()]*)\)|(?<![\w.'₀-₉-])(" + SEG + r"))((?:\." + SEG + r")*)")
        while True:
            m = path.search(text, pos)
            if not m:
                out.append(text[pos:])
                break
            out.append(text[pos : m.start()])
            pos = m.end()
            deep = re.match(r"\((" + SEG + r")(?=\s+\()", text[m.start() - 1 :]) if m.start() and text[m.start() - 1] == "(" else None
            if deep and deep[1] in self.returns and m[3] == deep[1]:
                got = self.nested(" " + text[m.start() - 1 :], env)
                if got:
                    end = m.start() - 1 + got[0] - 1
                    segs = re.match(r"(?:\." + SEG + r")+", text[end:])
                    if segs:
                        new, at = self.resolve(got[1], self.returns[deep[1]], segs[0][1:].split("."))
                        end += segs.end()
                    else:
                        new, at = got[1], self.returns[deep[1]]
                    out[-1] = out[-1][:-1]
                    let = re.search(r"let\s+(" + WORD + r")\s*=\s*$", "".join(out))
                    behind = re.match(r"\s+in\b\s*", text[end:])
                    if let and at and behind:
                        env[let[1]] = (got[1], 0, at)
                        out = ["".join(out)[: let.start()]]
                        pos = end + behind.end()
                        continue
                    out.append(got[1] if at else new)
                    pos = end
                    continue
            if m[1]:
                inner = m[2].split(".")[0].strip()
                if m[1] in self.returns and inner in env:
                    root = env[inner][0]
                    segs = m[4][1:].split(".") if m[4] else []
                    if segs:
                        new, at = self.resolve(root, self.returns[m[1]], segs)
                    else:
                        new, at = root, self.returns[m[1]]
                    let = re.search(r"let\s+(" + WORD + r")\s*=\s*$", "".join(out))
                    behind = re.match(r"\s+in\b\s*", text[pos:])
                    if let and at and behind:
                        env[let[1]] = (root, 0, at)
                        out = ["".join(out)[: let.start()]]
                        pos += behind.end()
                        continue
                    out.append(root if at else new)
                elif m[1] in self.helpers and inner in env and m[4] and re.fullmatch(SEG + r"(\." + SEG + r")*", m[2].strip()):
                    self.wants.add(m[1])
                    out.append(m[1] + m[4])
                else:
                    out.append("(")
                    pos = m.start() + 1
                continue
            word, segs = m[3], m[4][1:].split(".") if m[4] else []
            if word in env:
                root, up, place = env[word]
                if isinstance(up, list):
                    segs, up = up + segs, 0
                alias = re.match(r"\s+in\b\s*", text[pos:]) if segs and segs[-1] == "given" else None
                let = re.search(r"let\s+(" + WORD + r")\s*=\s*$", "".join(out)) if alias else None
                if let:
                    env[let[1]] = (root, segs, place)
                    out = ["".join(out)[: let.start()]]
                    pos += alias.end()
                    continue
                if not segs:
                    new, at, more = root + ".before" * up, place, up
                else:
                    new, at = self.resolve(root, place, segs)
                    more = up + new.count(".before") if at else 0
                    if at:
                        new = root + ".before" * more
                let = re.search(r"let\s+(" + WORD + r")\s*=\s*$", "".join(out))
                behind = re.match(r"\s+in\b\s*", text[pos:])
                if let and at and behind:
                    env[let[1]] = (root, more, at)
                    out = ["".join(out)[: let.start()]]
                    pos += behind.end()
                    continue
                if let:
                    env.pop(let[1], None)
                out.append(new)
            elif not segs and (word in self.helpers or word in self.returns):
                arg = re.match(r"\s+(\(?)(" + SEG + r")((?:\." + SEG + r")*)", text[pos:])
                if arg and not arg[1] and arg[2] in env:
                    pos += arg.end()
                    root = env[arg[2]][0]
                elif self.nested(text[pos:], env):
                    length, root = self.nested(text[pos:], env)
                    pos += length
                    segs = re.match(r"(?:\." + SEG + r")+", text[pos:])
                else:
                    self.left.append(f"{word} without its place")
                    out.append(m[0])
                    continue
                if word in self.returns:
                    at = self.returns[word]
                    let = re.search(r"let\s+(" + WORD + r")\s*=\s*$", "".join(out))
                    behind = re.match(r"\s+in\b\s*", text[pos:])
                    if let and behind:
                        env[let[1]] = (root, 0, at)
                        out = ["".join(out)[: let.start()]]
                        pos += behind.end()
                        continue
                    out.append(root)
                else:
                    self.wants.add(word)
                    out.append(word)
            elif word == "tie" and segs:
                out.append(self.type(segs))
            elif not segs and word in self.locals:
                out.append(self.locals[word])
            else:
                out.append(m[0])
        text = "".join(out)
        text = self.strictly(text)
        # what the arms in front of the default rule out, arithmetic finds
        text = re.sub(r",\s*above \S+ \d+ \S+\.rest\)", ")", text)
        text = re.sub(r"\(above \S+ \d+ \S+\.rest\)", "(omega arith)", text)
        for x in re.findall(r"let (" + WORD + r") = " + WORD + r"\.args in", text):
            text = re.sub(r"(?<![\w.'-])" + re.escape(x) + r"\.([a-z_]+(?:-[a-z_]+)+)", lambda m: x + "." + m[1].replace("-", "_"), text)
        text = re.sub(r"strict-passes (" + WORD + r")\.(" + WORD + r")\.branch \(λ w\. not-less (?:[^()]|\([^()]*\))*? w\.1\.left\)\s+\(λ w\. w\.left\)",
                      r"strict-passes \1.\2.either (λ w. le-leb _ _ w.1) (λ w. w)", text)
        text = re.sub(r"strict-passes (" + WORD + r")\.(" + WORD + r")\.branch \(λ w\. not-zero (\S+) w\.1\.left\)\s+\(λ w\. w\.left\)",
                      r"strict-passes \1.\2.either (λ w. lt-ltb 0 \3 (omega (arith, w.1))) (λ w. w)", text)
        text = re.sub(r"(?<=[\s(])\((" + WORD + r")\)(?!\.)", lambda m: m[1] if m[1] in self.helpers else m[0], text)
        return re.sub(r"(goal\.\S+)((?: (?:invariant|decreases)\S*)+)", r"\1", text)

    def strictly(self, text):
        """Where `strict-passes` split what a join came from by the two ways in."""
        def calls(count, step):
            at = next((i for i, p in enumerate(self.x["places"]) if p[2][1] == step and p[0].startswith("Joined")), None)
            if at is None:
                return None
            names, test = [], None
            way = next((p for p in reversed(self.x["places"][:at]) if p[0].startswith("Else") and not re.match(r"if-(not-)?strict(-\d+)?$", p[2][1])), None)
            while way is not None and not way[0].startswith("Then"):
                if way[0].startswith("Else") and test is None:
                    test = way[2][1]
                elif way[0].startswith("After") and way[3]:
                    names.insert(0, way[2][1])
                way = self.place.get(norm(way[1])) if way[1] else None
            return names, test
        def turn(m):
            root, step, rws, last = m[1], m[2], m[3], m[4]
            n = len(re.findall(r"ensures", rws or ""))
            got = calls(n, step)
            if not got or got[1] is None:
                self.left.append(f"{step}: no ways in")
                return m[0]
            names, test = got
            names = names[-n:] if n else []
            k = re.sub(r"^(else|if|then)-", "", step)
            x = re.sub(r"^if-", "", test)
            tails = re.findall(r"← w\.\d+\.ensures((?:\.\w+)*)", rws or "")
            proof = ", ".join([f"← w.{c}.ensures{t}" for c, t in zip(names, tails)] + [f"w.{test}.false" if test.startswith("if-not-") else f"eq-eqb _ _ w.{test}.false"])
            return (f"elim {root}.{step}.branch [ {step}-via-then-{k}+else-{x} w ↦ rw ({proof}) (right-passes _)"
                    f" | {step}-via-else-{k} w ↦ lenient-passes _ _ w.if-{k}.false ]")
        text = re.sub(r"strict-passes (" + WORD + r")\.(" + WORD + r")\.branch \(λ w\. not-false _ w\.1\.left\)\s+\(λ w\. w\.left\)",
                      r"strict-passes \1.\2.either (λ w. eq-eqb _ _ w.1) (λ w. w)", text)
        text = re.sub(r"strict-passes (" + WORD + r")\.(" + WORD + r")\.branch \(λ w\. ap not w\.1\.left\)\s+\(λ w\. w\.left\)",
                      r"strict-passes \1.\2.either (λ w. ap not w.1) (λ w. w)", text)
        return re.sub(r"strict-passes (" + WORD + r")\.(" + WORD + r")\.branch \(λ w\. (rw \([^()]*\)) \((not-false _) w\.\d+\.left\)\)\s+\(λ w\. w\.left\)", turn, text)

    def type(self, segs):
        n = norm(segs[0])
        if n.startswith("Need-"):
            return "goal." + self.need.get(n[5:], segs[0])
        if n in self.new_place:
            return "goal." + self.new_place[n]
        self.left.append(f"tie.{segs[0]}")
        return "goal." + segs[0]


def opened(text):
    """A file whose `module _ (c : tie.P) where` blocks stand as words of that record."""
    out, lines, i = [], text.split("\n"), 0
    while i < len(lines):
        m = re.match(r"module _ \((" + WORD + r") : (tie\.[^()]*)\) where$", lines[i])
        if not m:
            out.append(lines[i])
            i += 1
            continue
        c, place = m[1], m[2]
        i += 1
        block = []
        while i < len(lines) and (not lines[i].strip() or lines[i].startswith("  ")):
            block.append(lines[i][2:])
            i += 1
        body = "\n".join(block).strip("\n")
        inner = [declared(it) for it in body.split("\n") if declared(it)]
        made = []
        for it in body.split("\n"):
            name = declared(it)
            if name:
                it = re.sub(r"^((?:(?:pub|abbrev)\s+)*)(" + re.escape(name) + r")\s*:\s", lambda q: f"{q[1]}{q[2]} : ({c} : {place}) → ", it)
                head = it.partition("→ ")
                it = head[0] + head[1] + inside(head[2], inner, c)
            else:
                q = re.match(r"(" + WORD + r")((?:\s+" + WORD + r")*\s*=)(.*)", it)
                if q and q[1] in inner:
                    it = f"{q[1]} {c}{q[2]}" + inside(q[3], inner, c)
                elif not it.startswith(("unfolding", "--")):
                    it = inside(it, inner, c)
            made.append(it)
        out += made + [""]
    return "\n".join(out)


def inside(text, names, c):
    return re.sub(r"(?<![\w.'₀-₉-])(" + "|".join(map(re.escape, sorted(names, key=len, reverse=True))) + r")(?![\w'₀-₉-])(?!\s*=)", lambda m: f"({m[1]} {c})", text)


def split_args(text):
    """The arguments of a call: words, and terms in parentheses."""
    out, depth, now = [], 0, ""
    for ch in text:
        if ch in "([{":
            depth += 1
        if ch in ")]}":
            depth -= 1
            if depth < 0:
                break
        if ch.isspace() and depth == 0:
            if now:
                out.append(now)
            now = ""
        else:
            now += ch
    return out + [now] if now else out


def names_of(x):
    return set(re.findall(SEG, x))


def parts_of(name, lines):
    """The signature, the clauses and what is unfolded."""
    sig, rest = lines[0], "\n".join(lines[1:])
    while rest and not re.match(re.escape(name) + r"(\s|$)", rest) and not rest.startswith("unfolding"):
        first, _, rest = rest.partition("\n")
        sig += "\n" + first
    unfolding = ""
    if rest.startswith("unfolding"):
        unfolding, _, rest = rest.partition("\n")
    return sig, rest, unfolding


def uses_of(text):
    out = []
    for m in re.finditer(r"^(pub )?use ([^\n{]*?)(?:\.\{([^}]*)\}| as (\S+))?$", text, re.M):
        out.append((m[2], [n.strip() for n in m[3].split(",") if n.strip()] if m[3] is not None else None, m[4]))
    return out


def used(name, words, text):
    bare = name.split(" as ")[-1].strip()
    if bare == "[]":
        return "[]" in text
    if "◌" in bare:
        return all(part in text for part in bare.split("◌") if part)
    return bare in words


def imports(uses, text):
    words = names_of(text)
    out = []
    for module, names, alias in uses:
        if ".Tie" in module or module.endswith(".Statement"):
            continue
        if names is None:
            last = alias or module.split(".")[-1]
            if re.search(r"(?<![\w.])" + re.escape(last) + r"\.", text):
                out.append(f"use {module}" + (f" as {alias}" if alias else ""))
            continue
        kept = [n for n in names if used(n, words, text)]
        if kept:
            out.append(f"use {module}.{{{', '.join(kept)}}}")
    return out


def turn(crate, names, where, fn):
    folder = os.path.join(where, *fn.split("."))
    path = os.path.join(folder, "Proof.antt")
    with open(path, encoding="utf-8") as f:
        text = f.read()
    key = f"Rattle-{crate}-proofs.{fn}.Lts"
    if key not in names or "tie.spec" not in text:
        print(f"left: {crate} {fn}: not turned")
        return
    text = opened(text)
    t = Turn(names[key], path)
    uses = uses_of(text)
    parts = chunks(text)
    given, answers, helpers, inline = [], [], [], []
    decls = []
    for c in parts:
        lines = c.split("\n")
        start = next((i for i, it in enumerate(lines) if not it.startswith("--")), None)
        if start is None or lines[start].startswith(("use ", "pub use ")):
            continue
        name = declared(lines[start])
        if name is None and lines[start].startswith("module _"):
            print(f"left: {crate} {fn}: module _")
            helpers.append((None, c, c))
            continue
        rec = re.match(r"record (" + SEG + r")", lines[start])
        if rec:
            fields = [re.sub(r"^(  )(" + WORD + r")( *:)", r"\1pub \2\3", it) for it in lines[start:]]
            helpers.append((rec[1], "\n".join(lines[:start] + ["pub " + fields[0]] + fields[1:]), ""))
            continue
        if name is None:
            print(f"left: {crate} {fn}: what is {lines[start][:60]}")
            helpers.append((None, c, c))
            continue
        decls.append((name, lines[:start], lines[start:]))
    # the goals by their order in the closing list, where it names them all
    closing = next(("\n".join(ls) for _, _, ls in decls if "tie.spec" in "\n".join(ls)), "")
    listed = split_args(closing.partition("tie.spec")[2])
    listed = [it for it in listed if not re.match(r"(invariant|decreases)", it)]
    place_of = {}
    if len(listed) == len(names[key]["needs"]):
        for it, (old, new), at in zip(listed, names[key]["needs"], names[key]["asked_at"]):
            place_of[it] = (new, norm(at[0]))
            if it.startswith("("):
                inline.append((it, new, norm(at[0])))
    else:
        if any(it.startswith("(") and "search rules" not in it for it in listed):
            t.left.append(f"the closing list has {len(listed)} for {len(names[key]['needs'])} goals, and answers in it")
    # the local names of answers
    order = []
    for name, _, lines in decls:
        m = re.search(r":\s*tie\.Need-(" + SEG + ")", lines[0])
        if m:
            old = norm(m[1])
            bare = re.sub(r"^(overflow|nonzero)-", "", old)
            if name in place_of:
                t.need[old], t.at[old] = place_of[name]
            elif old not in t.need and bare in t.need:
                t.need[old], t.at[old] = t.need[bare], t.at[bare]
            if old in t.need:
                t.locals[name] = t.need[old]
                order.append((name, t.need[old]))
            elif not re.search(r"^\s*" + re.escape(name) + r"( \S+)* = search rules$", "\n".join(lines), re.M):
                t.left.append(f"no goal {m[1]}")
        else:
            m = re.search(r"→\s*tie\.(" + SEG + r")[^→]*$", lines[0])
            if m and not re.search(r"tie\.(invariant|decreases)", lines[0]):
                t.returns[name] = norm(m[1])
    for name, notes, lines in decls:
        sig, rest, unfolding = parts_of(name, lines)
        if "tie.Need" in sig or "tie.spec" in rest or "tie.close" in rest or re.search(r":\s*tie\.(invariant|decreases)", sig) or name in t.returns:
            continue
        m = re.match(r"(?:(?:pub|abbrev|unfoldable)\s+)*" + re.escape(name) + r"\s*:\s*(?:\((" + SEG + r")\s*:\s*)?tie\.(" + SEG + r")((?:\s+(?:invariant|decreases)[^\s)→]*)*)\)?\s*(?:→\s*|(?=\())(.*)$", sig, re.S)
        c = re.match(re.escape(name) + r"((?:\s+" + WORD + r")+)\s*=(.*)", rest, re.S)
        if m and c and not re.search(r"^" + re.escape(name) + r"\s", c[2], re.M):
            params = c[1].split()
            sort = m[4]
            if m[1] and m[1] != params[0]:
                sort = re.sub(r"(?<![\w.'₀-₉-])" + re.escape(m[1]) + r"(?=[.\s)])", params[0], sort)
            note = "".join("    " + it + "\n" for it in notes if it.strip())
            t.helpers[name] = (params, sort, c[2], unfolding.split()[1:], norm(m[2]), note)
    for name, notes, lines in decls:
        sig, rest = lines[0], "\n".join(lines[1:])
        while "=" not in rest.split("\n")[0] and not re.match(re.escape(name) + r"(\s|$)", rest) and not rest.startswith("unfolding"):
            first, _, rest = rest.partition("\n")
            sig += "\n" + first
            if not rest:
                break
        unfolding = ""
        if rest.startswith("unfolding"):
            unfolding, _, rest = rest.partition("\n")
        note = "".join(it + "\n" for it in notes if it.strip() and not re.match(r"-- `.*` meets its contract", it))
        inv = re.search(r":\s*tie\.((?:invariant|decreases)-(" + SEG + "))", sig)
        if inv and sig.startswith("abbrev"):
            kind, loop = inv[1].split("-", 1)
            loop = norm(loop)
            m = re.match(re.escape(name) + r"((?:\s+" + WORD + r")*)\s*=(.*)", rest, re.S)
            if loop not in t.loop or not m:
                t.left.append(f"{inv[1]}")
                continue
            params = m[1].split()
            vs, ch = t.vars[loop], t.changed[loop]
            to = {}
            for p, v, c in zip(params, vs, ch):
                to[p] = f"l.initial.{v}" if c else f"l.{v}"
            for p, v in zip(params[len(vs) :], [v for v, c in zip(vs, ch) if c]):
                to[p] = f"l.{v}"
            if len(params) != len(vs) + sum(ch):
                t.left.append(f"{inv[1]}: {len(params)} parameters for {len(vs)} and {sum(ch)}")
            to.pop("_", None)
            b = re.sub(r"(?<![\w.'₀-₉-])" + SEG, lambda q: to.get(q[0], q[0]), m[2])
            new = f"{kind}-{t.loop[loop]}"
            given.append(f"{note}abbrev pub {new} : goal.{new}\n{new} l ={b}")
            continue
        need = re.search(r":\s*tie\.Need-(" + SEG + ")", sig)
        if need:
            old = norm(need[1])
            if old not in t.need and re.search(r" = search rules$", rest):
                continue
            if old not in t.need:
                helpers.append((name, f"{note}-- left: {sig}\n{rest}", ""))
                continue
            m = re.match(re.escape(name) + r"((?:\s+" + WORD + r")*)\s*=(.*)", rest, re.S)
            if not m:
                t.left.append(f"{name}: no clause")
                continue
            params = m[1].split()
            b = m[2].strip()
            if re.fullmatch(r"(λ (" + SEG + r" )*" + r"\. )?(search rules|search \(rules\))", b):
                continue
            c = params[0] if params else "c"
            if not params:
                lam = re.match(r"λ (" + SEG + r")(?: κs)?\.\s*(.*)", b, re.S)
                if lam:
                    c, b = lam[1], lam[2]
                    m2 = "\n    " + b if "\n" in b else " " + b
                else:
                    t.left.append(f"{name}: no argument")
                    m2 = m[2]
            else:
                m2 = m[2]
            if len(params) > 2 and params[1] != 'κs':
                t.left.append(f"{name}: {len(params)} arguments")
            new = t.need[old]
            place = t.at[old]
            t.wants = set()
            out = t.body(m2, {c: place})
            lets, more = t.lets(c)
            if lets:
                out = "\n" + lets + "    " + out.strip().replace("\n    ", "\n    ")
            if more:
                unfolding = "unfolding " + " ".join(dict.fromkeys(unfolding.split()[1:] + more))
            answers.append((new, f"{note}pub {new} : goal.{new}\n{unfolding + chr(10) if unfolding else ''}{new} {c} ={out}"))
            continue
        if "tie.close" in rest or "tie.spec" in rest:
            continue
        if name in t.helpers or name in t.returns:
            continue
        # a lemma or a word of the file
        env = {}
        for m in re.finditer(r"\((" + SEG + r")\s*:\s*tie\.(" + SEG + ")", sig):
            env[m[1]] = norm(m[2])
        args = re.findall(r"(?:^|[:→])\s*(?:\((" + SEG + r")\s*:\s*)?tie\.(" + SEG + ")", sig)
        m = re.match(re.escape(name) + r"((?:\s+" + WORD + r")*)\s*=", rest)
        own = dict(env)
        if m and args:
            for p, a in zip(m[1].split(), args):
                own.setdefault(p, norm(a[1]))
        s = t.body(sig, env)
        helpers.append((name, f"{note}{s}\n{unfolding + chr(10) if unfolding else ''}{t.body(rest, own)}", sig))
    for it, new, at in inline:
        m = re.fullmatch(r"\(\s*λ (" + WORD + r")(?: κs)?\.\s*(.*)\)", it, re.S)
        if not m or re.fullmatch(r"search rules", m[2].strip()):
            if not m:
                t.left.append(f"{new}: {it[:60]}")
            continue
        answers.append((new, f"pub {new} : goal.{new}\n{new} {m[1]} = {t.body(m[2], {m[1]: at})}"))
    module = f"Rattle.{crate}.proofs.{fn}"
    title = text.split("\n")[0] + "\n" if text.startswith("--") else ""
    # words that the invariants use go with them
    gtext = "\n".join(given)
    early, late = [], []
    words = names_of(gtext)
    for name, body, sig in reversed(helpers):
        if name and name in words and "tie." not in sig:
            early.insert(0, (name, body))
            words |= names_of(body)
        else:
            late.insert(0, (name, body))
    if given:
        body = "\n\n".join([re.sub(r"^((?:--.*\n)*)(?!pub|abbrev pub|pub record)(abbrev )?", lambda m: m[1] + (m[2] or "") + "pub ", b) for _, b in early] + given)
        lines = imports(uses, body) + [f"use {module}.Given as goal"]
        with open(os.path.join(folder, "Invariants.antt"), "w", encoding="utf-8") as f:
            f.write(title + "\n".join(lines) + "\n\n" + body + "\n")
    elif early:
        late = early + late
        early = []
    if answers or (late and answers):
        body = "\n\n".join([b for _, b in late] + [b for _, b in answers])
        lines = imports(uses, body)
        shared = [n for n, _ in early if n in names_of(body)]
        if shared:
            lines.append(f"use {module}.Invariants.{{{', '.join(shared)}}}")
        lines.append(f"use {module}.Goals as goal")
        ways = sorted(set(re.findall(r"[^\s\[]+-via-[^\s]+", body)))
        if ways:
            lines.append(f"use {module}.Goals.{{{', '.join(ways)}}}")
        if "eq-eqb" in names_of(body) and not any("eq-eqb" in it for it in lines):
            lines.insert(0, "use borrow.Author.Tests.{eq-eqb}")
        if "lt-ltb" in names_of(body) and not any("lt-ltb" in it for it in lines):
            lines.insert(0, "use borrow.Author.Tests.{lt-ltb}")
        if "omega" in names_of(body) and not any("arith" in it for it in lines):
            lines.insert(0, "use native.Mathlib.Omega.{arith}")
        if "le-leb" in names_of(body) and not any("le-leb" in it for it in lines):
            lines.insert(0, "use borrow.Author.Tests.{le-leb}")
        if ways and "right-passes" in body:
            lines.insert(0, "use Rattle.exchange.proofs.Verdicts.{right-passes, lenient-passes}")
        with open(os.path.join(folder, "Answers.antt"), "w", encoding="utf-8") as f:
            f.write(title + "\n".join(lines) + "\n\n" + body + "\n")
    elif late:
        t.left.append("lemmas and no answer: " + ", ".join(str(n) for n, _ in late))
    os.remove(path)
    for d in (folder,):
        if not os.listdir(d):
            os.rmdir(d)
    for it in t.left:
        print(f"left: {crate} {fn}: {it}")


def main():
    where, crate, only = sys.argv[1], sys.argv[2], sys.argv[3:]
    with open(os.path.join(where, crate, "names.json"), encoding="utf-8") as f:
        names = json.load(f)
    top = os.path.join("crates", crate, "proofs")
    for folder, _, files in sorted(os.walk(top)):
        if "Proof.antt" in files:
            fn = os.path.relpath(folder, top).replace(os.sep, ".")
            if not only or fn in only:
                turn(crate, names, top, fn)


main()
