#!/usr/bin/env python3
"""Turns a function's Proof.antt, which walks no code but answers goals by the older names, into Invariants.antt and Answers.antt.

usage: answers.py CRATE [NAMES]     at the top of the repository, after port.py and snake-names.py

NAMES is the names.json that `rt check --generated DIR --old-names` writes in the crate; without it the script runs that command.
Answers that are `search rules` alone go: the check tries them by itself. What it can't turn stays as a Proof.antt, with a line on stderr.
"""

import glob
import json
import os
import re
import subprocess
import sys
import tempfile

WORD = r"[^\s(){}.;,@\"«»\[\]\\:`]+"


def alike(name):
    return re.sub(r"[-_]", "", name).lower()


def read(path):
    with open(path, encoding="utf-8") as it:
        return it.read()


def split_top(text, sep=","):
    """Splits at separators outside brackets."""
    out, depth, last = [], 0, 0
    for i, ch in enumerate(text):
        if ch in "([{":
            depth += 1
        elif ch in ")]}":
            depth -= 1
        elif ch == sep and depth == 0:
            out.append(text[last:i])
            last = i + 1
    out.append(text[last:])
    return [it.strip() for it in out]


def words_top(text):
    """The arguments of an application: words and bracketed terms, each with its projections."""
    out, i = [], 0
    while i < len(text):
        if text[i].isspace():
            i += 1
            continue
        start, depth = i, 0
        while i < len(text) and (depth or not text[i].isspace()):
            depth += text[i] in "([{"
            depth -= text[i] in ")]}"
            i += 1
        out.append(text[start:i])
    return out


ENSURES = {}
IDS = set()  # the names in the sources
SLICES = {}  # by a function's name: its parameters that are lent slices


def contracts():
    """The labels of each function's ensures, by its name."""
    for path in glob.glob("crates/*/src/**/*.rt", recursive=True):
        crate = path.split("/")[1]
        text = re.sub(r"//[^\n]*", "", read(path))
        IDS.update(re.findall(r"[a-z_]\w*", text))
        for m in re.finditer(r"\bfn (\w+)", text):
            rest = text[m.end() : m.end() + 6000]
            # up to the body: the first brace that opens a line, or the next function
            end = re.search(r"\n\s*\{|\bfn \w", rest)
            head = rest[: end.start()] if end else rest
            labels = re.findall(r"\bensures(?:\s+(\w+))?\s*\{", head)
            lent = re.findall(r"(\w+): &mut \[", head.split("requires")[0].split("ensures")[0])
            SLICES.setdefault((crate, m.group(1)), set()).add(tuple(lent))
            ENSURES.setdefault((crate, m.group(1)), set()).add(tuple(labels))


def key(callee):
    return callee.split("::")[0], callee.rsplit("::", 1)[-1]


def labels_of(callee):
    found = ENSURES.get(key(callee), set())
    return max(found, key=len) if found else ()


def nested(i, n):
    """How the i-th of n clauses stands in their conjunction, which nests to the right."""
    return ".1" * i + (".0" if i < n - 1 else "")


class Give(Exception):
    pass


def project(path_digits, n):
    """Which of n clauses the projections mean, and how many of them it takes: clauses are nested to the right."""
    for i in range(n):
        want = ["1"] * i + ["0"] if i < n - 1 else ["1"] * i
        if path_digits[: len(want)] == want:
            if i == n - 1 or len(want) == i + 1:
                return i, len(want)
    return None


class Function:
    def __init__(self, names, path, crate):
        self.n, self.path, self.crate = names, path, crate
        self.at_new = {it[2][1] for it in names["places"] if it[2][1]}
        self.at, self.arms, self.vars, self.here = {}, {}, set(), None
        self.step, self.callee, self.place, self.depth, self.parent = {}, {}, {}, {}, {}
        for (old, parent, (f_old, f_new), callee, _), new, arm in zip(names["places"], names["places_by_name"], names["arms"]):
            self.at[new] = (alike(f_old), f_new, arm)
            self.place.setdefault(alike(old), new)
            self.parent[new] = self.place.get(alike(parent)) if parent else None
            self.depth[new] = self.depth[self.parent[new]] + 1 if parent else 0
            if f_old:
                key = alike(f_old)
                self.step.setdefault(key, f_new)
                if callee:
                    self.callee[f_new] = callee
        self.kept = {}
        for (old, parent, (f_old, f_new), callee, kept), new in zip(names["places"], names["places_by_name"]):
            if kept and all(it[1].startswith("long-") for it in kept):
                self.kept[f_new] = [it[1][5:] for it in kept]
        self.needs = {alike(old): new for old, new in names["needs"]}
        self.goal_place = {new: at[1] for (_, new), at in zip(names["needs"], names["asked_at"])}
        self.helpers, self.instances = {}, {}

    # ---- paths

    def look_up(self, key):
        place = self.here
        while place is not None:
            old, new, arm = self.at[place]
            if old == key:
                return new, arm
            place = self.parent.get(place)
        return (self.step[key], None) if key in self.step and self.here is None else (None, None)

    def of_step(self, new, parts):
        """A step's field by label, where the older form counts: what it is now, and the parts that follow."""
        if not parts:
            return None
        if new in self.kept and parts[0] == "auto" and len(parts) > 1 and re.fullmatch(r"\d", parts[1]):
            return self.one_of("auto", self.kept[new], parts)
        if new not in self.callee:
            return None
        if parts[0] == "ensures":
            labels = labels_of(self.callee[new])
            at = project(parts[1:], len(labels)) if len(labels) > 1 and parts[1:] else None
            if at:
                return ["ensures", labels[at[0]]], parts[1 + at[1] :]
        elif parts[0] in ("auto", "new") and len(parts) > 1 and re.fullmatch(r"\d", parts[1]):
            lent = max(SLICES.get(key(self.callee[new]), {()}), key=len)
            return self.one_of(parts[0], lent if len(lent) == 1 else self.n["params"].get(self.callee[new], lent), parts)
        return None

    def one_of(self, word, lent, parts):
        digits = parts[1:]
        if len(lent) == 1:
            while digits and re.fullmatch(r"\d", digits[0]):
                digits = digits[1:]
            return [word, lent[0]], digits
        for i, it in enumerate(lent):
            want = ["1"] * i + ["0"]
            if digits[: len(want)] == want:
                return [word, it], digits[len(want) :]
        return None

    def paths(self, text):
        pre = (self.n["pre"] or {}).get("fields", [])

        def one(m):
            head, rest = m.group(1), m.group(2)
            if head not in self.vars:
                return m.group(0)
            parts = rest.split(".")[1:]
            befores = 0
            while parts and parts[0] == "before":
                parts.pop(0)
                befores += 1
            if not parts:
                return m.group(0)
            out = [head]
            first = parts[0]
            if first.endswith("_lem"):  # port.py took a function for a lemma
                first = first[:-4] if self.look_up(alike(first[:-4]))[0] else first
            new, arm = self.look_up(alike(first)) if first not in ("args", "requires", "ranges") else (None, None)
            if new:
                if arm:
                    for field, old_step, path in sorted(arm[2], key=lambda it: -len(it[2])):
                        if alike(old_step) == alike(first) and path and parts[1 : 1 + len(path)] == path:
                            return ".".join([head, arm[0], field] + parts[1 + len(path) :])
                out.append(new)
                parts = parts[1:]
                tail = self.of_step(new, parts)
                if tail:
                    out, parts = out + tail[0], tail[1]
            elif first == "requires" and len(pre) > 1:
                digits = parts[1:]
                at = project(digits, len(pre))
                if digits and at:
                    out += ["requires", pre[at[0]]]
                    parts = parts[1 + at[1] :]
            elif befores == 0:
                return m.group(0)
            return ".".join(out + parts)

        text = re.sub(rf"(?<![\w.'-])({WORD})((?:\.{WORD})+)", one, text)
        # names of the source keep their spelling
        text = re.sub(r"\.([a-z][a-z0-9]*(?:-[a-z0-9]+)+)(?![\w'-])", lambda m: "." + m.group(1).replace("-", "_") if m.group(1) not in self.at_new and m.group(1).replace("-", "_") in IDS else m.group(0), text)
        # a name for what an arm gives
        for m in re.finditer(rf"\blet ({WORD}) = ({WORD})\.({WORD})\.given in", text):
            var, new = m.group(1), m.group(3)
            found = [(place, arm) for place, (_, it, arm) in self.at.items() if it == new and arm]
            if not found or m.group(2) not in self.vars:
                continue
            place, arm = found[0]
            rows = [(field, path[1:]) for field, step, path in arm[2] if alike(step) == self.at[place][0] and path[:1] == ["given"]]

            def field_of(k, rows=rows, var=var):
                parts = k.group(2).split(".")[1:]
                for field, path in sorted(rows, key=lambda it: -len(it[1])):
                    if parts[: len(path)] == path:
                        return ".".join([var, field] + parts[len(path) :])
                return k.group(0)

            tail = re.sub(rf"(?<![\w.'-])({re.escape(var)})((?:\.{WORD})+)", field_of, text[m.end() :])
            text = text[: m.start()] + f"let {var} = {m.group(2)}.{arm[0]} in" + tail
            return self.paths_steps(text)
        return self.paths_steps(text)

    def paths_steps(self, text):
        # a name for a step
        for m in re.finditer(rf"\blet ({WORD}) = ({WORD})\.({WORD})(\.auto|\.ensures|\.new)? in", text):
            if m.group(2) in self.vars and m.group(3) in self.at_new:
                var, new, more = m.group(1), m.group(3), m.group(4)

                def field(k, var=var, new=new, more=more):
                    parts = k.group(2).split(".")[1:]
                    if more:
                        tail = self.of_step(new, [more[1:]] + parts)
                        return ".".join([var] + tail[0][1:] + tail[1]) if tail else k.group(0)
                    tail = self.of_step(new, parts)
                    return ".".join([var] + tail[0] + tail[1]) if tail else k.group(0)

                text = text[: m.end()] + re.sub(rf"(?<![\w.'-])({re.escape(var)})((?:\.{WORD})+)", field, text[m.end() :])
        return text

    def bound(self, text):
        """let s = c.before.before in ..: s is c, whose fields are those of all steps before."""
        text = re.sub(rf"\blet ({WORD}) = ({WORD})(?:\.before)+ in", r"let \1 = \2 in", text)
        # omega reads the whole record by itself
        text = re.sub(rf",\s*{WORD}(?:\.before)+(?=[,)])", "", text)
        return text

    def term(self, text, here=None, params=("c",), goal=None):
        self.here, self.goal, self.main = here, goal, (list(params) or ["c"])[0]
        self.vars = {p for p in params}
        for m in re.finditer(rf"\blet ({WORD}) = ({WORD})(?:\.before)* in", text):
            if m.group(2) in self.vars:
                self.vars.add(m.group(1))
        # records handed to a lemma about a place
        for name, place in self.helpers.items():
            text = re.sub(
                rf"(?<![\w.'-]){re.escape(name)} ({WORD}?(?:\.before)*)(?=[\s),;]|$)",
                lambda m: f"{self.instance(name, place, m.group(1))} {self.handed(m.group(1), place)}",
                text,
            )
        return self.paths(self.bound(text))

    def instance(self, name, place, record):
        """A lemma about a place, for one about a later place."""
        if self.goal or place == self.here or record.split(".")[0] not in self.vars:
            return name
        at = self.instances.setdefault((name, self.here), f"{name}_{1 + sum(n == name for n, _ in self.instances)}")
        return at

    def handed(self, record, place):
        """What a lemma about a place is given: the record of that place, as the goal's own record has it."""
        if record.split(".")[0] not in self.vars:
            return record
        if self.goal:
            return f"(goal.at.{self.goal} {self.main}).{place}"
        return self.main


def blocks(text):
    out, current = [], []
    for line in text.split("\n"):
        if line and not line[0].isspace() and not line.startswith("use ") and current and not current[-1].strip():
            out.append("\n".join(current).rstrip())
            current = []
        current.append(line)
    out.append("\n".join(current).rstrip())
    return [it for it in out if it.strip()]


def tuple_parts(body):
    """The parts of the tuple that a body ends in, with what stands before it."""
    body = body.rstrip()
    if not body.endswith(")"):
        return None
    depth = 0
    for i in range(len(body) - 1, -1, -1):
        depth += body[i] == ")"
        depth -= body[i] == "("
        if depth == 0:
            break
    before = body[:i]
    tail = before.rstrip()
    if tail and not tail.endswith(" in") and tail != "in":
        # an argument: of rw or simp it is what is proved
        start = max([m.end() for m in re.finditer(r"\bin\b", tail)] or [0])
        if not re.match(r"\s*(rw|simp)\b", tail[start:]) or len(words_top(tail[start:])) != 2:
            return None
    inside = split_top(body[i + 1 : -1])
    if inside and inside[-1] == "":
        inside.pop()
    if len(inside) < 2:
        return None
    return before, inside


def clauses(body, labels):
    """A tuple of the clauses as a record of them."""
    if len(labels) < 2:
        return body
    got = tuple_parts(body)
    if not got:
        if re.search(r"\bsearch rules$", body.strip()):
            return body
        m = re.match(r"([\s\S]*\bin\s+|)((?:omega|search|grind)\s[\s\S]*)$", body.strip())
        if m and not re.search(r"\bin\b", m.group(2)):
            return m.group(1) + "record { " + "; ".join(f"{l} = {m.group(2)}" for l in labels) + " }"
        return None
    before, parts = got
    while len(parts) < len(labels):
        last = parts[-1]
        if re.match(r"(omega|search|grind)\b", last):
            parts = parts + [last]
            continue
        if last.startswith("(") and last.endswith(")"):
            more = [it for it in split_top(last[1:-1]) if it]
            if len(more) < 2:
                return None
            parts = parts[:-1] + more
        else:
            return None
    if len(parts) > len(labels):
        k = len(labels)
        parts = parts[: k - 1] + ["(" + ", ".join(parts[k - 1 :]) + ")"]
    fields = "; ".join(f"{l} = {p}" for l, p in zip(labels, parts))
    made = "record { " + fields + " }"
    return before + (f"({made})" if re.search(r"\S$", before.rstrip()) and not before.rstrip().endswith(" in") else made)


def turn(path, names, crate):
    text = read(path)
    folder = os.path.dirname(path)
    inner = folder.split("/proofs/", 1)[1].replace("/", ".")
    cands = ENSURES.get((crate, inner.rsplit(".", 1)[-1]), {()})
    own = max(cands, key=len)
    f = Function(names, inner, crate)
    head_lines, rest = [], []
    for line in text.split("\n"):
        (rest if rest or not (line.startswith("use ") or line.startswith("--") or not line.strip()) else head_lines).append(line)
    comments = [l for l in head_lines if l.startswith("--")]
    uses = [l for l in head_lines if l.startswith("use ") and not re.search(r"\.(Statement\.\{statement\}|Tie as tie)$", l)]
    module = f"Rattle.{crate}.proofs.{inner}"
    uses = [l for l in uses if not l.startswith(f"use {module}.Tie") and not l.startswith(f"use {module}.Statement")]
    invariants, answers, spec = [], [], None
    bs = blocks("\n".join(rest))
    renamed = {}  # the file's own names of goals
    parsed, mods = [], {}
    for b in bs:
        lines = b.split("\n")
        said = []
        while lines and lines[0].startswith("--"):
            said.append(lines.pop(0))
        if not lines:
            continue
        code = "\n".join(lines)
        if re.search(r"tie\.close", code):
            spec = code
            continue
        m = re.match(rf"(abbrev )?(pub )?({WORD}) : ([\s\S]*?)\n((?:unfolding [^\n]*\n)?)(?=\3\b)", code)
        if not m:
            raise Give(f"block not understood: {lines[0][:80]}")
        mods[m.group(3)] = m.group(1) or ""
        name, type_, unfold, body = m.group(3), m.group(4), m.group(5), code[m.end() :]
        parsed.append((said, name, type_.strip(), unfold, body))
    loop_names = {}
    for (old, new), vars_ in names["loops"]:
        loop_names[alike(old)] = (new, vars_)
    changed = {alike(old): ch for ((old, new), _), ch in zip(names["loops"], names["changed"])}
    # helpers, which take the record of a place
    for said, name, type_, unfold, body in parsed:
        m = re.search(rf"tie\.((?:After|In|At|Then|Else|Start){'['}^\s).]*)", type_)
        if m and "Need-" not in type_:
            key = alike(m.group(1))
            place = f.place.get(key)
            if not place:
                raise Give(f"no place {m.group(1)}")
            base = re.sub(r"-\d+$", "", place)
            f.helpers[name] = base if base.startswith("In-") and base in f.depth else place
        m = re.match(r"tie\.Need-(\S+)", type_)
        if m:
            new = f.needs.get(alike(m.group(1)))
            if new is None:
                stripped = alike(re.sub(r"^(overflow|nonzero|offset-bounds|slice-bounds|slice_bounds|bounds)[-_]", "", m.group(1)))
                new = f.needs.get(stripped)
                ends = [k for k in f.needs if k.endswith(stripped)]
                if new is None and len(ends) == 1:
                    new = f.needs[ends[0]]
            if new is None:
                new = {alike(it): it for it in f.needs.values()}.get(alike(m.group(1)))
            renamed[name] = (m.group(1), new)
    # goals that are answered in the list itself, by their place in it
    inline = {}
    if spec:
        at = spec.find("tie.spec")
        tail = spec[at + len("tie.spec") :]
        depth, end = 0, len(tail)
        for i, ch in enumerate(tail):
            depth += ch in "([{"
            depth -= ch in ")]}"
            if depth < 0:
                end = i
                break
        args = words_top(tail[:end])
        k = 0
        list_ = names["needs"]
        args = [a for a in args if not re.match(r"(invariant|decreases)[-_]", a)]
        for a in args:
            if a in renamed and renamed[a][1]:
                idx = next((i for i, (_, new) in enumerate(list_) if new == renamed[a][1]), None)
                if idx is not None:
                    k = idx + 1
                continue
            if a in renamed:
                continue
            mm = re.match(r"\(λ ([^.]*)\. ([\s\S]*)\)$", a)
            if mm and mm.group(2).strip() in ("search rules",):
                k += 1
                continue
            if mm and k < len(list_):
                inline[list_[k][1]] = (mm.group(1).split(), mm.group(2))
                k += 1
                continue
            raise Give(f"argument not understood: {a[:60]}")
    available = set(f.depth) - {"Start"}

    def above(place, of):
        while of is not None:
            if of == place:
                return True
            of = f.parent.get(of)
        return False

    for _ in range(4):
        for name in f.helpers:
            if f.helpers[name] in available:
                continue
            users = []
            for _, other, type_, _, body in parsed:
                if other != name and re.search(rf"(?<![\w.'-]){re.escape(name)}(?![\w'-])", type_ + body.split("=", 1)[-1]):
                    users.append(f.goal_place.get(renamed[other][1]) if other in renamed else f.helpers.get(other))
            for new, (_, value) in inline.items():
                if re.search(rf"(?<![\w.'-]){re.escape(name)}(?![\w'-])", value):
                    users.append(f.goal_place.get(new))
            fit = [p for p in available if users and all(u and above(p, u) for u in users)]
            if fit:
                f.helpers[name] = min(fit, key=lambda p: f.depth[p])
            else:
                print(f"look: {path}: no place for {name}", file=sys.stderr)
    for _ in range(4):
        for name in f.helpers:
            for _, other, type_, _, body in parsed:
                if other in f.helpers and other != name and re.search(rf"(?<![\w.'-]){re.escape(name)}(?![\w'-])", type_ + body.split("=", 1)[-1]) and above(f.helpers[name], f.helpers[other]):
                    users = []
                    for _, third, t3, _, b3 in parsed:
                        if third != name and re.search(rf"(?<![\w.'-]){re.escape(name)}(?![\w'-])", t3 + b3.split("=", 1)[-1]):
                            users.append(f.goal_place.get(renamed[third][1]) if third in renamed else f.helpers.get(third))
                    if all(u and above(f.helpers[other], u) for u in users):
                        f.helpers[name] = f.helpers[other]
    own_new = {}
    for name, (old, new) in renamed.items():
        if new:
            own_new[name] = new

    at_places = set()

    def rename_own(body):
        return re.sub(rf"(?<![\w.'«-])({WORD})(?![\w'-])", lambda m: own_new.get(m.group(1), m.group(1)) if m.group(1) in own_new else m.group(1), body)

    for said, name, type_, unfold, body in parsed:
        m = re.match(rf"{re.escape(name)}((?: {WORD}| \{{[^}}]*\}}| \([^)]*\))*?)\s*=\s+([\s\S]*)$", body)
        if not m:
            raise Give(f"body of {name}")
        params, value = m.group(1).split(), m.group(2)
        mi = re.match(r"tie\.(invariant|decreases)-(\S+)$", type_)
        if mi:
            new, vars_ = loop_names[alike(mi.group(2))]
            ch = changed[alike(mi.group(2))]
            places = {}
            for i, p in enumerate(params):
                if i < len(vars_):
                    places.setdefault(p, f"l.initial.{vars_[i]}" if ch[i] else f"l.{vars_[i]}")
                else:
                    rest_vars = [v for v, c in zip(vars_, ch) if c]
                    places[p] = f"l.{rest_vars[i - len(vars_)]}"
            value = re.sub(rf"(?<![\w.'`-])({WORD})(?![\w'-])", lambda m: places.get(m.group(1), m.group(1)), value)
            invariants.append((said, f"abbrev pub {mi.group(1)}-{new} : goal.{mi.group(1)}-{new}\n{unfold}{mi.group(1)}-{new} l = {value}"))
            continue
        if name in renamed:
            new = renamed[name][1]
            if new is None or value.strip() == "search rules" and not unfold:
                if value.strip() != "search rules":
                    print(f"look: {path}: no goal for {name} : {type_}", file=sys.stderr)
                continue
            here = f.goal_place.get(new)
            c = params[0] if params else "c"
            value = (f.term(rename_own(value), here, [c], new))
            labels = own if new.startswith("returns") else names["asked"].get(new, names["asked"].get(renamed[name][0], []))
            for k_old, v in names["asked"].items():
                if f.needs.get(alike(k_old)) == new or k_old == new:
                    labels = v
            made = clauses(value, labels)
            if made is None:
                made = f"let whole = ({value}) in record {{ " + "; ".join(f"{l} = whole{nested(i, len(labels))}" for i, l in enumerate(labels)) + " }"
            more = params[1:] if "-requires" not in new else params[2:]
            answers.append((said, f"pub {new} : goal.{new}\n{unfold}{' '.join([new, c] + more)} = {made}"))
            continue
        # a lemma of the file's own
        def places_in(t):
            t = re.sub(rf"tie\.((?:After|In|At|Then|Else|Start)[^\s).]*)((?: (?:invariant|decreases)[-_]\S+?)*)(?=[)\s]|$)", lambda m: f.helpers.get(name, f.place.get(alike(m.group(1)), m.group(1))), t)
            return t

        def helper(name, as_name, here, said=said, type_=type_, params=params, value=value, unfold=unfold, depth=0):
            """The lemma for a place, after those that it uses."""
            bound = re.findall(rf"\(({WORD}) : tie\.", type_) or ["c"]
            known = set(f.instances)
            t = f.term(re.sub(r"tie\.((?:After|In|At|Then|Else|Start)[^\s).]*)((?: (?:invariant|decreases)[-_]\S+?)*)(?=[)\s]|$)", lambda m: here or m.group(1), type_), here, bound)
            v = f.term(rename_own(value), here, params)
            for (other, place), instance in list(f.instances.items()):
                if (other, place) not in known and depth < 5:
                    for said2, name2, type2, unfold2, body2 in parsed:
                        if name2 == other:
                            m2 = re.match(rf"{re.escape(name2)}((?: {WORD}| \{{[^}}]*\}}| \([^)]*\))*?)\s*=\s+([\s\S]*)$", body2)
                            helper(other, instance, place, said2, type2, m2.group(1).split(), m2.group(2), unfold2, depth + 1)
            answers.append((said if as_name == name else [], f"{mods.get(name, '')}{as_name} : {t}\n{unfold}{' '.join([as_name] + params)} = {v}"))
            if here:
                at_places.add(here)

        helper(name, name, f.helpers.get(name))
    for new, (params, value) in inline.items():
        here = f.goal_place.get(new)
        labels = own if new.startswith("returns") else []
        for k_old, v in names["asked"].items():
            if f.needs.get(alike(k_old)) == new or k_old == new:
                labels = v
        value = (f.term(rename_own(value), here, params[:1], new))
        made = clauses(value, labels)
        if made is None:
            made = f"let whole = ({value}) in record {{ " + "; ".join(f"{l} = whole{nested(i, len(labels))}" for i, l in enumerate(labels)) + " }"
        answers.append(([], f"pub {new} : goal.{new}\n{new} {params[0] if params else 'c'} = {made}"))

    def write(file, items, last):
        target = os.path.join(folder, file)
        if not items:
            return
        out = "\n".join(comments) + "\n" if comments else ""
        out += "\n".join(uses + [last]) + "\n"
        for said, code in items:
            out += "\n" + ("\n".join(said) + "\n" if said else "") + code + "\n"
        with open(target, "w", encoding="utf-8") as it:
            it.write(out)

    write("Invariants.antt", invariants, f"use {module}.Given as goal")
    places = sorted(at_places)
    write("Answers.antt", answers, f"use {module}.Goals as goal" + (f"\nuse {module}.Goals.{{{', '.join(places)}}}" if places else ""))
    os.remove(path)


def main(crate, names=None):
    contracts()
    if not names:
        d = tempfile.mkdtemp()
        subprocess.run(["rt", "check", "--generated", d, "--old-names"], cwd=f"crates/{crate}", stdout=subprocess.DEVNULL, stderr=subprocess.DEVNULL)
        names = os.path.join(d, "names.json")
    table = json.loads(read(names))
    for path in sorted(glob.glob(f"crates/{crate}/proofs/**/Proof.antt", recursive=True)):
        inner = os.path.dirname(path).split("/proofs/", 1)[1].replace("/", ".")
        key = f"Rattle-{crate}-proofs.{inner}.Lts"
        if key not in table:
            print(f"left: {path}: no names", file=sys.stderr)
            continue
        try:
            turn(path, table[key], crate)
        except Give as e:
            print(f"left: {path}: {e}", file=sys.stderr)


if __name__ == "__main__":
    main(*sys.argv[1:])
