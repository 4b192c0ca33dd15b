#!/usr/bin/env python3
"""Spells the repository's own words of specs/ and proofs/ in snake case, as today's Rattle does: `cellTotal` to `cell_total`,
`level-ends` to `level_ends`. Run once, right after port.py, at the top of the repository.

A lemma that would fall together with the definition that it speaks of gets `_lem`, as `is-mesh` beside `isMesh`: `is_mesh_lem`.
Names of Rust, of the kit's libraries and those that Rattle makes stay. Structs that port.py gave `Drop` were copied freely
before: they get `Clone` and `Copy`. Modules `Contracts` of specs/, a name that Rattle now makes, become `Meets`.
"""

import glob
import os
import re
import sys

NAME = r"[^\s(){}.;,@\"«»\[\]\\:`]+"
MODIFIERS = r"(?:(?:pub|abbrev|unfoldable|opaque|private|let|in)\s+)*"
DECLARED = re.compile(rf"^\s*{MODIFIERS}({NAME})((?:\s*\{{[^}}]*\}})?|(?:\s*\([^)]*\))*)\s*:\s")
SHARED = re.compile(rf"^\s*{MODIFIERS}((?:{NAME} )+{NAME})\s*:\s")  # several names under one type
HUMP = re.compile(r"[a-z0-9][A-Z]")


def read(path):
    with open(path, encoding="utf-8") as it:
        return it.read()


def write(path, text):
    with open(path, "w", encoding="utf-8") as it:
        it.write(text)


def files(*patterns):
    return sorted(p for pattern in patterns for p in glob.glob(pattern, recursive=True) if "/out/" not in p)


def snake(name):
    name = name.replace("-", "_")
    if name[0].islower():
        while HUMP.search(name):
            name = re.sub(r"([a-z0-9])([A-Z])", lambda m: m.group(1) + "_" + m.group(2).lower(), name)
    return name


def has_old_form(name):
    return "-" in name.strip("-") and re.match(r"[a-zA-Z]", name) or HUMP.search(name) and name[0].islower()


antt = files("crates/*/specs/**/*.antt", "crates/*/proofs/**/*.antt")
declared, foreign, fields = set(), set(), set()
for path in antt:
    text, in_record = read(path), False
    for line in text.splitlines():
        if line and not line[0].isspace():
            in_record = bool(re.match(r"(?:pub )?record\b", line))
        if line.lstrip().startswith("--") or line.startswith("use "):
            continue
        m = DECLARED.match(line)
        if m:
            declared.add(m.group(1))
            if in_record and line[0].isspace():
                fields.add(m.group(1))
        m = SHARED.match(line)
        if m:
            declared.update(m.group(1).split())
            if in_record and line[0].isspace():
                fields.update(m.group(1).split())
    for m in re.finditer(r"(?m)^use ([^\n{]*?)(?:\{([^}]*)\})?$", text):
        own = m.group(1).startswith("Rattle.") and not m.group(1).startswith("Rattle.std")
        if not own:
            for item in re.split(r",\s*", m.group(2) or m.group(1).rsplit(".", 1)[-1]):
                foreign.add(item.split(" as ")[0].strip())

groups = {}
for name in declared:
    groups.setdefault(snake(name), set()).add(name)

plain, lemmas = {}, {}
for new, names in groups.items():
    hump = [n for n in names if HUMP.search(n) and n[0].islower()]
    rest = sorted(names - set(hump))
    if len(hump) > 1:
        sys.exit(f"names fall together: {hump}")
    for name in names:
        if name in foreign or not has_old_form(name):
            continue
        plain[name] = new
    if len(names) > 1:
        for name in rest:
            if name in foreign:
                continue
            if "_" in name and not hump or name in fields:
                continue
            lemmas[name] = new + "_lem"

fallen = {new for names in ([v for v in lemmas.values()],) for new in names} & declared
if fallen:
    print("look:", sorted(fallen))
taken = {v for v in plain.values()} & foreign
if taken:
    print("look: also in the kit's library:", sorted(taken))

TOKEN = re.compile(NAME)


def turn(text, in_comment=False):
    def one(m):
        name, before = m.group(0), m.string[: m.start()]
        after_dot = before.endswith(".")
        if after_dot and re.search(r"(?:tie|goal)\.$", before):
            return name
        if name in lemmas and not after_dot:
            return lemmas[name]
        # port.py took a field for a lemma
        if after_dot and name.endswith("_lem") and name not in declared and snake(name[:-4]) in {snake(it) for it in fields}:
            return snake(name[:-4])
        return plain.get(name, name)

    return TOKEN.sub(one, text)


def turn_comment(text):
    # in prose a word with a hump is a name, one with a dash only in a code span
    text = re.sub(r"`[^`\n]*`", lambda m: turn(m.group(0)), text)
    return re.sub(r"(?<![\w`-])[a-z]\w*[A-Z]\w*", lambda m: plain.get(m.group(0), m.group(0)), text)


def turn_lines(text, comment, is_code):
    out = []
    for line in text.split("\n"):
        at = line.find(comment)
        code, said = (line, "") if at < 0 else (line[:at], line[at:])
        out.append((turn(code) if is_code(code) else code) + turn_comment(said))
    return "\n".join(out)


def in_rust(text):
    """Ghost imports, clauses and ghost items of a .rt file."""
    out, ghost = [], False
    for line in text.split("\n"):
        at = line.find("//")
        code, said = (line, "") if at < 0 else (line[:at], line[at:])
        begins = re.match(r"\s*(ghost\b|requires\b|ensures\b)", code)
        if begins or ghost:
            code = turn(code)
            ghost = bool(begins and code.count("{") > code.count("}")) or ghost and "}" not in code
        out.append(code + turn_comment(said))
    return "\n".join(out)


def main():
    for path in antt:
        write(path, turn_lines(read(path), "--", lambda code: True))
    for path in files("crates/*/src/**/*.rt"):
        write(path, in_rust(read(path)).replace("#[derive(Drop)]", "#[derive(Clone, Copy)]"))
    for path in files("crates/*/must-fail/*.edit"):
        write(path, turn(read(path)))
    for path in files("*.md", "docs/*.md"):
        write(path, turn_comment(read(path)))
    for path in files("crates/*/specs/Contracts.antt"):
        os.rename(path, path.replace("Contracts", "Meets"))
    for path in files("crates/*/specs/**/*.antt", "crates/*/proofs/**/*.antt", "crates/*/src/**/*.rt", "crates/*/must-fail/*.edit"):
        text = read(path)
        new = re.sub(r"\bspecs\.Contracts\b", "specs.Meets", text)
        if path.endswith("specs/Lib.antt"):
            new = re.sub(r"(?m)^(pub mod )Contracts$", r"\1Meets", new)
        if new != text:
            write(path, new)


if __name__ == "__main__":
    if "--list" in sys.argv:
        for name in sorted(lemmas):
            print(name, "->", lemmas[name])
        print("fields beside definitions of their name:", sorted(n for new, names in groups.items() if len(names) > 1 for n in names if n in fields))
        print("declared here and in the kit's library, left:", sorted(n for n in declared & foreign if has_old_form(n)))
    else:
        main()
