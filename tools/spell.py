#!/usr/bin/env python3
"""Brings this repository's own names to the spelling of today's Rattle, once, after the kit's port.py.

Definitions, record fields, constructors and lemmas of specs/ and proofs/ become words in snake case: `digitOf` is
`digit_of`, `square-le` is `square_le`. Types and facts keep their capitals, functions of src/ and strings their names,
and so does what a file imports from a library. It prints the names that fall together; with --names it only lists.

usage: tools/spell.py [--names]      at the top of the repository
"""
import os
import re
import sys
from collections import defaultdict

TOKEN = re.compile(r"[^\s(){}\[\];,.:`\"]+")
DEF = re.compile(r"^\s*(?:(?:abbrev|unfoldable|pub|mutual|ruleset)\s+)*([^\s(){}\[\];,.:]+(?: [^\s(){}\[\];,.:]+)*)\s*:(?:\s|$)")
HEAD = re.compile(r"^\s*(?:(?:abbrev|unfoldable|pub)\s+)*(?:record|data|ruleset)\s+([^\s(){}\[\];,.:]+)")
FIELD = re.compile(r"^\s+pub\s+([^\s(){}\[\];,.:]+)\s*:")
# A lemma that would have its function's name gets `_lem`.
LEMMAS = set("""answer-by any-number asks-once at-end by-plan choice-at cube-at cube-reply face-by few-readings figures-of
no-tiling none-or-all read-by refusal-by two-faces whole-root all_edges edge_by hands_on seen_as""".split())
KEYWORDS = {"let", "in", "use", "where", "record", "data", "module", "elim", "unfolding", "unfold", "infix", "infixl", "infixr"}


def spelled(name):
    """The name in snake case; one that begins with a capital or has an operator in it stays."""
    if name in LEMMAS:
        return name.replace("-", "_") + "_lem"
    if not re.match(r"^[a-z]", name) or re.search(r"[◌≡≤<>+*/^∷∙&|=!?]", name):
        return name
    name = name.replace("′", "'").replace("-", "_")
    name = re.sub(r"([a-z0-9])([A-Z])", r"\1_\2", name)
    return name.lower() if re.search(r"[A-Z]", name) else name


def files(suffixes):
    for folder, dirs, names in os.walk("crates"):
        dirs[:] = sorted(d for d in dirs if d != "out")
        for name in sorted(names):
            if name.endswith(suffixes):
                yield os.path.join(folder, name)


def kind(path):
    parts = path.split(os.sep)
    if parts[2] == "specs":
        return "specs"
    if parts[2] == "proofs" and len(parts) == 4:
        return "lemmas"
    return parts[2]


def defined():
    """Old names of definitions and lemmas, with the files that define them; and those of record fields."""
    names, fields = defaultdict(set), defaultdict(set)
    for path in files((".antt",)):
        with open(path, encoding="utf-8") as f:
            lines = f.read().split("\n")
        where = kind(path)
        for line in lines:
            if line.lstrip().startswith("--"):
                continue
            m = DEF.match(line)
            if where == "proofs":
                if m and m[1].endswith("-spec"):
                    names[m[1]].add(path)
                continue
            h = HEAD.match(line)
            if h:
                names[h[1]].add(path)
                continue
            if m:
                for name in m[1].split():
                    if name not in KEYWORDS:
                        names[name].add(path)
                f = FIELD.match(line)
                if f:
                    fields[f[1]].add(path)
    return names, fields


OWN = set(os.listdir("crates"))


def imported(text):
    """Names that a file takes from a library, which keep their spelling."""
    theirs = set()
    for m in re.finditer(r"use\s+([^\s;{]+?)\.?\{([^}]*)\}", text):
        first = m[1].split(".")
        if first[0] == "Rattle" and len(first) > 1 and first[1] in OWN:
            continue
        theirs |= {item.split(" as ")[-1].strip() for item in m[2].split(",") if item.strip()}
    return theirs


def main():
    names, fields = defined()
    table = {n: spelled(n) for n in names if spelled(n) != n}
    field_table = {n: spelled(n) for n in fields if spelled(n) != n}
    back = defaultdict(set)
    for n in names:
        back[spelled(n)].add(n)
    for new, olds in sorted(back.items()):
        if len(olds) > 1:
            print("fall together:", new, "<-", ", ".join(f"{o} ({', '.join(sorted(names[o]))})" for o in sorted(olds)))
    if "--names" in sys.argv:
        for n in sorted(table):
            print(n, "->", table[n])
    changed = 0
    for path in files((".antt", ".rt")):
        with open(path, encoding="utf-8") as f:
            text = f.read()
        theirs = imported(text)
        before = set(TOKEN.findall(text))
        out = turn_source(text, table, field_table, theirs) if path.endswith(".rt") else turned(text, table, field_table, theirs)
        for t in sorted(before):
            if t in table and t not in theirs and table[t] in before:
                print("look:", path, "has", table[t], "and", t)
        if out != text:
            changed += 1
            if "--names" not in sys.argv:
                with open(path, "w", encoding="utf-8") as f:
                    f.write(out)
    print(changed, "files change,", len(table), "names and", len(field_table), "fields")
    if "--names" not in sys.argv:
        edits({spelled(n) for n in names}, table)
        outcome_results()
        hex_digits()


def turned(text, table, field_table, theirs):
    def turn(m):
        t = m[0]
        if text[m.start() - 1:m.start()] == ".":
            lead = re.search(r"([^\s(){}\[\];,:]*)\.$", text[max(0, m.start() - 200):m.start()])
            if lead and lead[1].startswith("Rattle"):
                return t
            return field_table.get(t, t)
        return t if t in theirs else table.get(t, t)

    return TOKEN.sub(turn, text)


CLAUSE = re.compile(r"^\s*(?:requires|ensures|ghost|invariant|decreases)\b")


def turn_source(text, table, field_table, theirs):
    """In a source file only ghost imports and clauses are turned: a clause ends where its brace closes."""
    out, depth, inside = [], 0, False
    for line in text.split("\n"):
        if CLAUSE.match(line) and not inside:
            inside, depth = True, 0
        if inside and not line.lstrip().startswith("//"):
            head = re.match(r"^(\s*(?:requires|ensures)\*?\s+(?:[a-z_0-9]+\s+)?)(\{.*)$", line)
            out.append(head[1] + turned(head[2], table, field_table, theirs) if head else turned(line, table, field_table, theirs))
            depth += line.count("{") - line.count("}")
            if depth <= 0 and ("{" in line or ";" in line):
                inside = False
            continue
        out.append(line)
    return "\n".join(out)


def edits(new_names, table):
    """The texts of the must-fail edits, with the names that port.py turned too."""
    for path in files((".edit",)):
        with open(path, encoding="utf-8") as f:
            text = f.read()

        def turn(m):
            t = m[0]
            if t in table:
                return table[t]
            return spelled(t) if spelled(t) in new_names else t

        out = "\n".join(TOKEN.sub(turn, line) if line.startswith(("old:", "new:")) else line for line in text.split("\n"))
        if out != text:
            with open(path, "w", encoding="utf-8") as f:
                f.write(out)


def outcome_results():
    """`result` is the returned value in a clause: the function of that name is `outcome_result`, and the clauses that
    port.py left with their λ for it lose it."""
    word = re.compile(r"(?<![\w.·-])result(?![\w'-])")
    for path in files((".antt", ".rt", ".edit")):
        if path.split(os.sep)[1] not in ("rows", "list", "mc33_c"):
            continue
        with open(path, encoding="utf-8") as f:
            text = f.read()
        if path.endswith(".rt"):
            if not re.search(r"Rattle\.rows\.specs\.Results\.\{result\}", text):
                continue
        elif path.endswith(".antt"):
            if not re.search(r"Rattle\.rows\.specs\.Results\.\{result\}|^abbrev pub result :", text, re.M):
                continue
        elif "result " not in text:
            continue
        out = word.sub("outcome_result", text)
        out = re.sub(r"(requires|ensures)\*( \w+)? \{ λ (\w+)\. ⌜ (.*) ⌝ \}", unlambda, out)
        if out != text:
            with open(path, "w", encoding="utf-8") as f:
                f.write(out)


def hex_digits():
    """The kit has a library named hex: the crate is `hex_digits`."""
    if not os.path.isdir("crates/hex"):
        return
    os.rename("crates/hex", "crates/hex_digits")
    with open("crates.txt", encoding="utf-8") as f:
        text = f.read()
    with open("crates.txt", "w", encoding="utf-8") as f:
        f.write("\n".join(line if line.startswith("#") else re.sub(r"\bhex\b", "hex_digits", line) for line in text.split("\n")))
    for path in files((".antt", ".rt", ".edit")):
        with open(path, encoding="utf-8") as f:
            text = f.read()
        out = re.sub(r"\bRattle\.hex\.", "Rattle.hex_digits.", re.sub(r"\bhex::", "hex_digits::", text))
        if out != text:
            with open(path, "w", encoding="utf-8") as f:
                f.write(out)


def unlambda(m):
    body = m[4] if m[3] == "_" else re.sub(r"(?<![\w'.-])" + m[3] + r"(?![\w'-])", "result", m[4])
    if body.startswith("(") and body.endswith(")"):
        depth = 0
        for i, ch in enumerate(body):
            depth += (ch == "(") - (ch == ")")
            if depth == 0:
                break
        if i == len(body) - 1:
            body = body[1:-1]
    return f"{m[1]}{m[2] or ''} {{ {body} }}"


if __name__ == "__main__":
    main()
