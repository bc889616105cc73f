#!/usr/bin/env python3
"""Respells the repository's own definitions and lemmas as the newer Rattle does: words in snake case.

usage: python3 tools/respell.py        at the top, once, right after the kit's own port.py

Rows of tools/respell.tsv are old name, new name, and optionally the crates in which the row holds and in which the name is a
lemma's alone (such a name is not turned behind a dot). It also turns `before x` and `after x` in clauses: `x.now` of a `&`, and
`x.old` and `x.new` of a `&mut`. Functions of src/, exported names, strings, inputs and outputs keep their names.
"""
import os
import re

ROOT = os.path.dirname(os.path.dirname(os.path.abspath(__file__)))
TABLE = os.path.join(ROOT, "tools", "respell.tsv")
TOKEN = re.compile(r"[^\s(){}.;,@\"«»\[\]`]+")
FN = re.compile(r"\bfn\s+\w+(?:<[^>]*>)?\s*\(([^)]*)\)", re.S)


def rows():
    everywhere, local = {}, []
    with open(TABLE, encoding="utf-8") as f:
        for line in f:
            parts = line.rstrip("\n").split("\t")
            if len(parts) == 2:
                everywhere[parts[0]] = parts[1]
            else:
                local.append((parts[0], parts[1], parts[2].split()))
    return everywhere, local


def respelled(code, table, lemmas):
    def turn(m):
        word = m.group(0)
        if word in lemmas and not (m.start() and code[m.start() - 1] == "."):
            return lemmas[word]
        return table.get(word, word)

    return TOKEN.sub(turn, code)


def antt(text, table, lemmas):
    out = []
    for line in text.split("\n"):
        k = re.search(r"(?:^|\s)--(?=\s|$)", line)
        code, comment = (line[: k.start()], line[k.start() :]) if k else (line, "")
        out.append(respelled(code, table, lemmas) + prose(comment, table))
    return "\n".join(out)


def prose(text, table):
    return re.sub(r"`[^`\n]+`", lambda m: respelled(m.group(0), table, {}), text)


def clauses(text):
    """The spans of clauses and of ghost uses in a source file."""
    spans = []
    for m in re.finditer(r"(?m)^(?:pub )?ghost use [^;]*;", text):
        spans.append(m.span())
    for m in re.finditer(r"(?m)^\s*(?:requires|ensures)\*?\s*(?:\w+\s*)?\{", text):
        depth, i = 1, m.end()
        while depth:
            depth += {"{": 1, "}": -1}.get(text[i], 0)
            i += 1
        spans.append((m.start(), i))
    return sorted(spans)


def lent(text, at):
    """What the function whose clause stands at a place is lent: name, and whether it may be changed."""
    m = None
    for m in FN.finditer(text, 0, at):
        pass
    found = {}
    for p in re.finditer(r"(\w+)\s*:\s*&\s*(?:'\w+\s+)?(mut\s+)?", m.group(1) if m else ""):
        found[p.group(1)] = bool(p.group(2))
    return found


def loans(clause, params):
    def turn(m):
        word, name, closed = m.group(2), m.group(3), m.group(4)
        if name not in params:
            return m.group(0)
        new = name + (".new" if word == "after" else ".old" if params[name] else ".now")
        return new if m.group(1) and closed else (m.group(1) or "") + new + (closed or "")

    return re.sub(r"(\()?\b(before|after) (\w+)\b(?![.'])(\))?", turn, clause)


def rust(text, table, lemmas):
    out, at = [], 0
    for start, end in clauses(text):
        out.append(prose(text[at:start], table))
        clause = text[start:end]
        if "ghost use" not in clause[:20]:
            clause = loans(clause, lent(text, start))
        out.append(respelled(clause, table, lemmas))
        at = end
    out.append(prose(text[at:], table))
    text = "".join(out)
    body = re.sub(r"(?m)^(?:pub )?ghost use [^;]*;", "", text)

    def used(m):
        names = [n.strip() for n in m.group(1).split(",")]
        names = [n for n in names if re.search(r"\b" + n + r" \w", body)]
        return "ghost use Rattle.wire.specs.Loans.{" + ", ".join(names) + "};\n" if names else ""

    return re.sub(r"ghost use Rattle\.wire\.specs\.Loans\.\{([^}]*)\};\n", used, text)


def main():
    table, local = rows()
    for folder, dirs, files in os.walk(os.path.join(ROOT, "crates")):
        dirs[:] = [d for d in dirs if d != "out"]
        crate = os.path.relpath(folder, os.path.join(ROOT, "crates")).split(os.sep)[0]
        lemmas = {a: b for a, b, crates in local if crate in crates}
        for f in sorted(files):
            path = os.path.join(folder, f)
            if not f.endswith((".antt", ".rt")):
                continue
            with open(path, encoding="utf-8") as it:
                old = it.read()
            new = antt(old, table, lemmas) if f.endswith(".antt") else rust(old, table, lemmas)
            if new != old:
                with open(path, "w", encoding="utf-8") as it:
                    it.write(new)
    for folder in ("docs", "docs/changes", "."):
        for f in sorted(os.listdir(os.path.join(ROOT, folder))):
            path = os.path.join(ROOT, folder, f)
            if not f.endswith(".md") or f.startswith("PORT"):
                continue
            with open(path, encoding="utf-8") as it:
                old = it.read()
            new = prose(old, table)
            if new != old:
                with open(path, "w", encoding="utf-8") as it:
                    it.write(new)


if __name__ == "__main__":
    main()
