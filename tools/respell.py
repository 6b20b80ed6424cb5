#!/usr/bin/env python3
"""Respells the repository's own definitions and lemmas: snake case, and a dash only between two names.

usage: tools/respell.py [--list]     at the top of the repository

It reads every definition below crates/*/specs and crates/*/proofs, gives each a spelling, and writes it wherever the name is meant:
in .antt files, in the ghost lines and clauses of .rt files, in the texts of edits, and between backticks in pages and comments.
A name that a file imports from elsewhere is left as it is there. Names of Rattle source, types and constants keep their spelling.
--list prints the table and writes nothing. It stops where two names would fall together.
"""

import collections
import os
import re
import sys

TOKEN = re.compile(r"[^\s(){}\[\],.;`\"]+")
DEFINES = re.compile(r"^\s*((?:(?:abbrev|unfoldable|pub) )*)([^\s(){}\[\],.;:]+)((?: [^\s(){}\[\],.;:]+)*)(?:\s*\{[^}]*\})?\s*:\s")
DATA = re.compile(r"^\s*(?:pub )?(?:data|record) ([^\s(){}\[\],.;:]+)")
USE = re.compile(r"^\s*(?:pub |ghost )*use ([^\s{};]+?)(?:\.\{([^}]*)\})?;?\s*$")
# Names of the library that a lemma of ours may join to another.
LIBRARY = "length map take drop append set get_or replicate reverse slice mem cond".split()
# Two words that would have one spelling: one of them gets another name.
APART = {"nodeRun": "run_of_node", "zeroRow": "zero_given", "one-tree": "one_text"}


def files(top):
    for folder, dirs, names in os.walk(top):
        dirs[:] = sorted(d for d in dirs if d not in ("out", "target", ".git"))
        for n in sorted(names):
            yield os.path.join(folder, n)


def of_a_function(path):
    """Whether a file is the proof of a function: what it declares is goals of the toolchain's naming."""
    return os.path.basename(path) in ("Proof.antt", "Answers.antt", "Invariants.antt") and "/" in path.split("/proofs/")[-1] and "/proofs/" in path


def read(path):
    with open(path, encoding="utf-8") as f:
        return f.read()


def defined(text):
    """The names that a file of specs/ or proofs/ declares, and those among them that are words: not laws."""
    names, words = set(), set()
    for line in text.split("\n"):
        if line.lstrip().startswith("--"):
            continue
        m = DATA.match(line)
        if m:
            names.add(m[1])
            continue
        m = DEFINES.match(line)
        if not m or m[2] in ("use", "module", "open", "let", "in", "_"):
            continue
        for n in [m[2], *m[3].split()]:
            names.add(n)
            if "abbrev" in m[1] or "unfoldable" in m[1]:
                words.add(n)
    return names, words


def snake(part):
    part = part.replace("getD", "get_or")
    part = re.sub(r"(?<=[a-z0-9])(?=[A-Z])", "_", part)
    return part.lower()


def spell(name, words):
    if not re.fullmatch(r"[A-Za-z0-9_'-]+", name) or name[0].isupper() or name.isupper():
        return name
    parts = [snake(p) for p in name.split("-")]
    # the longest runs of parts that are words of ours or of the library
    cut, i = [], 0
    while i < len(parts):
        for j in range(len(parts), i, -1):
            if "_".join(parts[i:j]) in words:
                cut.append(("_".join(parts[i:j]), True))
                i = j
                break
        else:
            cut.append((parts[i], False))
            i += 1
    made, was = cut[0]
    for part, known in cut[1:]:
        made += ("-" if was and known else "_") + part
        was = known
    return made


def imports(text):
    """(own, other): the names that a file brings in from this repository's crates, and from anywhere else."""
    own, other = set(), set()
    for line in text.split("\n"):
        m = USE.match(line)
        if not m or not m[2]:
            continue
        crate = re.match(r"Rattle\.(\w+)", m[1])
        here = own if crate and crate[1] in CRATES else other
        for n in m[2].split(","):
            here.update(n.split(" as "))
    return {n.strip() for n in own}, {n.strip() for n in other}


def turn(text, table, foreign):
    return TOKEN.sub(lambda m: table.get(m[0], m[0]) if m[0] not in foreign else m[0], text)


def in_backticks(text, table):
    return re.sub(r"`[^`\n]*`", lambda m: turn(m[0], table, ()), text)


def with_aliases(text, table):
    """A name that a file gives by `as` is its own, and has no law beside it."""
    aliases = re.findall(r" as ([^\s(){}\[\],.;`\"]+)", "\n".join(l for l in text.split("\n") if USE.match(l)))
    return table | {a: spell(a, set(LIBRARY)) for a in aliases}


def turn_antt(text, table):
    table = with_aliases(text, table)
    own, other = imports(text)
    foreign = other - own
    out = []
    for line in text.split("\n"):
        code, dash, comment = line, "", ""
        m = re.search(r"(^|\s)--\s", line)
        if m:
            code, comment = line[: m.end()], line[m.end() :]
        m = USE.match(line)
        if m and m[2]:
            crate = re.match(r"Rattle\.(\w+)", m[1])
            out.append(turn(line, table, ()) if crate and crate[1] in CRATES else line)
        else:
            out.append(turn(code, table, foreign) + in_backticks(comment, table))
    return "\n".join(out)


def turn_rt(text, table):
    table = with_aliases(text, table)
    own, other = imports(text)
    foreign = other - own
    out, depth = [], 0
    for line in text.split("\n"):
        m = USE.match(line.rstrip(";"))
        if line.startswith("ghost use"):
            crate = re.match(r"ghost use Rattle\.(\w+)", line)
            out.append(turn(line, table, ()) if crate and crate[1] in CRATES else line)
        elif depth or re.match(r"\s*(requires|ensures|ghost|invariant)\b", line):
            out.append(turn(line, table, foreign))
            depth += line.count("{") - line.count("}")
        elif "//" in line:
            at = line.index("//")
            out.append(line[:at] + in_backticks(line[at:], table))
        else:
            out.append(line)
    return "\n".join(out)


def turn_edit(text, table, path):
    kind, out = "", []
    for line in text.split("\n"):
        if line.startswith("file: "):
            kind = line[6:].strip()
            target = os.path.join(os.path.dirname(os.path.dirname(path)), kind)
            own, other = imports(read(target)) if os.path.isfile(target) else (set(), set())
            foreign = other - own
        elif line.startswith(("old:", "new:")):
            line = line[:4] + turn(line[4:], table, foreign)
        out.append(line)
    return "\n".join(out)


def main(argv):
    names, words, said = set(), set(LIBRARY), set()
    for p in files("crates"):
        if p.endswith(".antt") and not of_a_function(p):
            n, w = defined(read(p))
            names |= n
            said |= w
            words |= {snake(x).replace("-", "_") for x in w}
    table = {n: APART.get(n) or spell(n, words) for n in names}
    back = collections.defaultdict(set)
    for n in names:
        back[table[n]].add(n)
    clash = {}
    for b, group in back.items():
        # a word keeps the spelling, and a law of the same name gets _lem
        keeps = [n for n in group if n in said] or [n for n in group if re.search("[a-z][A-Z]", n)]
        if len(group) > 1 and len(keeps) != 1:
            clash[b] = group
        for n in group:
            if len(group) > 1 and n not in keeps:
                table[n] = b + "_lem"
    table = {a: b for a, b in table.items() if a != b}
    if clash:
        for b, a in sorted(clash.items()):
            print(f"clash: {b}: {', '.join(sorted(a))}")
    if "--list" in argv:
        for a, b in sorted(table.items()):
            print(f"{a}\t{b}")
        for p in files("crates"):
            if p.endswith(".antt") and not of_a_function(p):
                text = read(p)
                own, other = imports(text)
                code = "\n".join(l for l in text.split("\n") if not l.lstrip().startswith("--"))
                there = set(TOKEN.findall(code))
                for a in sorted(there & set(table) - (other - own)):
                    if table[a] in there and table[a] not in table:
                        print(f"{p}: {a} becomes {table[a]}, which is there")
        return 1 if clash else 0
    if clash:
        return 1
    for p in files("."):
        if not os.path.isfile(p) or os.path.islink(p):
            continue
        if p.startswith("./crates/") and p.endswith((".antt", ".rt", ".edit")):
            text = read(p)
            made = turn_antt(text, table) if p.endswith(".antt") else turn_rt(text, table) if p.endswith(".rt") else turn_edit(text, table, p)
        elif p.endswith(".md"):
            text = read(p)
            made = in_backticks(text, table)
        else:
            continue
        if made != text:
            with open(p, "w", encoding="utf-8") as f:
                f.write(made)
    return 0


CRATES = {c for c in os.listdir("crates") if os.path.isdir(os.path.join("crates", c, "src"))} if os.path.isdir("crates") else set()

if __name__ == "__main__":
    raise SystemExit(main(sys.argv[1:]))
