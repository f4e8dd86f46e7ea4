#!/usr/bin/env python3
"""Brings the repository's own names to the spelling of today's Rattle, once, after port.py: run it at the top.

Definitions, fields and lemmas of specs/ and proofs/ are words in snake case; types, facts and modules stay in camel case.
A dash stays only where it joins two names of the lemma's statement, as in length-list; elsewhere a word is joined by '_'.
The names of src/ are Rust's and stay. A lemma that would have the name of a definition gets _lem; TABLE has the rest.
It turns specs/, proofs/, the clauses of src/, the edits of must-fail/, and code spans of the pages.
"""
import collections, glob, re, sys

TABLE = dict(line.split() for line in """
drop_of drop_of_lem
one_more one_more_lem
patched_bytes patched_bytes_lem
LINE-FEED line_feed
KIND-MOST kind_most
OPERAND-MOST operand_most
law-A law_a_holds
law-B law_b_holds
law-C law_c_holds
law-D law_d_holds
law-E law_e_holds
""".strip().splitlines())

WORD = re.compile(r"[^\s(){}.;,@\"«»`|]+")
DECL = re.compile(r"\s*((?:(?:pub|abbrev|unfoldable|record|data|constructor|instance) )*)(" + WORD.pattern + r")(?:\s+[({].*?)?\s+:(?:\s|$)")

def code(line):
    return re.sub(r"(^|\s)--.*", "", line)

def snake(word):
    return re.sub(r"(?<=[a-z0-9])([A-Z])", lambda m: "_" + m[1].lower(), word) if re.match(r"[a-z]", word) else word

def files():
    return sorted(glob.glob("crates/*/specs/**/*.antt", recursive=True) + glob.glob("crates/*/proofs/**/*.antt", recursive=True))

def declared():
    """Each declared name, with the statements that declare it."""
    where = collections.defaultdict(list)
    for f in files():
        if f.endswith(("/Proof.antt", "/Answers.antt", "/Invariants.antt")):
            continue
        lines = [code(l) for l in open(f, encoding="utf-8").read().split("\n")]
        for i, s in enumerate(lines):
            if s.strip().startswith(("use ", "module ", "elim ", "let ", "|", "→", "(", "infix", "open ")):
                continue
            m = DECL.match(s)
            if m:
                statement = s[m.end():]
                for l in lines[i + 1:]:
                    if not re.match(r"\s+(→|\(|[^\s]+ [^:]*→)", l):
                        break
                    statement += " " + l
                where[m[2]].append((f, set(WORD.findall(statement))))
    return where

def words_of(f):
    text = "\n".join(code(l) for l in open(f, encoding="utf-8"))
    return set(WORD.findall(text))

def table():
    where, new = declared(), {}
    for name, fs in where.items():
        if name in TABLE:
            new[name] = TABLE[name]
            continue
        parts = [p for p in name.split("-")]
        if not all(parts):
            continue
        out = snake(parts[0])
        for k in range(1, len(parts)):
            joins = True
            for _, have in fs:
                joins &= any("-".join(parts[i:k]) in have for i in range(k)) and any("-".join(parts[k:j]) in have for j in range(k + 1, len(parts) + 1))
            out += ("-" if joins else "_") + snake(parts[k])
        if out != name:
            new[name] = out
    taken = {new.get(n, n) for n in where if "-" not in n}
    for name, out in new.items():
        if "-" in name and name not in TABLE and out in taken:
            new[name] = out + "_lem"
    return where, new

def turn(text, new):
    return WORD.sub(lambda m: new.get(m[0], m[0]), text)

def comment(text, new):
    """In prose only a name that no English word is spelled like turns: one in camel case, or one in a code span."""
    text = re.sub(r"`[^`\n]+`", lambda m: turn(m[0], new), text)
    return WORD.sub(lambda m: new[m[0]] if m[0] in new and re.search(r"[a-z0-9][A-Z]", m[0]) else m[0], text)

def antt(text, new):
    out = []
    for line in text.split("\n"):
        m = re.search(r"(^|\s)--", line)
        k = m.start() if m else len(line)
        out.append(turn(line[:k], new) + comment(line[k:], new))
    return "\n".join(out)

def rust(text, new):
    out = []
    for line in text.split("\n"):
        k = line.find("//")
        k = len(line) if k < 0 else k
        out.append(turn(line[:k], new) + comment(line[k:], new))
    return "\n".join(out)

def edit(text, new):
    return "\n".join(re.sub(r"^((?:old|new): )(.*)", lambda m: m[1] + turn(m[2], new), l) if re.match("old: |new: ", l) else comment(l, new) for l in text.split("\n"))

def local(f, text, where):
    """A variable is a word in snake case as well: what is no name of a library and is declared nowhere."""
    away = set()
    for m in re.finditer(r"^use (?!Rattle\.(?!std))[^\n]*", text, re.M):
        away |= set(WORD.findall(m[0]))
    own = {w for w in words_of(f) if re.fullmatch(r"[a-z][a-z0-9_]*(-[a-z0-9_]+)+'?", w) and w not in where and w not in away}
    used = set()
    for m in re.finditer(r"^use Rattle\.(?!std)[^\n]*", text, re.M):
        used |= set(WORD.findall(m[0]))
    return {w: w.replace("-", "_") for w in own - used}

def main():
    where, new = table()
    if sys.argv[1:] == ["--table"]:
        for a, b in sorted(new.items()):
            print(a, b)
        return
    if sys.argv[1:] == ["--clashes"]:
        back = collections.defaultdict(set)
        for n in where:
            back[new.get(n, n)].add(n)
        for b, olds in sorted(back.items()):
            if len(olds) > 1:
                print("together:", b, "<-", *sorted(olds), *sorted({f for o in olds for f, _ in where[o]}))
        for f in files() + sorted(glob.glob("crates/*/src/*.rt")):
            if f.endswith("Proof.antt"): continue
            have = words_of(f)
            for w in sorted(have):
                if w in new and new[w] in have:
                    print("in one file:", f, w, "->", new[w])
        return
    names = set(where) | set(new.values())
    for f in files():
        here = {} if f.endswith("/Proof.antt") else local(f, open(f, encoding="utf-8").read(), names)
        change(f, antt, {**here, **new})
    for f in glob.glob("crates/*/src/*.rt"):
        change(f, rust, new)
    for f in glob.glob("crates/*/must-fail/*.edit"):
        change(f, edit, new)
    for f in glob.glob("*.md") + glob.glob("docs/**/*.md", recursive=True):
        change(f, comment, new)

def change(f, how, new):
    old = open(f, encoding="utf-8").read()
    now = how(old, new)
    if now != old:
        open(f, "w", encoding="utf-8").write(now)

main()
