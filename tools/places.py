#!/usr/bin/env python3
"""Counts, in src/, the places that each point of the design pass is about. Usage: tools/places.py [ROOT]; with -v each place is listed.

Points 1 to 7 are counted over crates/*/src/*.rt, point 8 over proofs/. It finds candidates; docs/DESIGN-PASS.md says what became of each."""
import collections
import itertools
import pathlib
import re
import sys

args = [a for a in sys.argv[1:] if a != "-v"]
verbose = "-v" in sys.argv
root = pathlib.Path(args[0] if args else ".")
sources = sorted(root.glob("crates/*/src/**/*.rt"))

REFUSALS = "ACCEPTED|SHAPE|EVENT|ENDED|NOMSG|SELF|EMPTY|AWAY|ROOT|NOROOM|NOENTRY|BUSY|TORN|FULL|SHORT|KIND|LENGTH|ORDER|VALUE|TRAIL|ROOM"
LINES = {
    "1 a number or a flag beside a value": r"^\s+(pub )?(answer|refusal|bad|line|s): (u8|u16|u32|usize),",
    "1 numbers for refusals": rf"const ({REFUSALS}): u8 =",
    "1 numbers for kinds": r"const (NEW|CLEAR|SEND|RECEIVE|SETTLE|COLLECT|DROP): u16 =|const (DIRECTORY|REMOTE|COUNT|LIVE|ROOTS|REFERENCE|DECREMENT|END): u8 = (0x|1;)",
    "1 enums with a variant for nothing": r"^    (Unknown|Nothing|Refused|NotReached|Bad|Same|Empty|Absent|Broken)(\(u8\))?,$",
    "1 a number that says that there is none": r"fn (free_own|empty_place|depth_report|depth_in)\b.*-> u8",
    "3 while and loop": r"^\s*(while|loop)\b",
    "4 casts": r"\bas (u8|u16|u32|u64|usize|i32)\b",
    "4 comparing, converting or printing by hand": r"fn (same\w*|is_this_\w+|wide|word|quad|byte_\d|bits_of|count_of|returns_of|one_if|say\w*|kind_of\w*|is_unknown|is_end|copy|copy_part|store_four|number|of_object|of_roots)\b",
    "6 a buffer with its length beside it, parallel arrays": r"^    pub (bytes: \[u8; 20\]|length: usize),|^const [A-DK][A-Z]*: \[u(8|16); 12\]",
    "7 functions by name, dyn, boxes": r"\bdyn\b|\bBox<|: fn\(",
}


def functions(text):
    """The functions of a file: (name, parameters, clauses, body)."""
    for m in re.finditer(r"\bfn (\w+)(<[^>]*>)?\(", text):
        i, depth = m.end(), 1
        while depth:
            depth += {"(": 1, ")": -1}.get(text[i], 0)
            i += 1
        params = text[m.end() : i - 1]
        start = re.search(r"^(\s*)\{$", text[i:], re.M)
        inline = re.match(r"[^{;]*\{", text[i:])
        if not start and not inline:
            continue
        at = i + (start.end() if start else inline.end())
        clauses = text[i : i + (start.start() if start else inline.end())]
        j, depth = at, 1
        while depth and j < len(text):
            depth += {"{": 1, "}": -1}.get(text[j], 0)
            j += 1
        yield m.group(1), params, clauses, text[at : j - 1]


KEYWORDS = {"if", "else", "while", "for", "in", "match", "return", "let", "mut", "loop", "true", "false", "as", "self", "break"}


def shape(body):
    """A body with its names and numbers taken out."""
    body = re.sub(r"//.*", "", body)
    tokens = re.findall(r"\w+|[^\w\s]", body)
    return tuple(t if t in KEYWORDS or not re.match(r"\w", t) else "x" for t in tokens)


found = collections.OrderedDict((k, []) for k in LINES)
bodies = collections.defaultdict(list)
together = collections.defaultdict(set)
facts = collections.defaultdict(set)
for path in sources:
    text = path.read_text()
    crate = path.relative_to(root / "crates").parts[0]
    for n, line in enumerate(text.split("\n"), 1):
        if line.lstrip().startswith(("//", "ghost ")):
            continue
        for key, pattern in LINES.items():
            if re.search(pattern, line):
                found[key].append(f"{path.relative_to(root / 'crates')}:{n}: {line.strip()}")
    for name, params, clauses, body in functions(text):
        where = f"{path.relative_to(root / 'crates')}:{name}"
        s = shape(body)
        if len(s) >= 18:
            bodies[s].append(where)
        names = sorted({" ".join(p.split()) for p in params.split(",") if ":" in p})
        for pair in itertools.combinations(names, 2):
            together[(crate, pair)].add(where)
        for clause in re.findall(r"(?:requires|ensures)\s*\w*\s*\{(.*?)\}\s*$", clauses, re.M):
            if "result" not in clause and ".new" not in clause:
                facts[(crate, " ".join(clause.split()))].add(where)

twins = [ws for ws in bodies.values() if len(ws) > 1]
found["2 functions whose bodies differ only in names or numbers"] = [", ".join(ws) for ws in twins]
found["5 two parameters that three functions or more take together"] = [
    f"{crate}: {a}, {b}: {len(ws)}" for (crate, (a, b)), ws in sorted(together.items()) if len(ws) >= 3
]
found["5 a fact that three functions or more require"] = [f"{crate}: {fact}: {len(ws)}" for (crate, fact), ws in sorted(facts.items()) if len(ws) >= 3]
answers = sorted(root.glob("crates/*/proofs/**/Answers.antt"))
invariants = sorted(root.glob("crates/*/proofs/**/Invariants.antt"))
found["8 files of answers"] = [str(p.relative_to(root)) for p in answers]
found["8 lines of answers"] = [line for p in answers for line in p.read_text().split("\n") if line.strip()]
found["8 files of invariants"] = [str(p.relative_to(root)) for p in invariants]
for key in sorted(found):
    print(f"{len(found[key]):5}  {key}")
    if verbose and key != "8 lines of answers":
        for place in found[key]:
            print(f"         {place}")
