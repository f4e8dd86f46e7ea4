#!/usr/bin/env python3
"""Compares the declarations (definitions, records, theorems, lemmas) of two checkouts. Usage: tools/declarations.py OLD [NEW]

It reads specs/ and the files of laws in proofs/, and not the answers and invariants of single functions; lists each declaration of OLD that NEW
has under no crate with the same text, and whether another of its name stands there. Statements are compared, and of records all fields."""
import collections
import pathlib
import re
import sys

DECLARES = re.compile(r"^\s*(?:pub |abbrev |unfoldable |record |data )*([^\s:(){}=]+)(?: \([^=]*\)| \{[^=]*\})* :( |$)")


def declarations(root):
    """All declarations: (crate, name) to its texts, each with the file that it stands in."""
    found = collections.defaultdict(list)
    for path in sorted(root.glob("crates/*/specs/**/*.antt")) + sorted(root.glob("crates/*/proofs/**/*.antt")):
        place = path.relative_to(root)
        if path.name in ("Answers.antt", "Invariants.antt", "Lib.antt") or "out" in place.parts:
            continue
        lines = path.read_text().split("\n")
        for i, line in enumerate(lines):
            m = DECLARES.match(line)
            if not m or line.strip().startswith(("--", "use ", "infix", "module", "let ", "in ")):
                continue
            indent = len(line) - len(line.lstrip())
            text = [line.strip()]
            for more in lines[i + 1 :]:
                if not more.strip() or len(more) - len(more.lstrip()) <= indent:
                    break
                text.append(more.strip())
            plain = re.sub(r"^((pub|abbrev|unfoldable) )+", "", " ".join(text))
            found[place.parts[1], m.group(1)].append((" ".join(plain.split()), str(place)))
    return found


old, new = (declarations(pathlib.Path(p)) for p in (sys.argv[1:] + ["."])[:2])
everywhere = collections.defaultdict(set)
for (crate, name), texts in new.items():
    everywhere[name].update(text for text, _ in texts)
print(sum(map(len, old.values())), "declarations of", sys.argv[1])
listed = {
    f"{'changed' if (crate, name) in new else 'gone'} {place} {name}"
    for (crate, name), texts in old.items()
    for text, place in texts
    if text not in everywhere[name]
}
print(*sorted(listed, key=lambda line: line.split(" ", 1)[1]), sep="\n")
