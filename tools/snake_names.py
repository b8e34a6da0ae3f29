#!/usr/bin/env python3
"""Brings the repository's own definitions and lemmas to this Rattle's spelling: snake case, and an apostrophe for a prime.

usage: python3 tools/snake_names.py     at the top of the repository, once, after the kit's port.py

It turns names that crates/*/specs and crates/*/proofs define: in those files, in the clauses of src/, in the must-fail edits, and in the
pages' code spans. Types and modules keep their capitals. It leaves names that the checker makes, and all that src/ itself names.
"""

import collections
import os
import re
import subprocess

TOKEN = re.compile(r"[^\s(){}\[\],;.@|`\"⌜⌝]+")
DEFINED = re.compile(r"^\s*(?:(?:abbrev|unfoldable|pub)\s+)*([^\s(){}\[\],;.@:]+(?:\s+[^\s(){}\[\],;.@:]+)*)\s+:\s")
BOUND = re.compile(r"\blet\s+([^\s(){}\[\],;.@:]+)\s*(?::|=)")
MADE = re.compile(r":\s+tie\.|:\s+\{M : Type 1\} → statement")
PAGES = ["README.md", "CHANGELOG.md", "docs/CHECKLIST.md", "docs/DECISIONS.md", "docs/PROMISES.md", "docs/TRUST.md", "docs/WORDS.md"]

# Where the plain turn would meet another name: a function of src/ in whose clauses the name stands, or a lemma.
CHOSEN = {
    "methodOf": "method_numbered",
    "wayBad": "first_way_bad",
    "badSize": "is_bad_size",
    "begunSet": "set_begun_with",
    "allChecks": "with_all_checks",
    "replyOf": "reply_at_end",
    "goes_on": "goes_on_lem",
    "two_bytes": "two_bytes_lem",
    "is_live": "is_live_lem",
    "26-short": "short_of_26",
    "26-small": "small_for_26",
}


def snake(name):
    name = re.sub(r"([a-z0-9₀-₉])([A-Z])", lambda m: m.group(1) + "_" + m.group(2).lower(), name)
    return name.replace("-", "_")


def files(endings):
    for folder, dirs, names in os.walk("crates"):
        dirs[:] = sorted(d for d in dirs if d != "out")
        for name in sorted(names):
            if name.endswith(endings):
                yield os.path.join(folder, name)


def read(path):
    with open(path, encoding="utf-8") as f:
        return f.read()


def turned_names():
    """What each own name becomes."""
    own, seen = set(), collections.Counter()
    for path in files((".antt",)):
        for line in read(path).split("\n"):
            if line.lstrip().startswith("--"):
                continue
            seen.update(TOKEN.findall(line))
            if line.lstrip().startswith("use ") or MADE.search(line):
                continue
            m = DEFINED.match(line)
            own.update(m.group(1).split() if m else [])
            own.update(BOUND.findall(line))
            # a name that only a pattern or a λ binds
            own.update(t for t in TOKEN.findall(line) if re.fullmatch(r"[a-z]+(?:[A-Z][a-z0-9]*)+'?", t))
    names = sorted(n for n in own if n in CHOSEN or re.match(r"^[a-z]", n) and re.search(r"[A-Z-]", n))
    to = {n: CHOSEN.get(n) or snake(n) for n in names}
    to |= {n: CHOSEN[n] for n in CHOSEN if n in seen}
    # of two that fall together, or where the turned name stands already, the lemma with dashes yields
    taken = {t for t in seen if t not in to}
    for n in names:
        if n not in CHOSEN and "-" in n and (to[n] in taken or any(m != n and to[m] == to[n] for m in names)):
            to[n] += "_lem"
    return to


def turn(text, to):
    return TOKEN.sub(lambda m: to.get(m.group(), m.group()), text)


def turn_line(path, line, to):
    if path.endswith(".edit"):
        return re.sub(r"^((?:old|new): )(.*)$", lambda m: m.group(1) + turn(m.group(2), to), line)
    comment = re.search(r"--\s.*$" if path.endswith(".antt") else r"//.*$", line)
    if not comment:
        return turn(line, to)
    words = {n: t for n, t in to.items() if re.search(r"[A-Z]", n)}
    return turn(line[: comment.start()], to) + turn(comment.group(), words)


def main():
    to = turned_names()
    for path in files((".antt", ".rt", ".edit")):
        text = read(path)
        new = "\n".join(turn_line(path, line, to) for line in text.split("\n"))
        if new != text:
            with open(path, "w", encoding="utf-8") as f:
                f.write(new)
    pages = PAGES + sorted(os.path.join("docs/changes", f) for f in os.listdir("docs/changes")) + list(files(("README.md",)))
    for path in pages:
        text = read(path)
        new = re.sub(r"`[^`\n]+`", lambda m: turn(m.group(), to), text)
        if new != text:
            with open(path, "w", encoding="utf-8") as f:
                f.write(new)
    for crate in sorted(os.listdir("crates")):
        subprocess.run(["rt", "fmt"], cwd=os.path.join("crates", crate), stdout=subprocess.DEVNULL, check=False)
    for old, new in sorted(to.items()):
        print(old, new)


if __name__ == "__main__":
    main()
