#!/usr/bin/env python3
"""Spells the repository's own antt names in snake case: `check-word` becomes `check_word`.

usage: python3 tools/snake_names.py [--check]      at the top of the repository; --check writes nothing

It ran once, on what the kit's port.py wrote of this repository (docs/PORT.md); on a tree in the new form it would turn the names that Rattle makes too.

A name is turned where it is the repository's own: declared in a file of crates/ (a signature, a field, a constructor, a binder), and not brought in from a library in that file.
In specs/ and in lemma files every name is, but for what comes from a library. What Rattle makes from the code (goals, steps and their fields) keeps its dashes.
Turned are the code of .antt files, the clauses of .rt files, both sides of .edit files, and code spans of comments and pages. Names that would fall together in one file are shown.
"""

import os
import re
import sys

TOKEN = re.compile(r"(?<![\w'\-·.#+])[A-Za-z_ℕ][\w']*(?:-[\w']+)+(?![\w'\-])")
BEHIND_DOT = re.compile(r"(?<=\.)[A-Za-z_ℕ][\w']*(?:-[\w']+)+(?![\w'\-])")
SIGNATURE = re.compile(r"^\s*(?:(?:abbrev|unfoldable|pub|let|where|data|record|infixl?r?|\|)\s+)*((?:[^\s(){};:,]+\s+)*?[^\s(){};:,]+)\s+:(?=\s|$)")
BINDER = re.compile(r"[({]\s*((?:[^\s(){};:,]+\s+)*?[^\s(){};:,]+)\s+:(?=\s)")
LAMBDA = re.compile(r"λ\s+((?:[^\s(){}.]+\s+)*[^\s(){}.]+)\s*\.")
LET = re.compile(r"\blet\s+([^\s(){};:,=]+)\s*[:=]")
ARM = re.compile(r"[\[|]\s*((?:[^\s(){}\[\]|↦]+\s+)*[^\s(){}\[\]|↦]+)\s+↦")
HYPHENED = re.compile(r"[A-Za-z_ℕ][\w']*(?:-[\w']+)+")
# the steps of the code, whose names Rattle makes
MADE = re.compile(r"(?:Need|After|Else|Then|Join|In|Loop|Returns|Given|Tie)-|(?:returns|loop|if|then|else|in|in_ok|in_err|index|match|invariant|decreases|overflow|bounds|nonzero|slice|shl|shr|sub|add|mul|cast|part|measure|calls)[-_](?:[\w']|$)")


def crates_files(root):
    for folder, dirs, files in os.walk(os.path.join(root, "crates")):
        dirs[:] = sorted(d for d in dirs if d != "out")
        for f in sorted(files):
            yield os.path.join(folder, f)


def code_parts(text, comment, rust=False):
    """(is_code, part) of a text; what is no code is a comment or a string."""
    quiet = r'"(?:[^"\\\n]|\\.)*"'
    quiet += r"|(?<![^\s(){};,])" + comment + r"[^\n]*"
    at = 0
    for m in re.finditer(quiet, text):
        yield True, text[at : m.start()]
        yield False, m.group()
        at = m.end()
    yield True, text[at:]


def declared(path, text):
    names = set()
    made_here = "/proofs/" in path and os.path.basename(os.path.dirname(path)) != "proofs"
    for is_code, part in code_parts(text, "--"):
        if not is_code:
            continue
        for line in part.split("\n"):
            found = []
            m = SIGNATURE.match(line)
            if m:
                found += m.group(1).split()
            for r in (BINDER, LAMBDA, LET, ARM):
                for m in r.finditer(line):
                    found += m.group(1).split()
            names |= {n for n in found if HYPHENED.fullmatch(n) and not (made_here and MADE.match(n))}
    return names


def from_libraries(text):
    """Hyphened names that the file's `use` items bring in from a library, not from a crate of this repository."""
    names = set()
    for m in re.finditer(r"(?:ghost\s+)?use\s+([\w.·'+\-]+)\.\{([^}]*)\}", text):
        head = m.group(1)
        own = re.match(r"Rattle[.·](\w+)", head)
        if own and os.path.isdir(os.path.join("crates", own.group(1))):
            continue
        for item in m.group(2).split(","):
            names |= set(HYPHENED.findall(item))
    return names


def turned(part, own, kept, every=False):
    def one(m):
        n = m.group()
        return n.replace("-", "_") if (n in own or every) and n not in kept else n

    def behind(m):
        n = m.group()
        return n.replace("-", "_") if n in own and n not in kept else n

    return BEHIND_DOT.sub(behind, TOKEN.sub(one, part))


def spans(text, own, kept):
    return re.sub(r"`[^`\n]+`", lambda m: turned(m.group(), own, kept), text)


def main(argv):
    check = "--check" in argv
    files = list(crates_files("."))
    texts = {p: open(p, encoding="utf-8").read() for p in files if p.endswith((".antt", ".rt", ".edit"))}
    own = set()
    for p, t in texts.items():
        if p.endswith(".antt"):
            own |= declared(p, t)
    # a name that stands hyphened where it is used and in snake case where it is declared
    spelled = set(re.findall(r"[\w']+", "".join(t for p, t in texts.items() if p.endswith(".antt") and "/specs/" in p)))
    for p, t in texts.items():
        if p.endswith(".antt") and "/specs/" in p:
            own |= {n for n in HYPHENED.findall(t) if n.replace("-", "_") in spelled and n not in from_libraries(t)}
    changed = 0
    for p, t in texts.items():
        if p.endswith(".edit"):
            target = re.search(r"^file: (.*)$", t, re.M)
            kept = from_libraries(t)
            new = "".join(
                line if line.startswith("file:") else turned(line, own, kept) for line in t.splitlines(keepends=True)
            )
        else:
            kept = from_libraries(t)
            made_here = p.endswith(".antt") and "/proofs/" in p and os.path.basename(os.path.dirname(p)) != "proofs"
            if made_here:
                kept = kept | {n for n in own if MADE.match(n)}
            new = "".join(
                turned(part, own, kept, p.endswith(".antt") and not made_here) if is_code else spans(part, own, kept)
                for is_code, part in code_parts(t, "--" if p.endswith(".antt") else "//")
            )
            if p.endswith(".antt"):
                before = {n for n in re.findall(r"[^\s(){}\[\].,;]+", t)}
                for n in sorted(own - kept):
                    if n in before and n.replace("-", "_") in before:
                        print(f"together: {p}: {n} and {n.replace('-', '_')}")
        if new != t:
            changed += 1
            if not check:
                open(p, "w", encoding="utf-8").write(new)
    for folder in (".", "docs", "docs/landings"):
        for f in sorted(os.listdir(folder)):
            if f.endswith(".md") and not f.startswith("PORT"):
                p = os.path.join(folder, f)
                t = open(p, encoding="utf-8").read()
                new = spans(t, own, set())
                if new != t:
                    changed += 1
                    if not check:
                        open(p, "w", encoding="utf-8").write(new)
    print(f"{len(own)} names, {changed} files")


if __name__ == "__main__":
    main(sys.argv[1:])
