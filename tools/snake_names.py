#!/usr/bin/env python3
"""Brings the names of this repository's own definitions and lemmas to snake case: `facts-front` becomes `facts_front`.

usage: python3 tools/snake_names.py            at the top of the repository, once, after the kit's script of spellings

A name is turned where it is defined in specs/ or proofs/ with a dash in it. Answers and invariants keep the names of their
goals, which the check makes; lemmas that stand among the answers are turned in their own file. Strings, functions of src/,
goals, and names of the library stay, and so do comments, but for names between backticks. It stops, and writes nothing,
where a name that is turned everywhere would fall together with another word, unless OTHER gives it another name or SHARED
allows it.
"""

import os
import re
import sys

# Names that would fall together with a word of the library, and what they become.
OTHER = {"bit-and": "bit-bit_and", "bit-or": "bit-bit_or"}

# Names of functions of src/ that a definition may share: code and clauses have names of their own.
SHARED = {
    "action_words", "argument_fits", "book_fits", "counts_fit", "first_state", "is_variable", "may_be_first", "needs_hold",
    "network_name", "operator_bytes", "plant_bytes", "plant_fits", "takes_both", "takes_second",
}

WORD = r"[^\W\d][\w']*(?:-[\w']+)*"
DEFINED = re.compile(rf"^\s*(?:(?:abbrev|unfoldable|pub|data|record)\s+)*({WORD})\s+:(?=\s|$)")
ANSWERS = ("Answers.antt", "Invariants.antt")
ASKED = re.compile(r":\s*(?:goal|given|need)\.")
# Strings and the text of comments, which stay as they are, and names between backticks, which are turned in comments too.
PIECES = re.compile(r'"(?:\\.|[^"\\\n])*"|`[^`\n]*`|--(?=\s)[^\n`]*|//[^\n`]*')


def files(root):
    for folder, dirs, names in os.walk(os.path.join(root, "crates")):
        dirs[:] = sorted(d for d in dirs if d != "out")
        for name in sorted(names):
            if name.endswith((".antt", ".rt")):
                yield os.path.join(folder, name)


def defined(text):
    """The names with a dash that a file defines."""
    found = set()
    for line in text.splitlines():
        m = DEFINED.match(line)
        if m and not ASKED.search(line):
            found.add(m.group(1))
    return {n for n in found if "-" in n}


def line_turned(line, names):
    """The line with each of these names turned, outside strings and comments."""

    def outside(part):
        return re.sub(WORD, lambda m: names.get(m.group(0), m.group(0)), part)

    out, at, commented = [], 0, False
    for m in PIECES.finditer(line):
        between, piece = line[at:m.start()], m.group(0)
        out.append(between if commented else outside(between))
        out.append(outside(piece) if piece.startswith("`") else piece)
        commented = commented or piece.startswith(("--", "//"))
        at = m.end()
    rest = line[at:]
    out.append(rest if commented else outside(rest))
    return "".join(out)


def turned(text, names):
    return "".join(line_turned(line, names) for line in text.splitlines(keepends=True))


def main():
    texts = {}
    for path in files(os.getcwd()):
        with open(path, encoding="utf-8") as f:
            texts[path] = f.read()
    everywhere, own = {}, {}
    for path, text in texts.items():
        names = {n: OTHER.get(n, n.replace("-", "_")) for n in defined(text)}
        if os.path.basename(path) in ANSWERS:
            own[path] = names
        else:
            everywhere.update(names)
    used = set()
    for text in texts.values():
        used.update(re.findall(WORD, text))
    together = sorted(n for n in set(everywhere.values()) if n in used and n not in SHARED)
    if together:
        print("names that fall together: " + ", ".join(together), file=sys.stderr)
        return 1
    changed = 0
    for path, text in texts.items():
        after = turned(text, {**everywhere, **own.get(path, {})})
        if after != text:
            with open(path, "w", encoding="utf-8") as f:
                f.write(after)
            changed += 1
    print(f"{len(everywhere)} names turned everywhere, in {changed} files")
    return 0


if __name__ == "__main__":
    raise SystemExit(main())
