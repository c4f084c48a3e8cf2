#!/usr/bin/env python3
"""Brings this repository's own words to today's spelling: definitions, lemmas and fields in snake case.

usage: python3 tools/respell.py [ROOT]      once, after the kit's port.py has turned the tree at ROOT (default: here)

A word that begins small and has a capital inside is turned (`eventsOf` to `events_of`), in .antt files, in the clauses of
.rt files, in must-fail edits and in the pages. Names of Rust's side have no such form, so none of them is touched.
Where a turned word would fall together with another of the same file, OTHERS says what is written.
Constructors keep the names of the original's enums, and a dash that joins two names in a lemma stays.
"""
import os
import re
import sys

# words with a dash that are fields and constructors
DASHED = """a-false a-null a-number a-string a-true an-array an-object at-is content-is count-is empty-array empty-object
end-array end-object next-is next-item next-member no-digits no-exp no-frac no-members no-ws room-ends room-merged
room-names room-places""".split()

# per crate (or '*'): words that would fall together with a turned one, and what stands for them
OTHERS = {
    "json": {"chars_rest": "chars_rest_lem"},
    "writing": {"chars_rest": "chars_rest_lem"},
    "rules": {"key_has": "key_has_lem", "put-out": "put_out"},
    "line_list": {"not_lower": "not_lower_lem"},
    "json_check": {"of_number": "of_number_lem"},
    "prints": {"hasKey": "holds_key", "hasPair": "holds_pair"},
}

TOKEN = re.compile(r"(?<![\w'])[^\W\d][\w'₀-₉]*(?:-[\w'₀-₉≤≡≢+*∷]+)*")


def snake(part):
    if not re.match(r"[a-z]", part) or not re.search(r"[a-z0-9][A-Z]", part):
        return part
    part = re.sub(r"([A-Z]+)([A-Z][a-z])", r"\1_\2", part)
    return re.sub(r"([a-z0-9])([A-Z])", r"\1_\2", part).lower()


def turned(word, others):
    if word in others:
        return others[word]
    if word in DASHED:
        return word.replace("-", "_")
    return "-".join(others.get(p, snake(p)) if p != word else snake(p) for p in word.split("-"))


def respell(text, others):
    return TOKEN.sub(lambda m: turned(m.group(0), others), text)


def pages(root, words):
    """The pages' words: only those that stand in backquotes and were turned in the crates."""
    docs = os.path.join(root, "docs")
    for path in [os.path.join(root, "README.md")] + [os.path.join(docs, f) for f in sorted(os.listdir(docs)) if f.endswith(".md")]:
        if os.path.basename(path) == "PORT.md":
            continue
        with open(path, encoding="utf-8") as f:
            text = f.read()
        new = re.sub(r"`[^`\n]+`", lambda m: TOKEN.sub(lambda t: words.get(t.group(0), t.group(0)), m.group(0)), text)
        if new != text:
            with open(path, "w", encoding="utf-8") as f:
                f.write(new)


def main(root):
    words = {}
    for folder, dirs, files in os.walk(os.path.join(root, "crates")):
        dirs[:] = sorted(d for d in dirs if d != "out")
        crate = os.path.relpath(folder, os.path.join(root, "crates")).split(os.sep)[0]
        others = OTHERS.get(crate, {})
        for name in sorted(files):
            if not name.endswith((".antt", ".rt", ".edit")):
                continue
            path = os.path.join(folder, name)
            with open(path, encoding="utf-8") as f:
                text = f.read()
            # paths of proof folders and files are named after functions of src/ and stay
            new = respell(text, {} if name.endswith(".rt") else others)
            for word in TOKEN.findall(text):
                if turned(word, {}) != word:
                    words[word] = turned(word, {})
            if new != text:
                with open(path, "w", encoding="utf-8") as f:
                    f.write(new)
    pages(root, words)


if __name__ == "__main__":
    main(sys.argv[1] if len(sys.argv) > 1 else ".")
