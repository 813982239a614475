#!/usr/bin/env python3
"""Brings the names of this repository's definitions and laws to one spelling: words joined by '_', as `most_columns` and `apart_bits`.

usage: python3 tools/respell.py      at the top of the repository, once, on what port.py of the Rattle kit left

A name is turned where a file of specs/ or proofs/ declares it with a capital inside or with a dash, or uses it so as a variable, unless a library has
it. What the check itself names after the code (the goals of a function) stays, and so do facts and types, which begin with a capital, names of the
code, and every string. The pages and the edits that must be refused turn along: there a name with a dash only between backticks or in an antt file's text.
Where two names would fall together, FALL says which gives way. A second run changes nothing.
"""

import collections
import os
import re

TOKEN = re.compile(r'[^\s(){}.;,@"«»\x60]+')
CAMEL = re.compile(r"^[a-z]\w*[a-z0-9][A-Z]\w*'*$")
DECLARED = re.compile(r'^\s*(?:(?:unfoldable|abbrev|pub|data|record|axiom)\s+)*([^\s(){}.;,@"«»:|]+)(?:\s+\{[^{}]*\}|\s+\([^()]*\))*\s*:(?![:=])\s*(\S*)')
BOUND = re.compile(r"\blet\s+([^\s:()]+)|λ\s+\(?([^\s:().]+)")
USE = re.compile(r"\buse\s+([^\s{;]+?)\.\{([^}]*)\}")
LITERAL = re.compile(r"\d")

# names that would fall together with another: a law that says what a definition of its name comes to ends in _lem, as the library's do
FALL = {
    "tooMany": "too_many_parts",
    "node_in": "node_in_lem",
    "column-in": "column_in_lem",
    "set-with": "set_with_lem",
    "is-diagram": "is_diagram_lem",
    "mark-unfit": "mark_unfit_lem",
    "need-unfit": "need_unfit_lem",
    "answer-of": "answer_of_lem",
    "some_left": "some_left_lem",
    "goes_on": "goes_on_lem",
    "name-after": "name_after_lem",
    "line_after": "line_after_lem",
    "is-split": "is_split_lem",
    "name-long": "name_long_lem",
    "name-full": "name_full_lem",
    "first_on": "first_on_lem",
    "same-name": "same_name_lem",
    "need-in": "need_in_lem",
    "is-refused": "is_refused_lem",
    "name-at": "name_at_lem",
    "wrong-sign": "wrong_sign_lem",
    "few-sets": "few_sets_lem",
    "few-columns": "few_columns_lem",
    "few-needs": "few_needs_lem",
    "columns-below": "columns_below_lem",
    "need-fit": "need_fit_lem",
    "all-needs": "all_needs_lem",
    "all-columns": "all_columns_lem",
    "notRead": "unread",
    "notPlanned": "unplanned",
}


def files(root, endings):
    for folder, inside, names in os.walk(root):
        inside[:] = sorted(d for d in inside if d not in ("out", "target", ".git"))
        for name in sorted(names):
            if name.endswith(endings):
                yield os.path.join(folder, name)


def read(path):
    with open(path, encoding="utf-8") as f:
        return f.read()


def snake(name):
    return re.sub(r"(?<=[a-z0-9])([A-Z]+)", lambda m: "_" + m.group(1).lower(), name).replace("-", "_")


def code_of(line):
    """A line of antt without its comment."""
    return re.split(r"(?<!\S)--(?=\s|$)", line)[0]


def names(texts, crates):
    """What the files declare or bind, and what they take from libraries."""
    own, library = set(), set()
    for path, text in texts.items():
        for place, items in USE.findall(text):
            steps = place.split(".")
            if steps[0] != "Rattle" or steps[1] not in crates:
                library |= {item.strip().split(" as ")[0].strip() for item in items.split(",")}
            own |= {alias for alias in re.findall(r"\bas (\w+)", items) if CAMEL.match(alias)}
        if not path.endswith(".antt"):
            continue
        by_check = path.endswith("Proof.antt")
        for line in map(code_of, text.split("\n")):
            if line.startswith("use "):
                continue
            m = DECLARED.match(line)
            if m and not (by_check and made_by_check(m.group(1), m.group(2))):
                own.add(m.group(1))
            for a, b in BOUND.findall(line):
                own.add(a or b)
            own |= {t for t in TOKEN.findall(line) if CAMEL.match(t)}
    return own, library


def made_by_check(name, kind):
    """Whether a name of a function's proof is one that goes by the function: its goals, its claim, its invariants."""
    return bool(re.search(r"\b(tie|lts|Need|Kinds|Reads)\b|-lts|Need-|Measures|\bIn\b", kind)) or name.endswith("-spec") or "-kinds" in kind


def table(texts, crates):
    own, library = names(texts, crates)
    turned = {}
    for name in sorted(own - library):
        if LITERAL.match(name):
            continue
        if "-" in name.strip("-") and not name.startswith("-") or CAMEL.match(name):
            turned[name] = snake(name)
    # A name that is as it should be gives way only to one that is turned into it.
    made = set(turned.values())
    turned.update({old: new for old, new in FALL.items() if old in turned or old in made})
    return turned


def turn_antt(text, turned):
    def token(m):
        return turned.get(m.group(0), m.group(0))

    lines = []
    for line in text.split("\n"):
        code = code_of(line)
        rest = line[len(code) :]
        lines.append(TOKEN.sub(token, code) + turn_words(rest, turned))
    return "\n".join(lines)


def turn_words(text, turned):
    """Words of a comment or a page: a name with a capital inside wherever it stands, any other name between backticks."""
    text = re.sub(r"\x60[^\x60\n]+\x60", lambda s: TOKEN.sub(lambda m: turned.get(m.group(0), m.group(0)), s.group(0)), text)
    return re.sub(r"\b[a-z]\w*[a-z0-9][A-Z]\w*\b", lambda m: turned.get(m.group(0), m.group(0)), text)


def turn_rt(text, turned):
    """Rattle: names with a capital inside, which the code itself never has; none in a string."""
    parts = re.split(r'("(?:[^"\\\n]|\\.)*")', text)
    word = re.compile(r"(?<![\w-])[a-z]\w*[a-z0-9][A-Z]\w*(?![\w-])")
    return "".join(p if i % 2 else word.sub(lambda m: turned.get(m.group(0), m.group(0)), p) for i, p in enumerate(parts))


def met(texts, turned):
    """Where a name would meet one that stands already."""
    into = collections.defaultdict(set)
    for old, new in turned.items():
        into[new].add(old)
    for path, text in texts.items():
        words = set(TOKEN.findall("\n".join(map(code_of, text.split("\n"))) if path.endswith(".antt") else text))
        for new, olds in into.items():
            here = (olds & words) | ({new} & words if new not in turned else set())
            if len(here) > 1:
                yield f"{path}: {', '.join(sorted(here))} would all read {new}"


def main():
    crates = set(os.listdir("crates"))
    texts = {p: read(p) for p in files("crates", (".antt", ".rt"))}
    turned = table(texts, crates)
    for line in met(texts, turned):
        print("look: " + line)
    others = {p: read(p) for p in files(".", (".md", ".edit", ".h"))}
    for path, text in {**texts, **others}.items():
        in_specs = path.endswith(".edit") and re.search(r"(?m)^file: (specs|proofs)/", text)
        turn = turn_antt if path.endswith(".antt") or in_specs else turn_rt if path.endswith((".rt", ".edit")) else turn_words
        new = turn(text, turned)
        if new != text:
            with open(path, "w", encoding="utf-8") as f:
                f.write(new)
    print(f"{len(turned)} names turned")


main()
