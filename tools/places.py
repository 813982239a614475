#!/usr/bin/env python3
"""Counts, at a commit, the places that docs/DESIGN-PASS.md speaks of: python3 tools/places.py [--list] COMMIT.

Each point is one pattern over the Rattle sources of the crates, so it finds candidates: the page says of each whether it was one. Two points can't be told
by a pattern over lines: twins are functions of four lines or more that are alike when names and numbers are taken out, and what travels together is counted
by signatures of five parameters or more and by facts that stand in the `requires` of three functions or more."""

import collections
import re
import subprocess
import sys


def git(*words):
    return subprocess.run(["git", *words], capture_output=True, text=True, check=True).stdout


def sources(commit):
    for path in git("ls-tree", "-r", "--name-only", commit, "crates").split():
        if path.endswith(".rt"):
            yield path, git("show", f"{commit}:{path}")


# An enum of one's own; a refusal, a number or a flag in place of one; a number that stands for none.
OPTIONS = (
    r"^\s*(?:pub )?enum |\b(?:refusal|number|fault): u16|\bfit: bool|if it is none|if there is none|if none|"
    r"one more than there are needs if|else 0\.|^(?:pub )?const [A-Z_]+: u16 = "
)
LOOPS = r"^\s*(?:'\w+: )?while "
BY_HAND = (
    r"\bfn (?:alike|same|letter|digit|stands|worth|number|put_number|section_at|numbers_of|less|shorter|limited|hex|decimal|wide|many|"
    r"coded|byte|fill|put_name|one_if_before|of_byte|of_size)\b"
)
BUFFERS = r"^    (?:pub )?\w+: \[+u\d+;|let mut \w+ = \[+"
STEPS = r"\b(?:kind|chosen) == |=> (?:repeated|unknown|in_key|name_on)\("


def lines(commit, pattern):
    return [f"{p}:{i}: {l.strip()}" for p, s in sources(commit) for i, l in enumerate(s.split("\n"), 1) if re.search(pattern, l)]


def functions(commit):
    for path, text in sources(commit):
        for found in re.finditer(r"^( *)(?:pub )?(?:extern \"C\" )?fn (\w+).*?^\1}", text, re.M | re.S):
            yield path, found.group(2), found.group(0)


def twins(commit):
    shapes = collections.defaultdict(list)
    for path, name, text in functions(commit):
        body = text[text.index("\n{") if "\n{" in text else text.index("{"):]
        body = re.sub(r"//.*", "", body)
        shape = re.sub(r"\w+", "x", body)
        if body.count("\n") >= 4:
            shapes[re.sub(r"\s+", " ", shape)].append(f"{path} {name}")
    return [" ~ ".join(group) for group in shapes.values() if len(group) > 1]


def together(commit):
    found = []
    facts = collections.defaultdict(set)
    for path, name, text in functions(commit):
        head = text[: text.index("{")]
        inside = re.search(r"\((.*)\)", head, re.S)
        parameters = [p for p in re.split(r",(?![^<\[]*[>\]])", inside.group(1)) if p.strip()] if inside else []
        if len(parameters) >= 5:
            found.append(f"{path} {name}: {len(parameters)} parameters")
        for clause in re.findall(r"requires(?: \w+)? \{ (.*?) \}\n", text):
            for fact in clause.split(" × "):
                facts[fact.strip(" ()")].add(f"{path} {name}")
    return found + [f"{fact}: {', '.join(sorted(where))}" for fact, where in sorted(facts.items()) if len(where) >= 3]


def answers(commit):
    paths = [p for p in git("ls-tree", "-r", "--name-only", commit, "crates").split() if p.endswith("/Answers.antt")]
    return [f"{p}: {m}" for p in paths for m in re.findall(r"^pub (\S+) : goal\.", git("show", f"{commit}:{p}"), re.M)]


def main():
    commit = sys.argv[-1]
    points = [
        ("1 options, results, kinds", lines(commit, OPTIONS)),
        ("2 twins", twins(commit)),
        ("3 loops", lines(commit, LOOPS)),
        ("4 written by hand", lines(commit, BY_HAND)),
        ("5 what travels together", together(commit)),
        ("6 buffers with a length beside", lines(commit, BUFFERS)),
        ("7 switches on a step", lines(commit, STEPS)),
        ("8 answers", answers(commit)),
    ]
    for name, places in points:
        print(f"{name}: {len(places)}")
        if "--list" in sys.argv:
            print("".join(f"    {place}\n" for place in places), end="")


main()
