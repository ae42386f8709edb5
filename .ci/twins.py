#!/usr/bin/env python3
"""Prints each lemma whose statement stands more than once, and ends with 1 where there is one.

Two statements are the same where they differ only in the names of what they bind. A lemma stands once, in the crate
of the highest word that it names, and is `pub` there; other files import it.
"""
import re
import subprocess
import sys
from collections import defaultdict

GENERATED = {"Answers.antt", "Invariants.antt", "Proof.antt", "Lib.antt"}
LEMMA = re.compile(r"(?:pub )?([^\s:(]+) :(?: (.*))?")
BINDER = re.compile(r"[({]([\w' ]+?) : |λ ([\w' ]+?)\.")
WORD = re.compile(r"([\w'ℕℤℚ]+)")


def lemmas(path):
    """The names and statements of the lemmas of a file, each statement on one line."""
    lines = open(path, encoding="utf-8").read().split("\n")
    for at, line in enumerate(lines):
        found = LEMMA.fullmatch(line)
        if not found:
            continue
        statement = [found.group(2) or ""]
        for more in lines[at + 1:]:
            if not more.startswith(" "):
                break
            statement.append(more.strip())
        yield found.group(1), " ".join(statement).strip()


def states_a_fact(statement):
    return len(statement) > 25 and "(" in statement and ("→" in statement or "≡" in statement)


def with_numbered_names(statement):
    """The statement with v0, v1, .. for the names that it binds."""
    numbers = {}
    for binder in BINDER.finditer(statement):
        for name in (binder.group(1) or binder.group(2)).split():
            numbers.setdefault(name, f"v{len(numbers)}")
    return "".join(numbers.get(word, word) for word in WORD.split(statement))


def main():
    listed = subprocess.run(["git", "ls-files", "crates"], capture_output=True, text=True, check=True)
    places = defaultdict(list)
    for path in listed.stdout.split():
        kind = path.split("/")[2]
        if kind not in ("proofs", "specs") or not path.endswith(".antt") or path.split("/")[-1] in GENERATED:
            continue
        for name, statement in lemmas(path):
            if states_a_fact(statement):
                places[with_numbered_names(statement)].append(f"{path}: {name}")
    repeated = [found for found in places.values() if len(found) > 1]
    for found in repeated:
        print("rules: one statement stands more than once:", ", ".join(found))
    return 1 if repeated else 0


sys.exit(main())
