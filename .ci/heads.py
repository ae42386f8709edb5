#!/usr/bin/env python3
"""Checks what the heads of crates name, and ends with 1 where something is wrong.

What a head's part `Lemmas for callers` names are files of the crate's proofs that another crate imports, or its examples. The
crates that its part `A change here touches` names stand on the crate, by crates.txt, directly or by way of others; a name behind
the word what is that of a tool, as in: what `enumpure` prints. Each crate but the tests has that part. The repository is the one
around this folder, or argument 1.
"""
import os
import re
import sys
from pathlib import Path

from doors import uses

QUOTED = re.compile(r"`([^`]+)`")
CALLED = re.compile(r"(?<!\bwhat )`([^`]+)`")
IMPORT = re.compile(r"\bRattle\.(\w+)\.proofs\.(\w+)")
LEMMAS = "Lemmas for callers"
TOUCHES = "A change here touches"


def head(crate):
    """The lines of a crate's head."""
    lines = Path("crates", crate, "src", "lib.rt").read_text(encoding="utf-8").splitlines()
    return "\n".join(line[3:].strip() for line in lines if line.startswith("//!"))


def part(text, name):
    """What stands in a part of a head, on one line; None where there is no such part."""
    found = re.search(rf"^{name}:(.*?)(?=^[A-Z][a-z ]+:|\Z)", text, re.M | re.S)
    return " ".join(found[1].split()) if found else None


def imported():
    """The files of proofs that another crate imports, each with its crate."""
    found = set()
    for path in [*Path("crates").rglob("*.antt"), *Path("crates").rglob("*.rt")]:
        for crate, name in IMPORT.findall(path.read_text(encoding="utf-8")):
            if crate != path.parts[1]:
                found.add((crate, name))
    return found


def below(crate, used):
    """All crates that a crate stands on."""
    found, left = set(), [crate]
    while left:
        others = set(used.get(left.pop(), [])) - found
        found |= others
        left += others
    return found


def lemma_breaches(crate, text, known):
    """What is wrong with the names of lemmas for callers: those that end as names of such files do, and other files of proofs."""
    for quoted in QUOTED.findall(text):
        name = quoted.removeprefix("proofs::")
        is_there = Path("crates", crate, "proofs", f"{name}.antt").is_file()
        if not is_there and (name != quoted or name.endswith(("Lemmas", "Laws"))):
            yield f"it has no file of lemmas {name}"
        elif is_there and not name.endswith("Examples") and (crate, name) not in known:
            yield f"no other crate imports its lemmas {name}"


def touch_breaches(crate, text, used):
    """What is wrong with the crates that a change touches."""
    for name in CALLED.findall(text):
        if name in used and crate not in below(name, used):
            yield f"{name} does not stand on it"


def breaches():
    """What is wrong with the heads of all crates, each with its crate."""
    used, known = uses(), imported()
    for library in sorted(Path("crates").glob("*/src/lib.rt")):
        crate = library.parts[1]
        text = head(crate)
        lemmas, touches = part(text, LEMMAS), part(text, TOUCHES)
        yield from ((crate, breach) for breach in lemma_breaches(crate, lemmas or "", known))
        yield from ((crate, breach) for breach in touch_breaches(crate, touches or "", used))
        if touches is None and not crate.startswith("worked_"):
            yield crate, f"its head does not say: {TOUCHES}"


def main():
    os.chdir(sys.argv[1] if len(sys.argv) > 1 else Path(__file__).resolve().parent.parent)
    found = list(breaches())
    for crate, breach in found:
        print(f"rules: the head of {crate}: {breach}")
    return 1 if found else 0


if __name__ == "__main__":
    sys.exit(main())
