#!/usr/bin/env python3
"""Lists the definitions of specifications that no clause of a contract speaks of, not even by way of others, and ends with 1
where there is one. What only proofs use is to stand in proofs.
"""
import sys
from pathlib import Path

from closure import closure, file_of, source, used_by_clauses
from specifications import Unknown, module


def defined():
    """Each definition of a specification that is no fact with its proof, with its file."""
    for path in sorted(Path("crates").glob("*/specs/*.antt")):
        known = module("Rattle." + ".".join(path.with_suffix("").parts[1:]))
        for definition in known.definitions.values():
            if not definition.is_lemma:
                yield str(path), definition.name


def reached():
    """Each definition that the clauses of all sources speak of, with its file."""
    sources = sorted(Path("crates").glob("*/src/**/*.rt"))
    items = closure({item for path in sources for item in used_by_clauses(path, source(path))})
    return {(file_of(item), item.name) for item in items if item.kind == "definition"}


def main():
    try:
        found = reached()
    except Unknown as name:
        print(f"rules: can't tell what this stands for: {name}")
        return 1
    left = [each for each in defined() if each not in found]
    for path, name in left:
        print(f"rules: {path}: no clause speaks of {name}")
    return 1 if left else 0


if __name__ == "__main__":
    sys.exit(main())
