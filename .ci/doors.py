"""Finds crates that crates.txt names among those that another uses, and that it does not use. Prints each, and ends with 1 where there is
one.
"""
import re
import sys
from pathlib import Path


def uses():
    """Of each crate those that crates.txt names after it."""
    lines = (line.split("#")[0].partition(":") for line in Path("crates.txt").read_text(encoding="utf-8").splitlines())
    return {name.strip(): used.split() for name, colon, used in lines if colon}


def text_of(crate):
    """All that the crate's sources, specifications and proofs say."""
    files = (path for room in ("src", "specs", "proofs") for path in sorted(Path("crates", crate, room).rglob("*.*")))
    return "\n".join(path.read_text(encoding="utf-8") for path in files if path.suffix in (".rt", ".antt"))


def main():
    failed = False
    for crate, others in uses().items():
        text = text_of(crate)
        for other in others:
            if not re.search(rf"\bRattle\.{other}\.|\b{other}::", text):
                print(f"rules: crates.txt: {crate} does not use {other}")
                failed = True
    return int(failed)


if __name__ == "__main__":
    sys.exit(main())
