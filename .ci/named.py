#!/usr/bin/env python3
"""Checks what two pages name, and ends with 1 where something is not there.

docs/DEFINITIONS.md: each file exists and holds what its row names of it. No file is left out that the main theorem
rests on, and none that the contract of a function speaks of that a crate hands out, but in the crates that its first
lines name.
docs/PROVED.md: each function that a crate's row names is one of the crate, and no function that the crate hands out is
left out, but where its row stands for one function a law or a part.
"""
import re
import sys
from pathlib import Path

from closure import exported_functions, exported_methods, file_of, source, used_by
from specifications import Unknown, module
from theorem import theorem

DEFINITIONS = Path("docs/DEFINITIONS.md")
PROVED = Path("docs/PROVED.md")
QUOTED = re.compile(r"`([^`]+)`")


def rows(page):
    """The cells of the rows of a page's tables."""
    for line in page.read_text(encoding="utf-8").split("\n"):
        if line.startswith("| ") and not line.startswith("|---"):
            yield line.strip("| ").split(" | ")


def names_in_file(path):
    known = module("Rattle." + ".".join(Path(path).with_suffix("").parts[1:]))
    return set(known.definitions) | set(known.constructors)


def row_breaches(names, paths):
    """What is wrong with the names and the files of a row."""
    missing = [path for path in paths if not Path(path).exists()]
    yield from (f"there is no file {path}" for path in missing)
    if missing:
        return
    held = {path: names_in_file(path) for path in paths}
    for name in names:
        if not any(name in held[path] for path in paths):
            yield f"{name} does not stand in {', '.join(paths)}"
    for path in paths:
        if not held[path].intersection(names):
            yield f"no name of its row stands in {path}"


def handed_out():
    """For each crate that is no test and no program what the contracts use of the functions that it hands out."""
    for library in sorted(Path("crates").glob("*/src/lib.rt")):
        if not library.parts[1].startswith(("worked_", "row_")):
            functions = [*exported_functions(library), *exported_methods(library)]
            yield library.parts[1], [item for each in functions for item in used_by(each)]


def definition_breaches():
    listed = set()
    for cells in rows(DEFINITIONS):
        paths = [path for path in QUOTED.findall(cells[-1]) if path.startswith("crates/")]
        if paths:
            listed.update(paths)
            yield from row_breaches(QUOTED.findall(cells[1]), paths)
    needed = {file_of(item) for item in theorem() if item.kind == "definition"}
    yield from (f"{path} is not listed, and the main theorem rests on it" for path in sorted(needed - listed))
    layers = QUOTED.findall(DEFINITIONS.read_text(encoding="utf-8").partition("| What |")[0])
    for crate, items in handed_out():
        spoken = {file_of(item) for item in items if item.kind == "definition" and item.place.split(".")[1] not in layers}
        yield from (f"{path} is not listed, and {crate} speaks of it" for path in sorted(spoken - listed))


def crate_breaches(crate, clauses):
    """What is wrong with the functions that a crate's row names."""
    library = Path("crates", crate, "src", "lib.rt")
    functions = {item.name for item in exported_functions(library)}
    methods = {item.name for item in exported_methods(library)}
    named = {name for name in QUOTED.findall(clauses) if not name[0].isupper() or "::" in name}
    yield from (f"{crate} hands out no function {name}" for name in sorted(named - functions - methods))
    if "one function a" not in clauses:
        yield from (f"the function {name} of {crate} is not named" for name in sorted(functions - named))


def proved_breaches():
    crates = set()
    for cells in rows(PROVED):
        crate = cells[0].strip("`")
        if len(cells) != 3 or crate == cells[0]:
            continue
        crates.add(crate)
        if Path("crates", crate).is_dir():
            yield from crate_breaches(crate, cells[2])
        else:
            yield f"there is no crate {crate}"
    for library in sorted(Path("crates").glob("*/src/lib.rt")):
        crate = library.parts[1]
        if crate not in crates and not crate.startswith("worked_") and any(exported_functions(library)):
            yield f"the crate {crate} has no row"


def main():
    try:
        breaches = [(DEFINITIONS, each) for each in definition_breaches()]
        breaches += [(PROVED, each) for each in proved_breaches()]
    except Unknown as name:
        breaches = [("docs", f"can't tell what this stands for: {name}")]
    for page, breach in breaches:
        print(f"rules: {page}: {breach}")
    return 1 if breaches else 0


if __name__ == "__main__":
    sys.exit(main())
