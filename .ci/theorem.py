#!/usr/bin/env python3
"""Compares docs/THEOREM.md with the definitions that the main theorem rests on, and ends with 1 where they differ.

The page has a row for each file, with the number of its definitions that the theorem rests on and the minutes that they
take to read, and names each module of the toolchain. With `--write` the page's numbers are set right.
"""
import re
import sys
from collections import defaultdict
from pathlib import Path

from closure import Item, closure, exported_functions, file_of, source_imports, text_of
from specifications import Unknown

PAGE = Path("docs/THEOREM.md")
LIBRARY = Path("crates/gambit_tools/src/lib.rt")
TWO_PLAYERS = Path("crates/two_player_tools/src/lib.rt")
PROGRAM = Path("crates/gambit/src/main.rt")
ROW = re.compile(r"^\| `(crates/[^`]+)` \| (\d+) \| (\d+) \|", re.M)
PART = re.compile(r"^(## [^\n]*)\n(.*?)(?=^## |\Z)", re.M | re.S)
LINES_A_MINUTE = 10


def theorem():
    """All items that the contracts of the crate of the main theorem rest on, also those that it hands on, and the program."""
    handed_on = [item for item in exported_functions(TWO_PLAYERS) if item.name in source_imports(LIBRARY)]
    return closure([*exported_functions(LIBRARY), *handed_on, Item("program", str(PROGRAM), "main")])


def rows_wanted(items):
    """For each file how many of its definitions are needed, and the minutes for their lines."""
    lines, counts = defaultdict(int), defaultdict(int)
    for item in items:
        if item.kind != "toolchain":
            counts[file_of(item)] += 1
            lines[file_of(item)] += sum(1 for line in text_of(item).split("\n") if line.strip())
    return {path: (counts[path], max(1, round(lines[path] / LINES_A_MINUTE))) for path in counts}


def row_breaches(page, wanted):
    found = [(path, (int(count), int(minutes))) for path, count, minutes in ROW.findall(page)]
    for path, numbers in found:
        if path not in wanted:
            yield f"the theorem does not rest on {path}"
        elif numbers != wanted[path]:
            yield f"of {path} there are {wanted[path][0]} definitions, in {wanted[path][1]} minutes"
    paths = [path for path, _ in found]
    yield from (f"{path} has two rows" for path in sorted(set(paths)) if paths.count(path) > 1)
    yield from (f"{path} has no row" for path in sorted(set(wanted) - set(paths)))
    named = set(re.findall(r"`(crates/[^`]+)`", page))
    yield from (f"the theorem does not rest on {path}, which is named" for path in sorted(named - set(wanted)))


def total(wanted):
    return f"{len(wanted)} files, {sum(count for count, _ in wanted.values())} definitions"


def minutes_of(part):
    return sum(int(minutes) for _, _, minutes in ROW.findall(part))


def heart(page):
    """What the page says of its first two parts."""
    parts = [part for heading, part in PART.findall(page) if heading.startswith(("## 1. ", "## 2. "))]
    return f"The first two parts, {sum(map(minutes_of, parts))} minutes"


def sum_breaches(page, wanted):
    """The page says how many files, definitions and minutes there are, and the minutes of each part."""
    if total(wanted) not in page:
        yield f"it does not say: {total(wanted)}"
    for heading, part in PART.findall(page):
        minutes = minutes_of(part)
        if minutes and f"{minutes} minutes" not in heading:
            yield f"the part '{heading}' takes {minutes} minutes"
    if heart(page) not in page:
        yield f"it does not say: {heart(page)}"


def toolchain_breaches(page, items):
    wanted = {item.place for item in items if item.kind == "toolchain"}
    found = set(re.findall(r"`((?:Rattle\.|Prim\.|native\.|lib\.|std::)[\w.:]+)`", page))
    yield from (f"it does not name {name} of the toolchain" for name in sorted(wanted - found))
    yield from (f"the theorem does not rest on {name} of the toolchain" for name in sorted(found - wanted))


def with_numbers(page, wanted):
    """The page with the wanted numbers."""
    def row(found):
        count, minutes = wanted.get(found.group(1), found.group(2, 3))
        return f"| `{found.group(1)}` | {count} | {minutes} |"

    def part(found):
        minutes = minutes_of(found.group())
        return re.sub(r"\d+ minutes", f"{minutes} minutes", found.group(), count=1) if minutes else found.group()

    page = re.sub(r"\d+ files, \d+ definitions", total(wanted), ROW.sub(row, page))
    page = PART.sub(part, page)
    return re.sub(r"The first two parts, \d+ minutes", heart(page), page)


def main():
    try:
        items = theorem()
    except Unknown as name:
        print(f"rules: can't tell what this stands for: {name}")
        return 1
    wanted = rows_wanted(items)
    page = PAGE.read_text(encoding="utf-8")
    if sys.argv[1:] == ["--write"]:
        page = with_numbers(page, wanted)
        PAGE.write_text(page, encoding="utf-8")
    breaches = [*row_breaches(page, wanted), *sum_breaches(page, wanted), *toolchain_breaches(page, items)]
    for breach in breaches:
        print(f"rules: {PAGE}: {breach}")
    return 1 if breaches else 0


if __name__ == "__main__":
    sys.exit(main())
