"""The closure of definitions behind contracts: from the clauses of functions and the traits that they ask for through
every definition that these use, down to what the toolchain defines.

An item is a definition of a specification, a type or trait of a source, a function by its contract, the program, or a
module of the toolchain.
"""
import re
from collections import namedtuple
from functools import lru_cache
from pathlib import Path

from specifications import Module, Reader, TOKEN, Unknown, imports_in, module, names_in, path_of

Item = namedtuple("Item", "kind place name")
WORD = re.compile(r"[A-Za-z_]\w*")
CLAUSE = re.compile(r"\b(?:requires|ensures)(?: \w+)? \{|\bghost \w+(?::| =) \{")


# ---- where names lead

def item_of(module_name, name):
    """The item that a name in a module of specifications stands for."""
    if ".declared." in module_name and Path("crates", module_name.split(".")[1]).exists():
        return declared_type(module_name)
    known = module(module_name)
    if known is None:
        root, crate, *_ = module_name.split(".")
        if root != "Rattle" or not Path("crates", crate).exists():
            return Item("toolchain", module_name, "")
        raise Unknown(f"the module {module_name}")
    if name in known.definitions:
        return Item("definition", module_name, name)
    if name in known.constructors:
        return Item("definition", module_name, known.constructors[name])
    if name in known.imports:
        return item_of(*known.imports[name])
    raise Unknown(f"{name} in {module_name}")


def declared_type(module_name):
    """The type of a source that a module of declared types stands for."""
    _, crate, _, _, *path = re.sub(r"\.The(?:Variants|Inside)$", "", module_name).split(".")
    item = source_item(source_file(crate, path[:-1]), path[-1])
    if item is None:
        raise Unknown(f"the type of {module_name}")
    return item


def source_file(crate, path):
    return Path("crates", crate, "src", *path).with_suffix(".rt") if path else Path("crates", crate, "src", "lib.rt")


# ---- sources

@lru_cache(maxsize=None)
def source(path):
    """A source without its comments."""
    return re.sub(r"//[^\n]*", "", path.read_text(encoding="utf-8"))


@lru_cache(maxsize=None)
def source_imports(path):
    """The paths that names of a source stand for."""
    found = {}
    for used in re.findall(r"^(?:pub )?use ([^;]+);", source(path), re.M):
        if used.count("{") > 1:
            raise Unknown(f"the import {used} in {path}")
        front, _, names = "".join(used.split()).partition("{")
        for name in filter(None, names.rstrip("}").split(",") if names else [front.rpartition("::")[2]]):
            start = front if names else front.rpartition("::")[0] + "::"
            found[name] = [part for part in start.split("::") if part] + [name]
    return found


def source_item(path, name):
    """The type or trait that a name of a source stands for, or None where it is no type that is looked into."""
    if re.search(rf"^(?:pub(?:\(crate\))? )?(?:struct|enum|trait|type) {name}\b", source(path), re.M):
        return Item("type", str(path), name)
    first, *others = source_imports(path).get(name, [""])
    if not others:
        return None
    if first in ("std", "core"):
        return Item("toolchain", "::".join([first, *others[:-1]]), "")
    crate = path.parts[1] if first == "crate" else first
    modules = others[:-1]
    if not Path("crates", crate).exists():
        if not source_file(path.parts[1], [first]).exists():
            return Item("toolchain", "::".join([first, *modules]), "")
        crate, modules = path.parts[1], [first, *modules]
    target = source_file(crate, modules)
    return source_item(target, name) if target.exists() else None


def block(text, at):
    """The text from a place to a semicolon, or to the end of the braces that come before it."""
    end = re.compile(r"[{;]").search(text, at).start()
    depth = 0
    while True:
        depth += (text[end] == "{") - (text[end] == "}")
        end += 1
        if depth == 0:
            return text[at:end]


def clauses(text):
    """The clauses of contracts in a text, and what its ghost members are."""
    if len(re.findall(r"\b(?:requires|ensures)\b", text)) != len(re.findall(r"\b(?:requires|ensures)(?: \w+)? \{", text)):
        raise Unknown(f"a clause in {text}")
    return [block(text, found.end() - 1)[1:-1] for found in CLAUSE.finditer(text)]


def used_by_clauses(path, text):
    """What the clauses in a part of a source use. Other names than imported ones are those of its own variables."""
    imports, aliases = imports_in(source(path))
    known = Module(str(path), {}, {}, imports, aliases)
    own = {word for word in TOKEN.findall(text) if word not in imports and not any(word in n.split("◌") for n in imports)}
    reader = Reader(known, own)
    for clause in clauses(text):
        reader.text(TOKEN.findall(clause))
    return {item_of(*used) for used in reader.used}


def used_by_text(path, text):
    """The types and traits that a part of a source names."""
    return {source_item(path, word) for word in WORD.findall(text)} - {None}


def type_text(path, name):
    """The declaration of a type or trait of a source."""
    return block(source(path), re.search(rf"^(?:pub(?:\(crate\))? )?(?:struct|enum|trait|type) {name}\b", source(path), re.M).start())


def implemented(path, name):
    """What a source implements for a type: the text for each trait."""
    found = re.finditer(rf"^impl\b[^{{;]*?\b(\w+) for {name}\b", source(path), re.M)
    return {each.group(1): block(source(path), each.start()) for each in found}


def used_by_type(path, name):
    """What a type or trait of a source uses. A type with a model is seen as its value, any other one by its fields; and
    what it is as one of the repository's traits is seen too."""
    texts = implemented(path, name)
    if "Model" in texts:
        model = texts["Model"]
        used = used_by_clauses(path, block(model, model.index("ghost Value")))
    else:
        used = used_by_text(path, type_text(path, name)) | used_by_clauses(path, type_text(path, name))
    for trait in texts:
        if source_item(path, trait) in (None, Item("toolchain", "std::marker", "")):
            continue
        for member in re.finditer(r"\bghost \w+ = \{", texts[trait]):
            used |= used_by_clauses(path, block(texts[trait], member.start()))
    return used - {Item("type", str(path), name)}


def contract_text(path, name):
    """A function or method from its name to its body."""
    type_name, _, method = name.rpartition("::")
    text, indent = source(path), "    " if type_name else ""
    start = re.search(rf"^impl[^\n]*\b{type_name}\b[^\n]*{{", text, re.M).start() if type_name else 0
    text = text[re.compile(rf"^{indent}pub fn {method}\b", re.M).search(text, start).start():]
    signature = re.split(r"\n *(?:requires|ensures)\b", text)[0]
    body = re.search(r" {\n", signature) or re.search(rf"\n{indent}{{", text)
    return text[:body.start()]


def used_by_function(path, name):
    """What the contract of a function uses, and the types and traits of its parameters."""
    contract = contract_text(path, name)
    signature = re.split(r"\n *(?:requires|ensures)", contract)[0]
    return used_by_text(path, signature) | used_by_clauses(path, contract)


def used_by_program(path):
    """The types that a program hands over."""
    return {source_item(path, name) for name in source_imports(path)} - {None}


# ---- the closure

def exported_functions(library):
    """The functions that a crate hands out and owns."""
    for name in re.findall(r"^pub fn (\w+)", source(library), re.M):
        yield Item("function", str(library), name)
    for name, path in source_imports(library).items():
        owner = source_file(library.parts[1], path[:-1])
        if owner.exists() and re.search(rf"^pub fn {name}\b", source(owner), re.M):
            yield Item("function", str(owner), name)


def exported_methods(library):
    """The methods of the types that a crate hands out and owns."""
    types = [*source_imports(library), *re.findall(r"^pub (?:struct|enum) (\w+)", source(library), re.M)]
    for path in sorted(library.parent.rglob("*.rt")):
        for name in types:
            for found in re.finditer(rf"^impl\b[^\n]*\b{name}\b[^\n]*{{", source(path), re.M):
                methods = re.findall(r"^    pub fn (\w+)", block(source(path), found.start()), re.M)
                yield from (Item("function", str(path), f"{name}::{method}") for method in methods)


def used_by(item):
    if item.kind == "definition":
        known = module(item.place)
        return {item_of(*used) for used in names_in(known, known.definitions[item.name])}
    path = Path(item.place)
    if item.kind == "type":
        return used_by_type(path, item.name)
    if item.kind == "function":
        return used_by_function(path, item.name)
    return used_by_program(path) if item.kind == "program" else set()


def text_of(item):
    """What there is to read of an item."""
    if item.kind == "definition":
        return module(item.place).definitions[item.name].text
    path = Path(item.place)
    if item.kind == "type":
        return type_text(path, item.name)
    return contract_text(path, item.name) if item.kind == "function" else source(path)


def closure(items):
    """The items and all that they use, and what these use in turn."""
    found, waiting = set(items), list(items)
    while waiting:
        new = used_by(waiting.pop()) - found
        found |= new
        waiting += new
    return found


def file_of(item):
    """The file in which an item stands, or the module of the toolchain."""
    return str(path_of(item.place)) if item.kind == "definition" else item.place
