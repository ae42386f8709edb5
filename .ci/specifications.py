"""Reads the specifications of the crates: what each file defines, and which names each definition uses.

A name that stands for nothing that was found is an error, so that no use is missed. Names that a text binds itself are
kept in scopes, one for each open bracket.
"""
import re
from collections import namedtuple
from functools import lru_cache
from pathlib import Path

CONSTRUCTORS = set("zero suc pos negsuc true false None Some Ok Err tt refl ∷ []".split())
BUILT_IN = set("Type → × λ : = ← ↦ ∷ ⊥ ⊤ Unit ¬ _ do record elim let in where".split())
HEADER = re.compile(r"(?:(?:abbrev|unfoldable) )?(?:pub )?(record |data )?([^\s:({]+)((?: [({].*?[)}])*) : ")
# The lines of a header that goes on below: of a record up to its word where, of others up to their colon.
BROKEN_HEADER = re.compile(r"^(pub record [^\n]*(?:\n    [^\n]*)*? where$|(?:abbrev|unfoldable|pub) [^\n]*\n    : )", re.M)
FIELD = re.compile(r"  (?:pub )?([^\s(){}:]+(?: [^\s(){}:]+)*) :(?= |$)", re.M)
FACT = re.compile(r"(?:: |→ )(?:T \(|[^→]* ≡ )[^→]*$")
IMPORT = re.compile(r"\buse ([\w.]+?)(?:\.\{([^}]*)\}| as ([\w']+))")
TOKEN = re.compile(r'\n|"(?:[^"\\]|\\.)*"|[(){}\[\];,.]|[^\s(){}\[\];,."]+')

# What a file defines: texts by name, the data type of each constructor, what names stand for that others define, the
# modules that other names stand for.
Module = namedtuple("Module", "name definitions constructors imports aliases")
# The text of a definition, and whether it is a fact with its proof.
Definition = namedtuple("Definition", "kind name text is_lemma")


class Unknown(Exception):
    """A name that stands for nothing that was found."""


def imports_in(text):
    """The names that a text imports, with their modules, and its names of modules."""
    imports, aliases = {}, {}
    for module_name, names, alias in IMPORT.findall(text):
        if alias:
            aliases[alias] = module_name
        for part in filter(None, (part.strip() for part in names.split(","))):
            original, _, name = part.partition(" as ")
            imports[name or original] = (module_name, original)
    return imports, aliases


def definitions_in(lines):
    """The definitions in the lines of a file, in order."""
    headers = [(at, HEADER.match(line)) for at, line in enumerate(lines) if HEADER.match(line)]
    for line in lines:
        if line.startswith(("abbrev ", "unfoldable ", "pub ")) and not HEADER.match(line):
            raise Unknown(f"the definition that begins {line}")
    ends = [at for at, _ in headers[1:]] + [len(lines)]
    for (at, header), end in zip(headers, ends):
        kind = (header.group(1) or "").strip()
        is_lemma = not kind and not lines[at].startswith(("abbrev", "unfoldable"))
        yield Definition(kind, header.group(2), "\n".join(lines[at:end]), is_lemma)


def path_of(module_name):
    """The file of a specification of the repository, or None."""
    parts = module_name.split(".")
    path = Path("crates", *parts[1:]).with_suffix(".antt")
    return path if parts[0] == "Rattle" and "declared" not in parts and path.exists() else None


@lru_cache(maxsize=None)
def module(module_name):
    """What the file of a specification defines, or None where the repository has no such file."""
    path = path_of(module_name)
    if path is None:
        return None
    text = BROKEN_HEADER.sub(lambda header: re.sub(r"\n +", " ", header[1]), path.read_text(encoding="utf-8"))
    lines = [line for line in text.split("\n") if not line.lstrip().startswith("--")]
    imports, aliases = imports_in("\n".join(line for line in lines if line.startswith(("use ", "pub use "))))
    lines = [line for line in lines if not line.startswith(("use ", "pub use ", "pub mod ", "infix", "unfolding "))]
    definitions = {definition.name: definition for definition in definitions_in(lines)}
    constructors = {}
    for definition in definitions.values():
        if definition.kind == "data":
            for names in re.findall(r"^  ([^\n:]+) : ", definition.text, re.M):
                constructors.update((name, definition.name) for name in names.split())
    return Module(module_name, definitions, constructors, imports, aliases)


def is_constructor(known, name):
    if name in CONSTRUCTORS or name in known.constructors:
        return True
    source, original = known.imports.get(name, ("", ""))
    other = module(source)
    return source.endswith("TheVariants") or other is not None and original in other.constructors


class Reader:
    """Collects the names that a text uses, each with the module in which it is to be looked for."""

    def __init__(self, known, bound=()):
        self.known = known
        self.scopes = [set(bound)]
        self.bound_at_close = []
        self.bound_at_line_end = []
        self.bound_at_in = []
        self.used = set()

    def bind(self, names):
        self.scopes[-1].update(name for name in names if not is_constructor(self.known, name))

    def use(self, name):
        """Notes what a name uses, where the text does not bind it."""
        if name in BUILT_IN or name[0] in '"0123456789' or any(name in scope for scope in self.scopes):
            return
        known = self.known
        operators = [n for n in (*known.definitions, *known.imports) if "◌" in n and name in n.split("◌")]
        if name in known.definitions or name in known.constructors:
            self.used.add((known.name, name))
        elif name in known.imports:
            self.used.add(known.imports[name])
        elif operators:
            for operator in operators:
                self.use(operator)
        elif name not in CONSTRUCTORS:
            raise Unknown(f"{name} in {known.name}")

    def qualified(self, tokens, at):
        """Whether a name with a name of a module before it stands here, which is then noted."""
        if tokens[at] not in self.known.aliases or tokens[at + 1:at + 2] != ["."]:
            return False
        self.used.add((self.known.aliases[tokens[at]], tokens[at + 2]))
        return True

    def pattern(self, tokens):
        """Reads a pattern: its constructors are used, and its other names are bound."""
        at = 0
        while at < len(tokens):
            if self.qualified(tokens, at):
                at += 2
            elif is_constructor(self.known, tokens[at]):
                self.use(tokens[at])
            else:
                self.bind([tokens[at]])
            at += 1

    def text(self, tokens):
        at = 0
        while at < len(tokens):
            at = self.step(tokens, at)

    def step(self, tokens, at):
        """Reads what begins at a place, and answers the place behind it."""
        token, following = tokens[at], tokens[at + 1:at + 2]
        if token in ("(", "{", "["):
            return self.open(tokens, at)
        if token in (")", "}", "]"):
            self.close()
        elif token == "|":
            self.scopes[-1].clear()
            return self.alternative(tokens, at + 1)
        elif token == "λ":
            end = tokens.index(".", at)
            self.bind(tokens[at + 1:end])
            return end + 1
        elif token == "let":
            self.bound_at_in.append(tokens[at + 1])
            return at + 2
        elif token == "in":
            self.bind([self.bound_at_in.pop()])
        elif token == "\n":
            self.bind(self.bound_at_line_end)
            self.bound_at_line_end = []
        elif self.qualified(tokens, at):
            return at + 3
        elif token == ".":
            return at + 2
        elif following == ["←"]:
            self.bound_at_line_end.append(token)
        elif token == "do":
            self.use_binds()
        elif token not in (";", ",") and following != ["="]:
            self.use(token)
        return at + 1

    def use_binds(self):
        for operator in ("◌>>=◌", "◌>>◌"):
            if operator in self.known.imports or operator in self.known.definitions:
                self.use(operator)

    def open(self, tokens, at):
        """Opens a bracket. The names before a colon in it are bound behind it."""
        end = at + 1
        while end < len(tokens) and tokens[end] not in ("(", "{", "[", ")", "}", "]", ":", "→", "=", ".", "↦"):
            end += 1
        binds = tokens[at] != "[" and tokens[end:end + 1] == [":"]
        self.bound_at_close.append(tokens[at + 1:end] if binds else [])
        self.scopes.append(set())
        if binds:
            return end + 1
        return self.alternative(tokens, at + 1) if tokens[at] == "[" else at + 1

    def close(self):
        self.scopes.pop()
        self.bind(self.bound_at_close.pop())

    def alternative(self, tokens, at):
        """The place behind the pattern of an alternative, or the same place where none begins there."""
        end = at
        while end < len(tokens) and tokens[end] not in ("↦", "|", "]"):
            end += 1
        if tokens[end:end + 1] != ["↦"]:
            return at
        self.pattern([token for token in tokens[at:end] if token not in "()\n"])
        return end + 1


def names_in_clause(known, clause):
    """What a clause of a definition uses: what stands before its first = is a pattern."""
    tokens = TOKEN.findall(clause)
    depth = 0
    for end, token in enumerate(tokens):
        depth += (token in "({[") - (token in ")}]")
        if token == "=" and depth == 0:
            break
    reader = Reader(known)
    defined = {part for name in known.definitions if "◌" in name for part in name.split("◌")} | set(known.definitions)
    reader.pattern([token for token in tokens[1:end] if token not in "(){}[],\n" and token not in defined - {""}]
                   + ([tokens[0]] if tokens[0] not in defined else []))
    reader.text(tokens[end + 1:])
    return reader.used


def read_members(reader, text):
    """Reads the fields of a record or the constructors of a data type, each with its type, which may go on below."""
    for member in re.split(r"\n(?=  [^ ])", text)[1:]:
        found = FIELD.match(member)
        reader.text(TOKEN.findall(member[found.end():]) + ["\n"])
        reader.bind(found.group(1).split())


def names_in(known, definition):
    """What a definition uses."""
    lines = definition.text.split("\n")
    header = HEADER.match(lines[0])
    first = next((at for at, line in enumerate(lines) if at and line and not line.startswith(" ")), len(lines))
    reader = Reader(known, {definition.name} if definition.kind else ())
    reader.text(TOKEN.findall(header.group(3)))
    if definition.kind:
        read_members(reader, definition.text)
        return reader.used
    statement = "\n".join([lines[0]] + lines[1:first])
    reader.text(TOKEN.findall(statement[header.end():]))
    used = reader.used
    if definition.is_lemma and not FACT.search(statement):
        raise Unknown(f"whether {definition.name} in {known.name} is a fact, on whose proof nothing depends")
    if not definition.is_lemma:
        starts = [at for at in range(first, len(lines)) if lines[at] and not lines[at].startswith(" ")]
        for start, end in zip(starts, starts[1:] + [len(lines)]):
            used |= names_in_clause(known, "\n".join(lines[start:end]))
    return used
