"""Reads files of definitions (`.antt`): their imports, their items, and the words of each item.

An item is a function with its clauses, a record or a data type. It stands at the top of its file or in modules of the
file, whose parameters belong to it. The layout decides: a line that is indented further continues the line above.
"""
import re
from collections.abc import Iterator
from dataclasses import dataclass, field
from typing import Optional

# What antt has built in, besides numbers and texts. The tactics of proofs are not part of it.
BUILT_IN = set(
    "= : | ↦ → λ _ × ¬ ⊥ ⊤ ( ) { } [ ] , ; . let in elim as record data where module use mod pub open abbrev unfoldable"
    " unfolding unfold mutual infix infixl infixr Type Unit tt absurd".split()
)

# The marks in front of the name of a function.
MARKS = re.compile(r"(?:(?:pub|abbrev|unfoldable) )*")

# A token: a text, the empty list, a field after its dot, a delimiter, or a word. A word has any other characters, so
# `n+n` is one word.
TOKEN = re.compile(
    r'"(?:[^"\\]|\\.)*"|\[\]|(?<=[^\s({\[,;])\.(?=[^\s.])[^\s(){}\[\],;.]+|[(){}\[\],;.]|[^\s(){}\[\],;.]+'
)

# The place of an argument in the name of an operator.
HOLE = "◌"


class Unread(Exception):
    """A text that has none of the forms that are known here, with its place."""


@dataclass(frozen=True)
class Statement:
    """A line and the lines that continue it, with the number of the first, and the comment in front of it."""

    line: int
    indent: int
    lines: tuple[str, ...]
    comment: tuple[str, ...] = ()

    def code(self) -> str:
        """The text without comments, in one line."""
        return " ".join(without_comment(line).strip() for line in self.lines).strip()


@dataclass(frozen=True)
class Unit:
    """A part of an item. Its kind is `signature`, `clause`, `head` or `field` (of a record, or a constructor). `local`
    are the names that its clause declares after `where`, and the words of the clause's patterns."""

    kind: str
    code: str
    local: frozenset[str] = frozenset()


@dataclass
class Item:
    """A definition. `names` has its own name first, and then those of its constructors. `headers` are the modules in
    which it stands, the outermost first. `units` are its signature and its clauses, or its parts."""

    path: str
    line: int
    kind: str
    names: list[str]
    comment: tuple[str, ...]
    headers: tuple[Statement, ...]
    lines: list[str]
    units: list[Unit] = field(default_factory=list)

    @property
    def name(self) -> str:
        """The name of the definition."""
        return self.names[0]


@dataclass
class File:
    """A file: the comment at its beginning, its imports and its items. `imports` has the full name of each imported
    word, `passed` that of each word that the file passes on (`pub use`), and `modules` that of each imported module."""

    path: str
    intro: tuple[str, ...] = ()
    imports: dict[str, str] = field(default_factory=dict)
    passed: dict[str, str] = field(default_factory=dict)
    modules: dict[str, str] = field(default_factory=dict)
    items: list[Item] = field(default_factory=list)


def without_comment(line: str) -> str:
    """A line up to its comment."""
    found = re.search(r"(?:^|(?<=\s))--(?=\s|$)", line)
    return line[: found.start()] if found else line


def tokens_of(text: str) -> list[str]:
    """The tokens of a text without comments. A field has its dot."""
    return TOKEN.findall(text)


def parts_of(name: str) -> list[str]:
    """The words of a name: for example `if`, `then` and `else`, or the name itself."""
    return [part for part in name.split(HOLE) if part] if HOLE in name else [name]


def statements_of(lines: list[str], first: int) -> Iterator[Statement]:
    """The statements in lines, the first of which has this number. Each has the indentation of its first line."""
    comment: list[str] = []
    at = 0
    while at < len(lines):
        line = lines[at]
        if not line.strip():
            comment, at = [], at + 1
        elif line.lstrip().startswith("--"):
            comment, at = [*comment, line.strip()], at + 1
        else:
            indent, end = indent_of(line), at + 1
            while end < len(lines) and goes_on(lines[end], indent):
                end += 1
            kept = lines[at:end]
            while not kept[-1].strip() or kept[-1].lstrip().startswith("--") and indent_of(kept[-1]) <= indent:
                kept.pop()
            yield Statement(first + at, indent, tuple(kept), tuple(comment))
            comment, at = [], at + len(kept)


def goes_on(line: str, indent: int) -> bool:
    """Whether a line continues a statement with this indentation. A closing bracket may stand below its beginning."""
    return not line.strip() or indent_of(line) > indent or indent_of(line) == indent and line.lstrip()[0] in ")}]"


def indent_of(line: str) -> int:
    """How many spaces are in front of a line."""
    return len(line) - len(line.lstrip(" "))


def names_in_use(path: str, text: str) -> Iterator[tuple[Optional[str], str, str]]:
    """What a line `use ..` imports: the kind of the import (`item` or `module`), the word and its full name."""
    found = re.fullmatch(r"(?:pub )?use ([\w.«»'-]+?)(?:\.\{(.*)\}| as (\S+))?", text)
    if not found:
        raise Unread(f"{path}: unknown form of import: {text}")
    module, listed, alias = found.groups()
    if listed is None:
        yield "module", alias or module.rpartition(".")[2], module
        return
    for name in filter(None, (it.strip() for it in listed.split(","))):
        old, _, new = name.partition(" as ")
        yield "item", new or old, f"{module}.{old}"


def head_and_parts(statement: Statement) -> tuple[tuple[str, ...], tuple[str, ...]]:
    """The lines of a record, a data type or a module up to its `where`, and those after it."""
    for at, line in enumerate(statement.lines):
        if re.search(r"\bmutual$", line):
            return statement.lines[:1], statement.lines[1:]
        if re.search(r"\bwhere$", without_comment(line).rstrip()):
            return statement.lines[: at + 1], statement.lines[at + 1 :]
    return statement.lines, ()


def read_file(path: str, text: str) -> File:
    """Reads a file of definitions."""
    lines = text.split("\n")
    file = File(path)
    intro = [line for line in lines[: next((at for at, it in enumerate(lines) if not it.startswith("--")), 0)]]
    file.intro = tuple(intro) if len(intro) < len(lines) and lines[len(intro)][:3] in ("", "use") else ()
    read_items(file, lines[len(file.intro) :], len(file.intro) + 1, ())
    return file


def read_items(file: File, lines: list[str], first: int, headers: tuple[Statement, ...]) -> None:
    """Reads the items of a file, or of a module in it."""
    here: Optional[Item] = None
    fixity: tuple[str, ...] = ()
    for it in statements_of(lines, first):
        code = it.code()
        word = MARKS.sub("", code, count=1).partition(" ")[0]
        place = f"{file.path}:{it.line}"
        if re.match(r"(pub )?use ", code):
            for kind, name, full in names_in_use(place, code):
                (file.imports if kind == "item" else file.modules)[name] = full
                if kind == "item" and code.startswith("pub "):
                    file.passed[name] = full
            here = None
        elif re.match(r"(pub )?mod ", code):
            here = None
        elif word in ("module", "mutual"):
            head, rest = head_and_parts(it)
            header = Statement(it.line, it.indent, head, it.comment)
            read_items(file, list(rest), it.line + len(head), (*headers, header))
            here = None
        elif word in ("infixl", "infixr", "infix"):
            fixity = it.lines
        elif word in ("record", "data"):
            here = type_of(file, it, word, headers)
            file.items.append(here)
            here = None
        elif word == "unfolding":
            if here is None:
                raise Unread(f"{place}: `unfolding` after no signature")
            here.lines += it.lines
        elif signature := signature_of(code):
            here = Item(file.path, it.line, "function", [signature], it.comment, headers, [*fixity, *it.lines])
            fixity = ()
            here.units.append(Unit("signature", code))
            file.items.append(here)
        elif here is not None and is_clause_of(here.name, code):
            here.lines += [*it.comment, *it.lines]
            here.units += clause_of(it)
        else:
            raise Unread(f"{place}: neither an item nor a clause of the one above: {code[:60]}")


def clause_of(statement: Statement) -> Iterator[Unit]:
    """The units of a clause: itself, and the signatures and clauses after its `where`."""
    head, rest = statement.lines, statement.lines[:0]
    for at, line in enumerate(statement.lines):
        found = re.search(r"(?:^|\s)where$", without_comment(line).rstrip())
        if found:
            head, rest = (*statement.lines[:at], line[: found.start()]), statement.lines[at + 1 :]
            break
    parts = [part.code() for part in statements_of(list(rest), statement.line)]
    names = [name for name in map(signature_of, parts) if name]
    code = Statement(statement.line, statement.indent, head).code()
    yield Unit("clause", code, frozenset(names))
    local = frozenset([*names, *patterns_of(tokens_of(code), "clause")])
    yield from (Unit("signature" if signature_of(part) else "clause", part, local) for part in parts)


def signature_of(code: str) -> Optional[str]:
    """The name whose signature this is, if it is one."""
    rest = code[len(MARKS.match(code)[0]) :]  # type: ignore[index]
    found = re.match(r"(\S+)(?: \{ℓ\w*(?: ℓ\w*)*\})? : ", rest + " ")
    return found[1] if found else None


def is_clause_of(name: str, code: str) -> bool:
    """Whether this is a clause `name patterns = body`. A clause of an operator has its words between the patterns."""
    tokens = tokens_of(code)
    if "=" not in tokens:
        return False
    left = tokens[: tokens.index("=")]
    return left[0] == name if HOLE not in name else all(part in left for part in parts_of(name))


def type_of(file: File, it: Statement, word: str, headers: tuple[Statement, ...]) -> Item:
    """Reads a record or a data type. Its units are its head and its fields or constructors."""
    head, rest = head_and_parts(it)
    code = Statement(it.line, it.indent, head).code()
    name = code.partition(f"{word} ")[2].split()[0]
    item = Item(file.path, it.line, word, [name], it.comment, headers, list(it.lines))
    item.units.append(Unit("head", code))
    for part in statements_of(list(rest), it.line + len(head)):
        names = re.match(r"(?:pub )?(\S+(?: [^\s:]+)*) : ", part.code() + " ")
        if not names:
            raise Unread(f"{file.path}:{part.line}: neither a field nor a constructor: {part.code()[:60]}")
        item.units.append(Unit("field", part.code()))
        if word == "data":
            item.names += names[1].split()
    return item


def is_word(token: str) -> bool:
    """Whether a token can be a name."""
    return token not in BUILT_IN and token != "[]" and not re.match(r'["\d.]', token)


def binders_of(tokens: list[str]) -> Iterator[str]:
    """The variables that groups such as `(x y : A)` and `{x : A}` bind, and those after `let`."""
    for at, token in enumerate(tokens):
        if token in ("(", "{"):
            end = at + 1
            while end < len(tokens) and (is_word(tokens[end]) or tokens[end] == "_"):
                end += 1
            if end < len(tokens) and tokens[end] == ":":
                yield from filter(is_word, tokens[at + 1 : end])
        elif token == "let":
            yield tokens[at + 1]


def patterns_of(tokens: list[str], kind: str) -> Iterator[str]:
    """The words of patterns: left of `=` in a clause, after λ, and in cases in front of `↦`. They are variables or
    constructors."""
    if kind == "clause":
        yield from filter(is_word, tokens[: tokens.index("=")])
    for at, token in enumerate(tokens):
        if token == "λ":
            end = tokens.index(".", at)
            typed = False
            for it in tokens[at + 1 : end]:
                typed = (typed or it == ":") and it not in (")", "(")
                if is_word(it) and not typed:
                    yield it
        elif token == "↦":
            begin = max(before for before in range(at) if tokens[before] in ("[", "|"))
            yield from filter(is_word, tokens[begin + 1 : at])


def uses_of(tokens: list[str], kind: str) -> Iterator[tuple[str, str]]:
    """Each word that may be a use of a name, with the field after it, if any. Labels, as in `record { x = e }`, and
    what the unit declares are no uses."""
    begin = tokens.index(":") + 1 if kind in ("signature", "field") else 0
    for at in range(begin, len(tokens)):
        after = tokens[at + 1] if at + 1 < len(tokens) else ""
        is_label = after == "=" and at and tokens[at - 1] in ("{", ";")
        if is_word(tokens[at]) and not is_label:
            yield tokens[at], after[1:] if after.startswith(".") else ""


def declared_by(tokens: list[str]) -> list[str]:
    """The names that a field or a constructor declares."""
    return [it for it in tokens[: tokens.index(":")] if is_word(it)]
