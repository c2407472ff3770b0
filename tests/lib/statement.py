"""Finds every definition that a statement reaches, down to the kit, and puts them in an order for reading.

A piece is a definition of `specs/`, or a type, a trait, a constant or a contract of `src/`.
"""
import os
import re
from collections.abc import Iterable, Iterator
from dataclasses import dataclass, field
from itertools import takewhile
from typing import Optional

from .antt import (
    BUILT_IN,
    HOLE,
    File,
    Statement,
    Unit,
    binders_of,
    declared_by,
    parts_of,
    patterns_of,
    read_file,
    tokens_of,
    uses_of,
)
from .declarations import PRELUDE, Code, Declaration

# Where a piece is: its file in crates/, and its name.
Key = tuple[str, str]

# What an invariant may name that the statement does not reach: definitions for one crate alone.
INNER = "/specs/Inner/"


class Missing(Exception):
    """A name that nothing defines, with the place that names it."""


@dataclass(frozen=True)
class Meaning:
    """What a word means: a piece, or a name of the kit. A constructor can stand in a pattern."""

    key: Optional[Key]
    outside: str = ""
    is_constructor: bool = False


@dataclass
class Piece:
    """A definition with its text. `uses` are the pieces that it names, in order, and `words` the names of the kit."""

    key: Key
    line: int
    lines: list[str]
    comment: list[str] = field(default_factory=list)
    headers: tuple[Statement, ...] = ()
    uses: list[Key] = field(default_factory=list)
    words: list[str] = field(default_factory=list)
    doubtful: list[str] = field(default_factory=list)

    @property
    def place(self) -> str:
        """The file and the line, from crates/."""
        return f"{self.key[0]}:{self.line}"

    @property
    def crate(self) -> str:
        """The crate of the piece."""
        return self.key[0].partition("/")[0]


class Tree:
    """The crates in a folder."""

    def __init__(self, folder: str) -> None:
        self.folder = folder
        self.files: dict[str, File] = {}
        self.codes: dict[str, Code] = {}
        self.pieces: dict[Key, Piece] = {}

    def has(self, path: str) -> bool:
        """Whether a file is there."""
        return os.path.isfile(f"{self.folder}/{path}")

    def text(self, path: str) -> str:
        """The text of a file."""
        with open(f"{self.folder}/{path}", encoding="utf-8") as file:
            return file.read()

    def file(self, path: str) -> File:
        """A file of definitions."""
        if path not in self.files:
            if not self.has(path):
                raise Missing(f"no file crates/{path}")
            self.files[path] = read_file(path, self.text(path))
        return self.files[path]

    def code(self, path: str) -> Code:
        """A file of code."""
        if path not in self.codes:
            if not self.has(path):
                raise Missing(f"no file crates/{path}")
            self.codes[path] = Code(path, self.text(path))
        return self.codes[path]

    def meaning_of_full(self, full: str) -> Meaning:
        """What a full name means, such as `Rattle.osm_changes.specs.Sound.is_sound`."""
        root, _, rest = full.partition(".")
        crate, _, rest = rest.partition(".")
        if root != "Rattle" or not os.path.isdir(f"{self.folder}/{crate}"):
            return Meaning(None, full, is_constructor=True)
        kind, *parts = rest.split(".")
        if parts[0] == "declared":
            return self.declared(crate, parts[1:])
        path = f"{crate}/{kind}/{'/'.join(parts[:-1])}.antt"
        return self.own_meaning(self.file(path), parts[-1], full)

    def own_meaning(self, file: File, name: str, full: str) -> Meaning:
        """What a name of an item or a constructor of a file means, or a name that the file passes on."""
        for item in file.items:
            if name in item.names:
                return Meaning((file.path, item.name), is_constructor=name != item.name)
        if name in file.passed:
            return self.meaning_of_full(file.passed[name])
        raise Missing(f"no definition {full}")

    def declared(self, crate: str, parts: list[str]) -> Meaning:
        """What a name means that Rattle makes from the code of a crate."""
        for split in range(len(parts) - 1, -1, -1):
            path = f"{crate}/src/{'/'.join(parts[:split] or ['lib'])}.rt"
            if self.has(path):
                rest = [it for it in parts[split:] if it != "TheConstants"]
                return Meaning((path, rest[0]), is_constructor="TheVariants" in rest)
        raise Missing(f"no file of {crate} for {'.'.join(parts)}")

    def rust_meaning(self, path: str, full: str) -> Meaning:
        """What a path of Rust means in a file of code, such as `osm_elements::name::Name`."""
        parts = full.split("::")
        crate = path.partition("/")[0] if parts[0] == "crate" else parts[0]
        if not os.path.isdir(f"{self.folder}/{crate}/src"):
            return Meaning(None, full, is_constructor=True)
        file = f"{crate}/src/{'/'.join(parts[1:-1] or ['lib'])}.rt"
        if not self.has(file):
            raise Missing(f"crates/{path}: no file for {full}")
        code = self.code(file)
        if code.declared(parts[-1]) is None:
            again = code.rust.get(parts[-1])
            if again is None:
                raise Missing(f"crates/{path}: no declaration of {full}")
            first = again.partition("::")[0]
            is_path = first == "crate" or first in ("std", "core") or os.path.isdir(f"{self.folder}/{first}")
            return self.rust_meaning(file, again if is_path else f"crate::{again}")
        return Meaning((file, parts[-1]))

    def piece(self, key: Key) -> Piece:
        """A piece, with what it names."""
        if key not in self.pieces:
            made = self.of_code(key) if key[0].endswith(".rt") else self.of_item(key)
            self.pieces[key] = made
        return self.pieces[key]

    def of_item(self, key: Key) -> Piece:
        """The piece of a definition."""
        file = self.file(key[0])
        item = next((it for it in file.items if it.name == key[1]), None)
        if item is None:
            raise Missing(f"no definition {key[1]} in crates/{key[0]}")
        piece = Piece(key, item.line, item.lines, list(item.comment), item.headers)
        around = [Unit("head", it.code()) for it in item.headers]
        bound = {name for unit in around for name in binders_of(tokens_of(unit.code))}
        for unit in [*around, *item.units]:
            self.read_unit(piece, unit, Scope(self, file), bound | unit.local)
            if item.kind != "function":
                # The parameters of a type are bound in all of its parts, and a field in those after it.
                tokens = tokens_of(unit.code)
                bound |= {*(declared_by(tokens) if unit.kind == "field" else binders_of(tokens))}
        return piece

    def read_unit(self, piece: Piece, unit: Unit, scope: "Scope", bound: set[str]) -> None:
        """Adds what a unit names to its piece."""
        tokens = tokens_of(unit.code)
        bound = bound | {*binders_of(tokens)}
        for word in patterns_of(tokens, unit.kind):
            meaning = scope.meaning(word, "")
            if not (meaning and (meaning.is_constructor or meaning.key == piece.key)) and word not in scope.modules:
                bound.add(word)
        for word, field_name in uses_of(tokens, unit.kind):
            if word in bound:
                if scope.meaning(word, field_name) and word != piece.key[1]:
                    piece.doubtful.append(word)
                continue
            meaning = scope.meaning(word, field_name)
            if meaning is None:
                raise Missing(f"crates/{piece.place}: {piece.key[1]}: nothing defines {word}")
            self.add(piece, meaning)

    def add(self, piece: Piece, meaning: Meaning) -> None:
        """Adds a meaning to what a piece names."""
        if meaning.key is None:
            piece.words.append(meaning.outside)
        elif meaning.key != piece.key and meaning.key not in piece.uses:
            piece.uses.append(meaning.key)

    def of_code(self, key: Key) -> Piece:
        """The piece of a declaration in code."""
        found = self.code(key[0]).declared(key[1])
        if found is None:
            raise Missing(f"no type, trait or constant {key[1]} in crates/{key[0]}")
        return self.of_declaration(found)

    def of_function(self, path: str, name: str, of: Optional[str] = None) -> Piece:
        """The piece of a function's contract."""
        found = self.code(path).function(name, of)
        if found is None:
            raise Missing(f"no function {name}{f' of {of}' if of else ''} in crates/{path}")
        piece = self.of_declaration(found)
        self.pieces[piece.key] = piece
        return piece

    def of_declaration(self, it: Declaration) -> Piece:
        """The piece of a declaration, with what its words of Rust and its terms name."""
        comment = len(list(takewhile(lambda line: re.match(r"\s*//", line), it.lines)))
        piece = Piece((it.path, it.name), it.line, it.lines[comment:], it.lines[:comment])
        for word in re.findall(r"\b[A-Z]\w*", it.code):
            meaning = self.rust_word(it.path, word, it)
            if meaning:
                self.add(piece, meaning)
        for term in it.clauses:
            self.read_unit(piece, Unit("head", term), CodeScope(self, it), {*it.variables})
        kept = Piece(piece.key, it.line, [])
        self.read_unit(kept, Unit("head", it.invariant), CodeScope(self, it), {*it.variables})
        # An invariant of private fields for this crate alone is no part of a statement.
        piece.uses += [key for key in kept.uses if key not in piece.uses and INNER not in key[0]]
        piece.words += kept.words
        return piece

    def rust_word(self, path: str, word: str, it: Declaration) -> Optional[Meaning]:
        """What a word of Rust means in a file: an imported name, or a declaration of the file."""
        if word in it.rust:
            return self.rust_meaning(path, it.rust[word])
        if word != it.name and self.code(path).declared(word):
            return Meaning((path, word))
        return Meaning(None, PRELUDE[word]) if word in PRELUDE else None


class Scope:
    """What words mean in a file of definitions."""

    def __init__(self, tree: Tree, file: File) -> None:
        self.tree = tree
        self.modules = file.modules
        self.own: dict[str, Meaning] = {}
        for item in file.items:
            for name in item.names:
                meaning = Meaning((file.path, item.name), is_constructor=name != item.name)
                self.own.update({part: meaning for part in parts_of(name)})
        self.imports = {part: full for word, full in file.imports.items() for part in parts_of(word)}

    def meaning(self, word: str, after: str) -> Optional[Meaning]:
        """What a word means, perhaps with a name after its dot; None if nothing visible has this name."""
        if word in self.own:
            return self.own[word]
        if word in self.imports:
            return self.tree.meaning_of_full(self.imports[word])
        if word in self.modules:
            return self.tree.meaning_of_full(f"{self.modules[word]}.{after}")
        return None


class CodeScope(Scope):
    """What words mean in the terms of a file of code: what is imported, and the variants of its types."""

    def __init__(self, tree: Tree, it: Declaration) -> None:
        super().__init__(tree, File(it.path, imports=it.uses, modules=it.modules))
        self.it = it

    def meaning(self, word: str, after: str) -> Optional[Meaning]:
        found = super().meaning(word, after)
        if found is None and re.match(r"[A-Z]", word) and word != self.it.name:
            found = self.tree.rust_word(self.it.path, word, self.it)
        return found


@dataclass
class Part:
    """A part of a statement: its title, its roots, and the pieces that no part before it reaches."""

    title: str
    roots: list[Key]
    pieces: list[Piece]

    def counts(self) -> tuple[int, int, int, int]:
        """The numbers of definitions, of their lines without comments, of files and of crates."""
        files = {piece.key[0] for piece in self.pieces}
        lines = sum(is_code(line) for piece in self.pieces for line in piece.lines)
        return len(self.pieces), lines, len(files), len({path.partition("/")[0] for path in files})


def is_code(line: str) -> bool:
    """Whether a line has more than a comment."""
    return bool(line.strip()) and not line.lstrip().startswith(("--", "//"))


def in_order(starts: Iterable[str], after: dict[str, list[str]]) -> list[str]:
    """The nodes of a graph, each after the nodes that lead to it, and otherwise in the order in which they are found.
    If nodes lead to each other, the one found first comes first."""
    found: list[str] = []
    seen: set[str] = set()

    def visit(node: str) -> None:
        seen.add(node)
        for other in reversed(after.get(node, [])):
            if other not in seen:
                visit(other)
        found.append(node)

    for start in reversed([*starts]):
        if start not in seen:
            visit(start)
    return found[::-1]


def reached(tree: Tree, roots: Iterable[Key], known: Iterable[Key] = ()) -> list[Piece]:
    """The pieces that roots reach and that are not known yet, in an order for reading: grouped by file, and each file
    and each piece after those that lead to it."""
    before, keys, todo = {*known}, [], [*roots]
    while todo:
        key = todo.pop(0)
        if key not in before:
            before.add(key)
            keys.append(key)
            todo += tree.piece(key).uses
    here = {f"{path} {name}": (path, name) for path, name in keys}
    uses = {node: [f"{path} {name}" for path, name in tree.piece(key).uses] for node, key in here.items()}
    uses = {node: [other for other in others if other in here] for node, others in uses.items()}
    starts = [f"{path} {name}" for path, name in roots]
    nodes = in_order(starts, uses)
    files: dict[str, list[str]] = {}
    for node in nodes:
        others = [here[other][0] for other in uses[node] if here[other][0] != here[node][0]]
        files.setdefault(here[node][0], []).extend(others)
    order = in_order((path for path, _ in roots), files)
    return [piece for path in order for piece in by_module(tree.piece(here[it]) for it in nodes if here[it][0] == path)]


def by_module(pieces: Iterable[Piece]) -> list[Piece]:
    """Pieces of a file, those of each module together."""
    modules: dict[tuple[int, ...], list[Piece]] = {}
    for piece in pieces:
        modules.setdefault(tuple(header.line for header in piece.headers), []).append(piece)
    return [piece for group in modules.values() for piece in group]


def parts_of_statement(tree: Tree, roots: dict[str, list[Key]]) -> list[Part]:
    """The parts of a statement by the roots of each."""
    parts: list[Part] = []
    for title, keys in roots.items():
        known = [piece.key for part in parts for piece in part.pieces]
        parts.append(Part(title, keys, reached(tree, keys, known)))
    return parts


def chain_to(tree: Tree, roots: Iterable[Key], key: Key) -> list[Key]:
    """A shortest chain of pieces from a root to a piece, each of which names the next."""
    chains: dict[Key, list[Key]] = {}
    todo = [[root] for root in roots]
    while todo:
        chain = todo.pop(0)
        if chain[-1] not in chains:
            chains[chain[-1]] = chain
            todo += [[*chain, other] for other in tree.piece(chain[-1]).uses]
    return chains.get(key, [])


def short(key: Key) -> str:
    """A piece as CRATE/FILE NAME, as the pages write it. A file of code keeps its ending."""
    path = key[0].replace("/specs/", "/").replace("/src/", "/")
    return f"{path[:-5] if path.endswith('.antt') else path} {key[1]}"


def text_of(tree: Tree, part: Part) -> Iterator[str]:
    """The lines of a part: each file with its comment, and each piece with its place, its comment and its text."""
    path, headers = "", None
    for piece in part.pieces:
        if piece.key[0] != path:
            path, headers = piece.key[0], None
            yield from ("", f"==== {path}")
            yield from tree.files[path].intro if path in tree.files else []
        if piece.headers != headers and piece.headers:
            yield from ("", *(line for it in piece.headers for line in [*it.comment, *it.lines]))
        headers = piece.headers
        indent = re.match(r" *", piece.lines[0])
        yield from ("", piece.place)
        for line in piece.comment:
            yield f"{indent[0] if indent else ''}{line.strip()}".rstrip()
        yield from (line.rstrip() for line in piece.lines)


def words_of_kit(parts: Iterable[Part]) -> dict[str, list[str]]:
    """The names of the kit that parts use, by their modules."""
    found: dict[str, set[str]] = {}
    for part in parts:
        for piece in part.pieces:
            for word in piece.words:
                module, dot, name = word.rpartition("::" if "::" in word else ".")
                found.setdefault(module + dot, set()).add(name)
    return {module: sorted(names) for module, names in sorted(found.items())}


def unaccounted(tree: Tree, parts: Iterable[Part]) -> Iterator[str]:
    """What the parts miss, found in another way: without scopes and items, by the words of the printed lines.

    - Each line of a file with a printed definition is a comment, an import, the head of a module, or part of an item.
    - Each word of a printed line that its file imports or defines is printed, or is of the kit.
    - Each other word is built in, or occurs in the piece where a variable, a label or a field is declared."""
    pieces = [piece for part in parts for piece in part.pieces]
    printed = {piece.key for piece in pieces}
    for path in sorted({path for path, _ in printed if path.endswith(".antt")}):
        yield from lines_left(tree.file(path), tree.text(path))
    for piece in pieces:
        if piece.key[0].endswith(".antt"):
            yield from words_left(tree, piece, printed)
        else:
            yield from rust_left(tree, piece, printed)


def lines_left(file: File, text: str) -> Iterator[str]:
    """The lines of a file that are in no item, no import and no head of a module."""
    kept = {line for item in file.items for line in item.lines}
    kept |= {line for item in file.items for header in item.headers for line in header.lines}
    for number, line in enumerate(text.split("\n"), 1):
        if is_code(line) and line not in kept and not re.match(r"(pub )?(use|mod) ", line):
            yield f"crates/{file.path}:{number}: in no item: {line.strip()}"


def plain_words(lines: Iterable[str]) -> Iterator[str]:
    """The words of lines without comments and texts, each with what follows its dots."""
    for line in lines:
        code = re.sub(r'"(\\.|[^"\\])*"', " ", re.split(r"(?:^|\s)(?:--|//)(?:\s|/|$)", line)[0])
        for word in re.split(r"[\s(){}\[\],;]+", code):
            if word and word[0] != "." and not word[0].isdigit():
                yield word


def words_left(tree: Tree, piece: Piece, printed: set[Key]) -> Iterator[str]:
    """The words of a definition that are neither printed nor of the kit, nor variables."""
    path, name = piece.key
    text = tree.text(path)
    lines = [*(line for it in piece.headers for line in it.lines), *piece.lines]
    lines = [line for line in lines if not line.strip().startswith("unfolding ")]
    whole = "\n".join(lines)
    imports: dict[str, str] = {}
    for module, listed in re.findall(r"^use (\S+)\.\{(.*)\}$", text, re.M):
        for it in listed.split(","):
            old, _, new = it.strip().partition(" as ")
            imports.update({part: f"{module}.{old}" for part in (new or old).split(HOLE) if part})
    modules = dict((alias, module) for module, alias in re.findall(r"^use (\S+) as (\S+)$", text, re.M))
    for dotted in dict.fromkeys(plain_words(lines)):
        word, _, after = dotted.partition(".")
        place = f"crates/{piece.place}: {name}: {word}"
        if word in imports:
            full = imports[word]
            if full.startswith("Rattle.") and os.path.isdir(f"{tree.folder}/{full.split('.')[1]}"):
                key = tree.meaning_of_full(full).key
                if key and key not in printed and not re.search(rf"(?<!\S)(?:pub )?{re.escape(word)} :", whole):
                    yield f"{place} is imported from {full}, and not printed"
        elif word in modules and after and modules[word].startswith("Rattle."):
            yield from alias_left(tree, modules[word], after, printed, place)
        elif word in modules or word in BUILT_IN or {*parts_of(word)} <= printed_names(tree, path, printed):
            continue
        elif not is_variable(word, whole):
            yield f"{place} is unknown"
        elif word in {name for item in tree.file(path).items for name in item.names}:
            yield f"{place} is the name of a definition that is not printed, and perhaps of a variable: rename it"


def alias_left(tree: Tree, module: str, after: str, printed: set[Key], place: str) -> Iterator[str]:
    """A name of an imported module, as `module.name`, that is neither printed nor of the kit."""
    key = tree.meaning_of_full(f"{module}.{after.partition('.')[0]}").key
    if key and key not in printed and INNER.replace("/", ".") not in f".{module}.":
        yield f"{place} names {after} of {module}, which is not printed"


def printed_names(tree: Tree, path: str, printed: set[Key]) -> set[str]:
    """The words of the printed names of a file."""
    names = [name for item in tree.file(path).items if (path, item.name) in printed for name in item.names]
    return {part for name in names for part in parts_of(name)}


def is_variable(word: str, text: str) -> bool:
    """Whether a text declares a word as a variable, a label or a field anywhere."""
    it = rf"(?<![^\s(\[{{,|]){re.escape(word)}(?![^\s)\]}},.;|])"
    return any(
        re.search(form, text, re.M)
        for form in (
            rf"[({{][^(){{}}:=]*{it}[^(){{}}:=]*\s:\s",
            rf"λ[^.]*{it}[^.]*\.",
            rf"let {it}",
            rf"[\[|][^|↦\]]*{it}[^|↦]*↦",
            rf"^ *\S+[^=:]*{it}[^=]*?\s=(?:\s|$)",
            rf"^(?:(?! = ).)*{it}(?:(?! = ).)* =(?:\s|$)",
            rf"[{{;]\s*{it} =",
            rf"^\s*(?:pub )?[^:=]*{it}[^:=]* :\s",
        )
    )


def rust_left(tree: Tree, piece: Piece, printed: set[Key]) -> Iterator[str]:
    """The words of a declaration in code that are neither printed nor of the kit, nor its own."""
    path, name = piece.key
    text, whole = tree.text(path), "\n".join(piece.lines)
    owner, of, _ = name.partition("::")
    if of and (path, owner) not in printed:
        yield f"crates/{piece.place}: {name}: {owner} is not printed"
    for word in dict.fromkeys(re.findall(r"(?<![\w.:])[A-Za-z_]\w*", "\n".join(filter(is_code, piece.lines)))):
        declared = re.search(rf"^(?:pub(?:\(\w+\))? )?(?:struct|enum|trait|type|const) {word}\b", text, re.M)
        if declared and word[0].isupper() and (path, word) not in printed:
            yield f"crates/{piece.place}: {name}: {word} is declared in the file, and not printed"
        brought = tree.code(path).rust.get(word)
        key = tree.rust_meaning(path, brought).key if brought and word[0].isupper() else None
        if key and key not in printed:
            yield f"crates/{piece.place}: {name}: {word} is {brought}, and not printed"
    modules = dict((alias, module) for module, alias in re.findall(r"^\s*ghost use (Rattle\S+) as (\S+);$", text, re.M))
    imports: dict[str, str] = {}
    for module, listed in re.findall(r"^\s*ghost use (Rattle\S+)\.\{([^}]*)\};$", text, re.M):
        for it in listed.split(","):
            old, _, new = it.strip().partition(" as ")
            imports.update({part: f"{module}.{old}" for part in (new or old).split(HOLE) if part})
    for dotted in dict.fromkeys(plain_words(piece.lines)):
        word, _, after = dotted.partition(".")
        place = f"crates/{piece.place}: {name}: {word}"
        if word in modules and after:
            yield from alias_left(tree, modules[word], after, printed, place)
        elif word in imports and INNER.replace("/", ".") not in imports[word]:
            key = tree.meaning_of_full(imports[word]).key
            if key and key not in printed and not re.search(rf"\b{word}:|λ[^.]*\b{word}\b", whole):
                yield f"{place} is imported from {imports[word]}, and not printed"
