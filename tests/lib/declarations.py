"""Reads what files of code (`.rt`) declare: types, traits, constants, the models of types, and contracts of functions.

The definitions of a crate name its types through `specs.declared`, which Rattle makes from the code.
"""
import re
from collections.abc import Iterator
from dataclasses import dataclass, field
from typing import Optional

from .antt import Unread, names_in_use

DECLARED = re.compile(r"(?:pub(?:\(\w+\))? )?(?:struct|enum|trait|type|const|static) (\w+)")
FUNCTION = re.compile(r"\s*(?:pub(?:\(\w+\))? )?fn (\w+)")
MODEL = re.compile(r"impl(?:<.*?>)? Model for (\w+)")
# A ghost use, with the braces of its list in one line.
GHOST_USE = re.compile(r"^\s*ghost (use [^;]*);", re.M)
RUST_USE = re.compile(r"^(?:pub(?:\(\w+\))? )?use ([^;]*);", re.M)
# What a ghost line of a model says: its values, how they follow from the fields, and which values there are.
SAYS = ("Value", "view", "invariant")
# The types of Rust's prelude that declarations name.
PRELUDE = {
    "Vec": "std::vec::Vec",
    "String": "std::string::String",
    "Option": "std::option::Option",
    "Result": "std::result::Result",
    "Box": "std::boxed::Box",
}


@dataclass
class Declaration:
    """A type, a trait, a constant or a function with its contract. `code` has its words of Rust, `clauses` its terms of
    antt, and `invariant` the term of its model's invariant. `variables` may occur in all terms. `values` are the names
    of variants or fields."""

    path: str
    line: int
    name: str
    lines: list[str]
    code: str
    clauses: list[str] = field(default_factory=list)
    invariant: str = ""
    variables: frozenset[str] = frozenset()
    values: frozenset[str] = frozenset()
    uses: dict[str, str] = field(default_factory=dict)
    modules: dict[str, str] = field(default_factory=dict)
    rust: dict[str, str] = field(default_factory=dict)


def rust_names(text: str, before: str = "") -> Iterator[tuple[str, str]]:
    """The names that a `use` of Rust brings in, each with its path: for example `a::{b, c::D as E}`."""
    depth, begin, parts = 0, 0, []
    for at, sign in enumerate(text):
        depth += (sign == "{") - (sign == "}")
        if sign == "," and depth == 0:
            parts.append(text[begin:at])
            begin = at + 1
    for part in filter(None, (it.strip() for it in [*parts, text[begin:]])):
        head, brace, rest = part.partition("{")
        if brace:
            yield from rust_names(rest.rpartition("}")[0], before + head)
        else:
            old, _, new = part.partition(" as ")
            yield new or old.rpartition("::")[2], before + old


def block_at(lines: list[str], at: int) -> int:
    """The end of the declaration that begins in a line: behind its closing brace, or its `;`."""
    depth = 0
    for end in range(at, len(lines)):
        code = lines[end].split("//")[0]
        depth += sum(code.count(it) for it in "{([") - sum(code.count(it) for it in "})]")
        if depth == 0 and code.rstrip().endswith((";", "}", ",")):
            return end + 1
    raise Unread(f"line {at + 1}: a declaration without an end")


def docs_at(lines: list[str], at: int) -> int:
    """The line in which the comment in front of a declaration begins. Attributes may stand between."""
    while at and re.match(r"\s*(///|//|#\[)", lines[at - 1]):
        at -= 1
    return at


def without_attributes(lines: list[str]) -> list[str]:
    """Lines without attributes, which say how the compiler derives code."""
    return [line for line in lines if not re.match(r"\s*#\[.*\]$", line)]


def braces_in(text: str) -> list[str]:
    """The terms in the outermost braces of a text."""
    depth, begin, found = 0, 0, []
    for at, sign in enumerate(text):
        if sign == "{":
            depth += 1
            begin = at + 1 if depth == 1 else begin
        elif sign == "}":
            depth -= 1
            if depth == 0:
                found.append(text[begin:at])
    return found


def code_of(lines: list[str]) -> str:
    """The text of lines without comments."""
    return "\n".join(re.sub(r"(^|\s)//.*", "", line) for line in lines)


class Code:
    """A file of code."""

    def __init__(self, path: str, text: str) -> None:
        self.path, self.lines = path, text.split("\n")
        self.rust = {name: full for it in RUST_USE.findall(text) for name, full in rust_names(" ".join(it.split()))}
        self.top_uses, self.top_modules = self.ghosts(line for line in self.lines if line.startswith("ghost use"))

    def ghosts(self, lines: Iterator[str]) -> tuple[dict[str, str], dict[str, str]]:
        """What lines `ghost use ..` import: words and modules."""
        uses: dict[str, str] = {}
        modules: dict[str, str] = {}
        for line in lines:
            for found in GHOST_USE.findall(line):
                for kind, name, full in names_in_use(self.path, found):
                    (uses if kind == "item" else modules)[name] = full
        return uses, modules

    def made(self, name: str, at: int, lines: list[str], code: str, within: list[str]) -> Declaration:
        """A declaration whose ghost uses are those of the file and of some lines."""
        uses, modules = self.ghosts(iter(within))
        uses, modules = {**self.top_uses, **uses}, {**self.top_modules, **modules}
        return Declaration(self.path, at + 1, name, lines, code, uses=uses, modules=modules, rust=self.rust)

    def declared(self, name: str) -> Optional[Declaration]:
        """The declaration of a type, a trait or a constant, with its model, if it has one."""
        for at, line in enumerate(self.lines):
            found = DECLARED.match(line)
            if not found or found[1] != name:
                continue
            begin, end = docs_at(self.lines, at), block_at(self.lines, at)
            lines = without_attributes(self.lines[begin:end])
            model = self.model_of(name)
            open_at = lines.index(line)
            is_trait = re.search(r"\btrait ", line)
            code = code_of(self.lines[at:end])
            if model:
                # Contracts see the fields through the model alone, so those that it does not name are left out.
                said, block, terms = model
                fields = [it for it in self.lines[at + 1 : end - 1] if is_named(it, terms)]
                left_out = (
                    ["    .."]
                    if len(fields) < sum(": " in code_of([it]) for it in self.lines[at + 1 : end - 1])
                    else []
                )
                struct = lines if not line.endswith("{") else [*lines[: open_at + 1], *fields, *left_out, "}"]
                made = self.made(name, at, [*struct, "", *said], "\n".join([line, *fields]), block)
                made.invariant = terms.pop("invariant", "")
                made.clauses = [*terms.values()]
                made.variables = frozenset(re.findall(r"\w+", re.sub(r".*?<(.*?)>.*", r"\1", line)))
            else:
                made = self.made(name, at, lines, re.sub(r"\{[^{}]*\}", " ", code) if is_trait else code, [])
                if is_trait or re.search(r"^\s*ghost ", code, re.M):
                    made.clauses = braces_in(code.partition("{")[2].rpartition("}")[0])
                    made.variables = frozenset(re.findall(r"\b([a-z]\w*):", code)) | {"Self", "self", "result"}
                    made.variables |= frozenset(re.findall(r"^\s*(?:ghost|type) (\w+)", code, re.M))
                made.values = frozenset(re.findall(r"^    (?:pub )?(\w+)", code, re.M))
            return made
        return None

    def model_of(self, name: str) -> Optional[tuple[list[str], list[str], dict[str, str]]]:
        """The model of a type: its lines that say what contracts see, all of its lines, and its terms by their names."""
        for at, line in enumerate(self.lines):
            found = MODEL.match(line)
            if found and found[1] == name:
                begin, end = docs_at(self.lines, at), block_at(self.lines, at)
                block = self.lines[at + 1 : end - 1]
                said: list[str] = []
                terms: dict[str, str] = {}
                for row, text in enumerate(block):
                    ghost = re.match(r"\s*ghost (\w+) = ", text)
                    if ghost and ghost[1] in SAYS:
                        lines = block[row : block_at(block, row)]
                        said += lines
                        [terms[ghost[1]]] = braces_in(" ".join(lines))
                return [*self.lines[begin : at + 1], *said, "}"], block, terms
        return None

    def function(self, name: str, of: Optional[str] = None) -> Optional[Declaration]:
        """A function with its contract and without its body; `of` is the type in whose `impl` it stands."""
        within, owner = [], None
        for at, line in enumerate(self.lines):
            impl = re.match(r"impl(?:<.*?>)? (?:\w+(?:<.*?>)? for )?(\w+)", line)
            if impl:
                owner, within = impl[1], self.lines[at : block_at(self.lines, at)]
            elif line == "}":
                owner, within = None, []
            found = FUNCTION.match(line)
            if found and found[1] == name and owner == of:
                end = next(row for row in range(at, len(self.lines)) if ends_contract(self.lines[row]))
                lines = without_attributes([*self.lines[docs_at(self.lines, at) : end]])
                head = code_of(self.lines[at:end])
                first = re.search(r"^\s*(requires|ensures)\b", head, re.M)
                text = head[: first.start()] if first else head
                made = self.made(name if of is None else f"{of}::{name}", at, lines, text, within)
                made.clauses = braces_in(head[first.start() :]) if first else []
                names = re.findall(r"(\w+): ", text) + ["self", "result"]
                made.variables = frozenset([*names, *re.findall(r"[<,] ?([A-Z]\w*)[:,>]", text)])
                if of:
                    made.code += f" {of}"
                return made
        return None


def is_named(line: str, terms: dict[str, str]) -> bool:
    """Whether a line declares a field that the view of a model names."""
    found = re.match(r"\s*(?:pub(?:\(\w+\))? )?(\w+): ", line)
    return bool(found and re.search(rf"\.{found[1]}\b", terms.get("view", "")))


def ends_contract(line: str) -> bool:
    """Whether the body of a function begins in this line."""
    return line.strip() in ("{", "{}")
