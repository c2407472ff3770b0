"""Finds the sentences of a page: their lines, their lengths, and turns of phrase to avoid.

Code counts as one word, a link as its text, and an image as its caption. Each item of a list is a paragraph.
"""
from __future__ import annotations

import re
from collections.abc import Iterator
from typing import NamedTuple

from .cases import TESTS
from .pages import ITEM, Block

# How many words a sentence may have.
MOST = 25
# The file of the sentences that may be longer, and its lines.
EXCEPTIONS = f"{TESTS}/documents/long_sentences.txt"
EXCEPTION = re.compile(r"(\S+): (.+?) -- (.+)")

CODE = re.compile(r"(`+)(.+?)\1", re.S)
LINK = re.compile(r"!?\[([^\]]*)\]\([^)\s]*\)")
# What replaces a span of code until the ends of sentences are found, and each line feed in it.
MASK, FEED = "\ufffc", "\ufffb"
# What may end a sentence, and what does so only in front of a capital letter: an ellipsis, and an abbreviation.
END = re.compile(r"[.!?\u2026][)\]\"'*]*\s+(?=\S)")
OPEN = re.compile(r"(?:\.\.|\u2026|(?:^|[\s(\[])etc\.)$")
ABBREVIATION = re.compile(r"(?:^|[\s(\[])(?:e\.g|i\.e|cf|vs|approx|resp|fig|Mr|Mrs|Dr|St)\.$", re.I)

# Turns of phrase to avoid: what finds each in a sentence, in which MASK replaces code, and what to write.
TURNS = [
    (r"(?i)\bwant of memory\b|\bthere (?:is|was) no memory for\b", 'write "out of memory" or "the allocation failed"'),
    (r"(?i)\b(?:is|are|was|were|be|been|being) told\b", "say who reports, returns, prints or sends it"),
    (r"(?i)\bas (?:it was|they were)(?=[.,;:)]|$)", 'write "unchanged"'),
    (r"(?i)\b\d+(?:st|nd|rd|th) hundredth\b", 'write "percentile"'),
    (r"(?i)\bwhatever \w+ comes?\b", 'write "for every sequence of"'),
    (r"(?i)\bwrong bod(?:y|ies)\b", 'write "mutant"'),
    (r"(?i)\banswered as the definitions say\b", 'write "returns exactly the specified reply"'),
    (r"(?i)\bname is none\b", 'write "the name is invalid"'),
    (r"(?i)\blays? out\b|\b(?:is|are) laid\b", 'write "formats"'),
    (r"(?i)\b(?:is|are) due\b(?! to)", 'write "is overdue" or "has not been run"'),
    (r"(?i)\bone after another\b|\bin turn\b", 'write "sequentially" or "in order"'),
    (rf"^[^{MASK}]*;[^{MASK}]*;[^{MASK}]*$", "start a new sentence instead of a second semicolon"),
]
# Turns of phrase that begin a sentence. Heads of columns may have them.
BEGINNINGS = [
    (
        r"^(?:What (?:it|they)|That (?:an?|the|it|they|each|every|no|nothing|all|only)|Whether)\b(?!.*\?$)",
        "name the subject: a clause is none",
    ),
    (r"^Where (?:an?|the|it|they|there|no|nothing|this|each)\b(?!.*\?$)", 'begin a condition with "if" or "when"'),
]


class Sentence(NamedTuple):
    """A sentence without its layout: the line in which it begins, the kind of its block, and its text."""

    line: int
    kind: str
    text: str

    def words(self) -> int:
        """How many words it has: each has a letter or a digit, or is a span of code."""
        return len(re.findall(rf"\S*[\w{MASK}]\S*", CODE.sub(MASK, self.text)))

    def is_long(self) -> bool:
        """Whether it is prose of too many words."""
        return self.kind == "prose" and self.words() > MOST

    def turns(self) -> Iterator[tuple[str, str]]:
        """Each turn of phrase to avoid that it has, with what to write instead."""
        bare = CODE.sub(MASK, self.text)
        for pattern, advice in TURNS + (BEGINNINGS if self.kind != "table" else []):
            found = re.search(pattern, bare)
            if found:
                yield found[0] if len(found[0]) < len(bare) else "two semicolons", advice


def sentences_of(block: Block) -> Iterator[Sentence]:
    """The sentences of a block of prose, of the cells of a table, or of a heading."""
    if block.kind == "table":
        for number, line in enumerate(block.lines, block.number):
            for cell in re.split(r"(?<!\\)\|", line):
                yield from sentences_in([cell.strip()], number, block.kind)
    elif block.kind in ("prose", "heading"):
        yield from sentences_in([block.lines[0].lstrip("# "), *block.lines[1:]], block.number, block.kind)


def sentences_in(lines: list[str], number: int, kind: str) -> Iterator[Sentence]:
    """The sentences of one paragraph, whose first line has this number."""
    item = ITEM.match(lines[0])
    text = "\n".join([lines[0][item.end() if item else 0 :], *lines[1:]])
    spans = [span[0] for span in CODE.finditer(text)]
    text = LINK.sub(r"\1", CODE.sub(lambda span: MASK + FEED * span[0].count("\n"), text))
    begin = 0
    for end in [*ends_in(text), len(text)]:
        part, begin = text[begin:end], end
        if part.strip():
            line = number + len(re.findall(rf"[\n{FEED}]", text[: end - len(part.lstrip())]))
            shown = re.sub(MASK, lambda _: spans.pop(0), re.sub(rf"[*{FEED}]+", "", part))
            yield Sentence(line, kind, " ".join(shown.split()))


def ends_in(text: str) -> Iterator[int]:
    """The places right after the ends of sentences, without the last."""
    for end in END.finditer(text):
        before = text[: end.start() + 1]
        goes_on = OPEN.search(before) and not text[end.end()].isupper()
        if not goes_on and not ABBREVIATION.search(before):
            yield end.end()


class Exceptions:
    """The long sentences that a file allows, of all long ones, which are pairs of a page and a sentence."""

    def __init__(self, text: str, long: list[tuple[str, Sentence]]) -> None:
        self.allowed: set[tuple[str, Sentence]] = set()
        self.faults: list[tuple[int, str]] = []
        for number, line in enumerate(text.split("\n"), 1):
            if line.strip() and not line.startswith("#"):
                read = EXCEPTION.fullmatch(line)
                found = [pair for pair in long if read and pair[0] == read[1] and pair[1].text.startswith(read[2])]
                if not read:
                    self.faults.append((number, "is not PAGE: FIRST WORDS -- REASON"))
                elif len(found) != 1 or self.allowed.intersection(found):
                    fault = f"is not needed, or not exact: {len(found)} long sentences of {read[1]} begin so"
                    self.faults.append((number, fault))
                self.allowed.update(found)
