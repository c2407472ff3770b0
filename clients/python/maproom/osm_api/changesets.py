"""The changesets that mappers opened since the bridge started. Older changesets count as closed, as editors expect."""
from collections import deque
from collections.abc import Callable, Iterator, Mapping

from .documents import Changeset, instant
from .errors import ApiError, changeset_closed, changeset_missing, changeset_not_owned
from .ledger import EPOCH

# How many changesets of an author the bridge remembers, and how many characters their tags have together. It forgets
# the author's oldest first, and those of others stay. The last number is that of authors.
MOST_CHANGESETS, MOST_CHARACTERS, MOST_AUTHORS = 1_000, 1_000_000, 1_000


class Changesets:
    """Changesets by their numbers, which are the seconds since 2020 and so never come again."""

    def __init__(self, clock: Callable[[], float]) -> None:
        self._clock = clock
        self._changesets: dict[int, Changeset] = {}
        self._of_authors: dict[str, deque[Changeset]] = {}
        self._last = 0

    def open(self, author: str, tags: Mapping[str, str]) -> Changeset:
        """Opens a changeset."""
        now = self._clock()
        return self._add(Changeset(max(self._last + 1, int(now) - EPOCH), author, now, tags))

    def reopen(self, number: int, author: str) -> Changeset:
        """Opens a changeset from before the bridge started, to which an upload may come again."""
        return self._changesets.get(number) or self._add(Changeset(number, author, self._clock()))

    def tag(self, changeset: Changeset, tags: Mapping[str, str]) -> None:
        """Gives a changeset other tags."""
        changeset.tags = tags
        self._forget_old(changeset.author)

    def _add(self, changeset: Changeset) -> Changeset:
        """Takes a changeset in."""
        self._last = max(self._last, changeset.number)
        self._changesets[changeset.number] = changeset
        self._of_authors.setdefault(changeset.author, deque()).append(changeset)
        self._forget_old(changeset.author)
        while len(self._of_authors) > MOST_AUTHORS:
            for old in self._of_authors.pop(next(iter(self._of_authors))):
                del self._changesets[old.number]
        return changeset

    def _forget_old(self, author: str) -> None:
        """Forgets the oldest changesets of an author, if there are too many. The last one stays."""
        own = self._of_authors[author]
        characters = sum(map(length_of, own))
        while len(own) > 1 and (len(own) > MOST_CHANGESETS or characters > MOST_CHARACTERS):
            old = own.popleft()
            characters -= length_of(old)
            del self._changesets[old.number]

    def get(self, number: int) -> Changeset:
        """Returns a changeset. Raises ApiError 404."""
        if number not in self._changesets:
            raise ApiError(404, f"The changeset with the id {number} was not found")
        return self._changesets[number]

    def writable(self, number: int | None, author: str) -> Changeset:
        """Returns an open changeset of an author. Raises ApiError 409."""
        if number is None:
            raise changeset_missing()
        changeset = self._changesets.get(number)
        if changeset is None or changeset.closed is not None:
            closed = changeset.closed if changeset and changeset.closed is not None else self._clock()
            raise changeset_closed(number, instant(closed))
        if changeset.author != author:
            raise changeset_not_owned()
        return changeset

    def close(self, number: int, author: str) -> None:
        """Closes a changeset. Raises ApiError 409."""
        self.writable(number, author).closed = self._clock()

    def comments(self) -> dict[int, str]:
        """Returns the comments of all changesets that are remembered and have one."""
        return {number: each.tags["comment"] for number, each in self._changesets.items() if "comment" in each.tags}

    def latest_first(self) -> Iterator[Changeset]:
        """Yields all changesets that are remembered."""
        return reversed(self._changesets.values())


def length_of(changeset: Changeset) -> int:
    """Returns how many characters the tags of a changeset have."""
    return sum(len(key) + len(value) for key, value in changeset.tags.items())
