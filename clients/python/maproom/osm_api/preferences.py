"""The preferences that editors keep for their mappers, as long as the bridge runs. Merkaartor stores its settings."""
from collections.abc import Mapping

from .errors import ApiError, bad_request

# How many preferences a mapper has at most, and how many characters a key or a value, as in OpenStreetMap's API. The
# last number is that of mappers who have preferences.
MOST_KEYS, MOST_CHARACTERS, MOST_AUTHORS = 150, 255, 1_000


class Preferences:
    """Preferences by author and key."""

    def __init__(self) -> None:
        self._values: dict[str, dict[str, str]] = {}

    def all_of(self, author: str) -> Mapping[str, str]:
        """Returns all preferences of an author."""
        return self._values.get(author, {})

    def get(self, author: str, key: str) -> str:
        """Returns a preference. Raises ApiError 404."""
        try:
            return self.all_of(author)[key]
        except KeyError:
            raise ApiError(404, f"There is no preference {key}") from None

    def put(self, author: str, key: str, value: bytes) -> None:
        """Sets a preference. Raises ApiError 400 and 413."""
        try:
            text = value.decode()
        except UnicodeDecodeError as fault:
            raise bad_request("The value of a preference has to be UTF-8") from fault
        if max(len(key), len(text)) > MOST_CHARACTERS:
            raise bad_request(f"A key and a value of a preference have at most {MOST_CHARACTERS} characters")
        values = self._values.setdefault(author, {})
        if len(values) >= MOST_KEYS and key not in values:
            raise ApiError(413, f"A mapper has at most {MOST_KEYS} preferences")
        values[key] = text
        while len(self._values) > MOST_AUTHORS:
            del self._values[next(iter(self._values))]

    def delete(self, author: str, key: str) -> None:
        """Forgets a preference. Raises ApiError 404."""
        self.get(author, key)
        del self._values[author][key]
