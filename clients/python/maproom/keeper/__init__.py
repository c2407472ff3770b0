"""The keeper of a room: it follows the room as a client, and saves each change (`clients/keep`).

Its folder has these files. Numbers have eight digits, and rise by one.

- `snapshot-NUMBER.map`: a whole map. Its first line is a base for `maproom serve --base`.
- `journal-NUMBER.jsonl`: the changes since the snapshot with this number, one line of JSON for each.
- `restored`: the run and the entry of the map that `clients/keep --restore` printed last.
- `lock`: held by the keeper while it runs, so that two keepers never write to one folder.
- `session`: held by the keeper while it is connected, or has news that it has not saved.
"""
from .folder import Folder, Locked, NothingSaved, Saved, load
from .following import Ending, Keeper, Plan
from .journal import Damaged, Entry
from .who import Question, answers

__all__ = [
    "Damaged",
    "Ending",
    "Entry",
    "Folder",
    "Keeper",
    "Locked",
    "NothingSaved",
    "Plan",
    "Question",
    "Saved",
    "answers",
    "load",
]
