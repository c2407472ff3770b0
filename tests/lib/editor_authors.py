"""Authors who use an editor such as JOSM over the OpenStreetMap API of clients/osm_api: they download, change elements,
and upload the changes as an osmChange in a changeset. After a conflict they download again.

Here a row has the ids of the API: the room's n-7 is node 1000000000000007. New elements have negative ids until they
are uploaded.
"""
from __future__ import annotations

import itertools
import time
import xml.etree.ElementTree
from decimal import Decimal
from collections.abc import Callable, Mapping
from typing import Any, NamedTuple
from xml.sax.saxutils import quoteattr

from .authors import AuthorsRoom, Stage, ThreadedAuthor, Villager
from .cases import given
from .editor_rooms import Answer, OsmApi
from .journals import SOON, Entry, Part, Run, differing, part_of, parts_of
from .mappers import names_in, one_of
from .programs import PATIENCE
from .serving import place_of
from .websocket import Broken

# The weight of each kind of step.
STEPS = {"upload": 70, "update": 15, "update_some": 8, "undo": 5, "redo": 6, "close": 4}

# The words of a mapper's edits that an editor makes here.
WORDS = ("create", "retag", "move", "reverse", "nodes", "members", "delete")

WHOLE, HAMLET = "map?bbox=-180,-90,180,90", "map?bbox=-30.003,39.997,-30.0,40.002"

# The kinds of elements, and the order of deletes.
KINDS, DELETES = {"n": "node", "w": "way", "r": "relation"}, "rwn"

# The room's n-7 is node NEW + 7.
NEW = 10**15

# The tag that is different for each upload.
MARK = "upload"

# The statuses of conflicts, and of a room that cannot be reached.
CONFLICTS, UNREACHABLE = (409, 410, 412), 503

# What status 409 says of an upload that may be in the room, and of one that partly stays.
MAY_BE, STAYS = "cannot be reached since", "stays in the room"


class Primitive(NamedTuple):
    """An element of an editor: its version, and its row, which is empty if it is deleted."""

    version: int
    row: dict[str, Any]


class Upload(NamedTuple):
    """An upload: its mark, the rows that it leaves and those that the editor had before, with the room's names, the
    status and the text of the answer, and the times at which it was sent and answered."""

    mark: str
    rows: dict[str, Any]
    base: dict[str, Any]
    status: int
    text: str
    asked: float
    answered: float


def room_name(name: str) -> str:
    """The room's name of an element that the API shows under another name."""
    number = int(name[1:])
    return f"{name[0]}{NEW - number}" if number > NEW else name


def room_row(row: dict[str, Any], new: dict[str, str] | None = None) -> dict[str, Any]:
    """A row with the room's names. `new` has the names of new elements in the API."""
    names = new or {}

    def name(old: str) -> str:
        return room_name(names.get(old, old))

    row = {**row, "el": name(row["el"])}
    if "nodes" in row:
        row["nodes"] = [int(name(f"n{number}")[1:]) for number in row["nodes"]]
    if "members" in row:
        row["members"] = [[name(member), role] for member, role in row["members"]]
    return row


# Documents.


def primitives_of(text: str) -> list[tuple[str, Primitive]]:
    """The elements of a document of the API, in its order; those that are deleted have no row."""
    return [primitive_of(element) for element in xml.etree.ElementTree.fromstring(text) if element.tag != "bounds"]


def primitive_of(element: xml.etree.ElementTree.Element) -> tuple[str, Primitive]:
    """The name and the primitive of an element of a document."""
    name = f"{element.tag[0]}{element.get('id')}"
    if element.get("visible") == "false":
        return name, Primitive(int(element.get("version", "")), {})
    row: dict[str, Any] = {"el": name, "tags": {tag.get("k"): tag.get("v") for tag in element.iterfind("tag")}}
    if element.tag == "node":
        row.update(lat=element.get("lat"), lon=element.get("lon"))
    elif element.tag == "way":
        row["nodes"] = [int(node.get("ref", "")) for node in element.iterfind("nd")]
    else:
        row["members"] = [
            [f"{each.get('type', '?')[0]}{each.get('ref')}", each.get("role")] for each in element.iterfind("member")
        ]
    return name, Primitive(int(element.get("version", "")), row)


def xml_of(row: dict[str, Any], changeset: int, version: int | None = None) -> str:
    """An element of an osmChange."""
    kind, head = KINDS[row["el"][0]], f'id="{row["el"][1:]}" changeset="{changeset}"'
    head += f' version="{version}"' if version is not None else ""
    head += f' lat="{row["lat"]}" lon="{row["lon"]}"' if "lat" in row else ""
    content = [f'<nd ref="{number}"/>' for number in row.get("nodes", ())]
    content += [
        f'<member type="{KINDS[name[0]]}" ref="{name[1:]}" role={quoteattr(role)}/>'
        for name, role in row.get("members", ())
    ]
    content += [f"<tag k={quoteattr(key)} v={quoteattr(value)}/>" for key, value in row["tags"].items()]
    return f"<{kind} {head}>{''.join(content)}</{kind}>"


class Change:
    """What an editor changed since the download: rows that are new or differ, and names that were deleted, each in the
    order in which JOSM uploads them."""

    def __init__(self, before: dict[str, Primitive], rows: dict[str, dict[str, Any]], deleted: list[str]) -> None:
        self.before = before
        kind: Callable[[dict[str, Any]], int] = lambda row: "nwr".index(row["el"][0])
        self.created = sorted((row for name, row in rows.items() if name not in before), key=kind)
        changed = (row for name, row in rows.items() if name in before and before[name].row != row)
        self.modified = sorted(changed, key=kind)
        self.deleted = sorted((name for name in deleted if name in before), key=lambda name: DELETES.index(name[0]))

    def document(self, changeset: int) -> str:
        """The osmChange."""
        blocks = {
            "create": [xml_of(row, changeset) for row in self.created],
            "modify": [xml_of(row, changeset, self.before[row["el"]].version) for row in self.modified],
            "delete": [xml_of(self.before[name].row, changeset, self.before[name].version) for name in self.deleted],
        }
        return "".join(f"<{word}>{''.join(parts)}</{word}>" for word, parts in blocks.items() if parts)

    def names(self) -> list[str]:
        """The names of all elements, in the order of the document."""
        return [row["el"] for row in (*self.created, *self.modified)] + self.deleted

    def base(self) -> dict[str, Any]:
        """The rows of its elements that the editor had before, with the room's names."""
        names = [*(row["el"] for row in self.modified), *self.deleted]
        return {room_name(name): room_row(self.before[name].row) for name in names}

    def rows(self, new: dict[str, str]) -> dict[str, Any]:
        """The rows that the upload leaves in the room."""
        left = [room_row(row, new) for row in (*self.created, *self.modified)]
        return {**{row["el"]: row for row in left}, **{room_name(name): None for name in self.deleted}}


class Hand(Villager):
    """A mapper who makes no mistakes, and whose new elements have negative ids."""

    def errs(self) -> bool:
        """Whether the mapper makes a mistake."""
        return False

    def new(self, kind: str) -> str:
        """A new name."""
        return f"{kind}-{next(self.ids)}"

    def list_of_members(self) -> list[list[str]]:
        """The members of a relation. None is a new relation, so that relations can be uploaded in any order."""
        return [[name, role] for name, role in super().list_of_members() if not name.startswith("r-")]


def can_do(rows: dict[str, dict[str, Any]], message: dict[str, Any]) -> bool:
    """Whether an edit is one that an editor makes here, of elements that are there."""
    word, el = message["do"], message.get("el", "")
    kinds = {"move": "nw", "reverse": "w", "nodes": "w", "members": "r"}.get(word, "nwr")
    own = message.get("els", [] if word == "create" else [el])
    used = own + names_in(message)
    return word in WORDS and all(name in rows for name in used) and all(name[0] in kinds for name in own)


def do(rows: dict[str, dict[str, Any]], message: dict[str, Any]) -> bool:
    """Does an edit in rows. Returns whether it could be done."""
    if not can_do(rows, message):
        return False
    word, el = message["do"], message.get("el", "")
    if word == "create":
        rows[el] = {key: value for key, value in message.items() if key != "do"}
    elif word == "retag":
        tags = {**rows[el]["tags"], **message["tags"]}
        rows[el] = {**rows[el], "tags": {key: value for key, value in tags.items() if value is not None}}
    elif word == "reverse":
        rows[el] = {**rows[el], "nodes": rows[el]["nodes"][::-1]}
    elif word in ("nodes", "members"):
        rows[el] = {**rows[el], word: message[word]}
    elif word == "move":
        return move(rows, message)
    elif any(el in names_in(row) for row in rows.values()):
        return False
    else:
        del rows[el]
    return True


def move(rows: dict[str, dict[str, Any]], message: dict[str, Any]) -> bool:
    """Moves nodes in rows, if all are there and stay in the world. A way may have lost some since it was downloaded."""
    names = {f"n{number}" for el in message["els"] for number in rows[el].get("nodes", ())}
    names |= {el for el in message["els"] if el[0] == "n"}
    if not names <= rows.keys():
        return False
    moved = {}
    for name in names:
        lat = Decimal(rows[name]["lat"]) + Decimal(message["dlat"]).scaleb(-7)
        lon = Decimal(rows[name]["lon"]) + Decimal(message["dlon"]).scaleb(-7)
        if abs(lat) > 90 or abs(lon) > 180:
            return False
        moved[name] = {**rows[name], "lat": f"{lat:.7f}", "lon": f"{lon:.7f}"}
    rows.update(moved)
    return True


class EditorAuthor(ThreadedAuthor):
    """An author who uses an editor. `api` is the program, which serves this author alone or several."""

    kind = "editor"

    def __init__(self, stage: Stage, room: AuthorsRoom, place: int, count: int, api: OsmApi) -> None:
        super().__init__(stage, room, place, count)
        self.api, self.user = api, None if api.name else self.name
        self.mapper = Hand(self.chance, place, count)
        # What the editor has downloaded, and the open changeset.
        self.data: dict[str, Primitive] = {}
        self.changeset: int | None = None
        self.numbers = itertools.count(1)
        # The uploads, how many undos and redos were accepted or may have been, and how many uploads had been taken back
        # when the earlier uploads were forgotten.
        self.uploads: list[Upload] = []
        self.undone, self.forgotten = 0, 0

    # Calls.

    def ask(self, method: str, path: str, body: str = "") -> Answer:
        """Makes a call of the API."""
        return self.api.ask(method, f"/api/0.6/{path}", body, self.user)

    def downloaded(self, path: str) -> list[tuple[str, Primitive]] | None:
        """The elements that a call returns, or None if the room cannot be reached."""
        answer = self.ask("GET", path)
        if answer.status == UNREACHABLE:
            return None
        if answer.status != 200:
            raise Broken(f"{path} is answered {answer.status} {answer.text}")
        return primitives_of(answer.text)

    # Steps.

    def step(self) -> None:
        """Makes a random step."""
        word = one_of(self.chance, STEPS) if self.data else "update"
        self.last = word
        self.steps[word] += 1
        getattr(self, word)()

    def update(self) -> None:
        """Downloads the whole map, or downloads a part into what is there."""
        is_whole = not self.data or self.chance.random() < 0.7
        found = self.downloaded(WHOLE if is_whole else HAMLET)
        if found is not None:
            self.data = dict(found) if is_whole else {**self.data, **dict(found)}

    def update_some(self) -> None:
        """Asks for some nodes again, also for deleted ones."""
        names = [name for name in self.data if name[0] == "n"]
        some = self.chance.sample(names, min(20, len(names)))
        found = self.downloaded(f"nodes?nodes={','.join(name[1:] for name in some)}")
        for name, primitive in found or ():
            if primitive.row:
                self.data[name] = primitive
            else:
                del self.data[name]

    def close(self) -> None:
        """Closes the changeset."""
        if self.changeset:
            answer = self.ask("PUT", f"changeset/{self.changeset}/close")
            if answer.status not in (200, UNREACHABLE):
                raise Broken(f"the close of a changeset is answered {answer.status} {answer.text}")
            self.changeset = self.changeset if answer.status == UNREACHABLE else None

    def open(self) -> int | None:
        """Opens a changeset, if none is open. Returns the open changeset, if there is one."""
        if not self.changeset:
            tags = '<tag k="comment" v="an evening"/><tag k="created_by" v="JOSM"/>'
            answer = self.ask("PUT", "changeset/create", f"<osm><changeset>{tags}</changeset></osm>")
            if answer.status not in (200, UNREACHABLE):
                raise Broken(f"a new changeset is answered {answer.status} {answer.text}")
            self.changeset = int(answer.text) if answer.status == 200 else None
        return self.changeset

    def upload(self) -> None:
        """Changes some elements, and uploads them."""
        changeset = self.open()
        if not changeset:
            return
        mark = f"{self.name} {next(self.numbers)}"
        change = self.change(mark)
        base = change.base()
        self.last = document = change.document(changeset)
        asked = time.time()
        answer = self.api.upload(changeset, document, self.user)
        answered = time.time()
        self.steps[f"status {answer.status}"] += 1
        rows: dict[str, Any] = {}
        if answer.status == 200:
            new = self.take_results(change, answer.text)
            rows = change.rows(new)
        elif answer.status not in (*CONFLICTS, UNREACHABLE):
            raise Broken(f"the upload is answered {answer.status} {answer.text}")
        else:
            self.data = {}  # so the next step downloads
        self.uploads.append(Upload(mark, rows, base, answer.status, answer.text, asked, answered))

    def change(self, mark: str) -> Change:
        """Changes some elements: always a new node with a mark, and others."""
        rows = {name: primitive.row for name, primitive in self.data.items()}
        deleted: list[str] = []
        node = self.mapper.new("n")
        rows[node] = {"el": node, "lat": self.mapper.degrees(90), "lon": self.mapper.degrees(180), "tags": {MARK: mark}}
        for _ in range(self.chance.randint(0, 4)):
            message = self.mapper.edit(dict(rows))
            if message.get("el") != node and do(rows, message) and message["do"] == "delete":
                deleted.append(message["el"])
        return Change(self.data, rows, deleted)

    def take_results(self, change: Change, text: str) -> dict[str, str]:
        """Takes what became of an upload. Returns the names of the new elements."""
        results, names = list(xml.etree.ElementTree.fromstring(text)), change.names()
        found = [f"{result.tag[0]}{result.get('old_id')}" for result in results]
        if found != names:
            raise Broken(f"the results are of {found}, and were asked for {names}")
        new = {old: f"{result.tag[0]}{result.get('new_id')}" for old, result in zip(names, results) if old[1] == "-"}
        versions = {old: result.get("new_version") for old, result in zip(names, results)}
        for row in (*change.created, *change.modified):
            if int(versions[row["el"]] or 0) < 1:
                raise Broken(f"the results have no version of {row['el']}, or one before the first: {text}")
            name = new.get(row["el"], row["el"])
            renamed: dict[str, Any] = {**row, "el": name}
            if "nodes" in row:
                renamed["nodes"] = [int(new.get(f"n{number}", f"n{number}")[1:]) for number in row["nodes"]]
            if "members" in row:
                renamed["members"] = [[new.get(member, member), role] for member, role in row["members"]]
            self.data[name] = Primitive(int(versions[row["el"]] or 0), renamed)
        for name in change.deleted:
            del self.data[name]
        return new

    def undo(self) -> None:
        """Takes the last upload back, and perhaps brings it back."""
        if self.press("undo") and self.chance.random() < 0.4:
            self.redo()

    def redo(self) -> None:
        """Brings back what was taken back last."""
        self.press("redo")

    def press(self, button: str) -> bool:
        """Presses a button of the program's page. Returns whether that was accepted."""
        answer = self.api.ask("POST", f"/{button}", author=self.user)
        self.steps[f"{button}: status {answer.status}"] += 1
        if answer.status not in (200, 409, UNREACHABLE):
            raise Broken(f"{button} is answered {answer.status} {answer.text}")
        self.undone += answer.status in (200, UNREACHABLE)
        self.data = {}
        return bool(answer.status == 200)

    # Looks.

    def look(self, rows: dict[str, Any]) -> None:
        """Checks, while all authors rest, that downloads have the room's map."""
        self.data = dict(self.reached(WHOLE))
        names = list(self.data)
        self.check("the order of a download", names, sorted(names, key=place_of))
        found = {room_name(name): room_row(primitive.row) for name, primitive in self.data.items()}
        self.check("a download, and the wanted one", differing(found, within(rows)), {})
        rest = [name for name in rows if name not in found]
        if rest:
            numbers = ",".join(str(int(name[1:]) if name[1] != "-" else NEW - int(name[1:])) for name in rest)
            more = dict(self.reached(f"relations?relations={numbers}"))
            found = {room_name(name): room_row(primitive.row) for name, primitive in more.items() if primitive.row}
            self.check("a download of relations", differing(found, {name: rows[name] for name in rest}), {})

    def reached(self, path: str) -> list[tuple[str, Primitive]]:
        """The elements that a call returns, as soon as the room can be reached."""
        deadline = time.monotonic() + PATIENCE * given.slow
        while (found := self.downloaded(path)) is None:
            if time.monotonic() > deadline:
                raise Broken(f"{path} is answered {UNREACHABLE} for too long")
        return found

    def accepted(self, run: Run) -> dict[int, float]:
        """The entries of a run that the program acknowledged, with the times of its answers."""
        uploads = [upload for upload in self.uploads if upload.status == 200 and self.is_of(upload, run)]
        found = [(self.entries_with(upload.mark, run), upload.answered) for upload in uploads]
        return {entries[0].seq: answered for entries, answered in found if entries}

    def check_record(self, run: Run, rows: Mapping[str, Any] | None) -> None:
        """Checks the uploads of a run: what was accepted is in the room, all of it and once, and what was refused is
        not. `rows` is the room's map, or None if the run is over."""
        twice, allowed = [], self.undone + self.taken_back() - self.forgotten
        for upload in self.uploads:
            found = self.entries_with(upload.mark, run)
            twice += [(upload.mark, entry.seq) for entry in found[1:]]
            if upload.status == 200 and self.is_of(upload, run):
                self.check_accepted(upload, found, run)
            elif rows and upload.status != 200 and not any(words in upload.text for words in (STAYS, MAY_BE)):
                self.check_refused(upload, rows)
        what = f"uploads that came again, with their entries, besides {allowed} that were undone, redone or taken back"
        lines = [line for line in list(self.api.lines) if self.name in line][-5:]
        self.check(f"{what}, after {lines}", twice if len(twice) > allowed else [], [])

    def check_accepted(self, upload: Upload, found: list[Entry], run: Run) -> None:
        """Checks that an entry of a run has an accepted upload."""
        got = [entry.rows for entry in found if entry.rows == upload.rows] or [entry.rows for entry in found]
        if got or upload.answered < run.ended - SOON:  # otherwise perhaps nobody received its news
            self.check(f"the entry of the upload {upload.mark}", got[:1], [upload.rows])
        for entry in found[:1]:
            self.check(f"parts that the upload {upload.mark} overwrote unseen", self.overwritten(upload, entry), [])
            self.compared.add((run.number, entry.seq))

    @staticmethod
    def overwritten(upload: Upload, entry: Entry) -> list[Part]:
        """The parts that an upload changed, although they were not right before as its editor had them."""
        return [
            (name, word)
            for name, word in parts_of(entry)
            if name in upload.base and part_of(upload.base[name], word) != part_of(entry.before[name], word)
        ]

    def check_refused(self, upload: Upload, rows: Mapping[str, Any]) -> None:
        """Checks that nothing is left of a refused upload, in whichever run it was sent."""
        left = [name for name, row in rows.items() if row["tags"].get(MARK) == upload.mark]
        self.check(f"what is left of the upload {upload.mark}, answered {upload.status} {upload.text}", left, [])

    def is_of(self, upload: Upload, run: Run) -> bool:
        """Whether an upload is of a run for sure."""
        return self.room.journal.run_of(upload.asked, upload.answered) is run

    def entries_with(self, mark: str, run: Run) -> list[Entry]:
        """The entries of this author in a run that make elements with a mark."""
        return [entry for entry in run.kept[self.name] if self.marked(entry, mark)]

    @staticmethod
    def marked(entry: Entry, mark: str) -> list[str]:
        """The new elements of an entry that have a mark."""
        return [name for name in entry.made if entry.rows[name]["tags"].get(MARK) == mark]

    def taken_back(self) -> int:
        """How many uploads of this author the program took back."""
        words = f"of {self.name}, an upload, is taken back"
        return sum(words in line for line in list(self.api.lines))

    def forget(self) -> None:
        """Forgets the uploads that were checked."""
        self.uploads.clear()
        self.undone, self.forgotten = 0, self.taken_back()
        for run in self.room.journal.runs:
            run.kept[self.name].clear()


def within(rows: dict[str, Any]) -> dict[str, Any]:
    """The part of a map that a download of the world has: all but relations without members, and relations of only
    such relations."""
    names = {name for name in rows if name[0] != "r"}
    relations = [name for name in rows if name[0] == "r"]
    for _ in range(2):
        names |= {name for name in relations if not names.isdisjoint(names_in(rows[name]))}
    return {name: row for name, row in rows.items() if name in names}
