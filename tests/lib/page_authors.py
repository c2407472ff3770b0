"""Authors who use the page clients/page/map.html in a browser. One thread drives all pages of the browser."""
from __future__ import annotations

import json
import threading
import time
from collections.abc import Mapping, Sequence
from typing import Protocol

from .authors import NAP, Author, AuthorsRoom, Stage
from .browser import Browser, Page
from .cases import given
from .journals import differing
from .map_pages import connect, opened, pause, settled, url_of
from .mappers import KEYS, VALUES, one_of
from .page_files import PageFiles
from .programs import PATIENCE

# The weight of each kind of step.
STEPS = {
    "point": 15,
    "line": 8,
    "area": 5,
    "tag": 15,
    "drag": 15,
    "delete": 6,
    "delete_everywhere": 3,
    "press": 12,
    "press_for_two": 6,
    "edit": 15,
    "undo": 10,
    "redo": 8,
    "undo_one": 5,
    "find": 3,
    "reload": 2,
}

# The buttons for what is selected that an author presses.
BUTTONS = ("Split", "Unglue", "Join", "Merge", "Reverse", "New relation")

# Has the page record the outcome of each change in `outcomes`, with its times in milliseconds.
RECORDED = """(() => {
    const { room } = page.session;
    window.outcomes ??= [];
    const { ask } = room;
    room.ask = function (message, ...more) {
        const [asked, told] = [Date.now(), ask.call(this, message, ...more)];
        const note = (about) => outcomes.push({ ...about, since: message.since ?? null, asked, answered: Date.now() });
        const isQuery = ["get", "map", "undos"].includes(message.do);
        if (!isQuery) told.then(({ seq }) => note({ seq }), ({ why }) => note({ why }));
        return told;
    };
})()"""

# The place of a button in the window, if it is there and can be pressed: one with a text, or any.
BUTTON = """((selector, texts, part) => {
    const isFit = (each) => texts.length === 0 || texts.some((text) => each.textContent.includes(text));
    const found = [...document.querySelectorAll(selector)]
        .filter((each) => isFit(each) && each.checkVisibility() && !each.disabled);
    const each = found[Math.floor(part * found.length)];
    each?.scrollIntoView({ block: 'nearest' });
    const box = each?.getBoundingClientRect();
    return box ? [box.x + box.width / 2, box.y + box.height / 2] : null;
})"""

# The place of a node in the window, if it is in the part with the map.
NODE = """((el) => {
    const [box, at] = [$('map').getBoundingClientRect(), page.shapes.positionOf(el)];
    const { x, y } = at ? page.view.pointOf(at) : { x: -1, y: -1 };
    return x > 0 && y > 0 && x < box.width && y < box.height ? [box.x + x, box.y + y] : null;
})"""

# The elements whose shapes on the map are not those that the page would make anew, with both.
SHAPES = """(() => {
    const fresh = new Shapes();
    fresh.reset(page.elements);
    const boxOf = (area) => area && [area.style, area.west, area.north, area.east, area.south];
    const about = (shapes, el) => JSON.stringify({
        at: el[0] === 'n' ? shapes.positionOf(el) : null,
        users: el[0] === 'n' ? shapes.usersOf(el).toSorted() : null,
        nodes: el[0] === 'w' ? Array.from(shapes.ways.get(el)?.slots ?? [], (slot) => shapes.names[slot]) : null,
        parents: shapes.parentsOf(el).toSorted(), isRelation: shapes.relations.has(el),
        area: boxOf(shapes.areas.get(el)) });
    const both = [...page.elements.keys()].map((el) => [el, about(page.shapes, el), about(fresh, el)]);
    return both.filter(([, drawn, wanted]) => drawn !== wanted).slice(0, 5);
})()"""


def call(function: str, *arguments: object) -> str:
    """An expression that calls a function of JavaScript."""
    return f"{function}({', '.join(map(json.dumps, arguments))})"


class Way(Protocol):
    """How to reach the server of a room."""

    @property
    def url(self) -> str:
        """The address of the server."""


class WayToRoom(AuthorsRoom, Protocol):
    """The room of some authors, with the way to it."""

    @property
    def way(self) -> Way:
        """The way."""


class PageAuthor(Author):
    """An author who uses the page."""

    kind = "page"
    room: WayToRoom
    # The page, once it is opened.
    page: Page

    def __init__(self, stage: Stage, room: WayToRoom, place: int, count: int) -> None:
        super().__init__(stage, room, place, count)

    def open(self, chrome: Browser, files: PageFiles) -> None:
        """Opens the page, and connects it."""
        self.page = opened(chrome, url_of(files, self.room.way.url, self.name, self.room.name), is_apart=True)
        self.connect()

    def connect(self) -> None:
        """Connects the page, and has it record changes."""
        connect(self.page)
        self.page.get(RECORDED)

    def note_outcomes(self) -> None:
        """Notes the outcomes that the page recorded."""
        for told in self.page.get("outcomes.splice(0)"):
            asked, answered = told["asked"] / 1000, told["answered"] / 1000
            if told.get("seq"):
                self.record.accept(told["seq"], asked, answered, told["since"])
            elif told["why"] in ("unknown", "closed", "no_answer"):
                self.record.lose(asked, answered)

    # Steps.

    def step(self) -> None:
        """Makes a random step, and waits until it is saved or refused."""
        word = one_of(self.chance, STEPS)
        self.last = word
        self.steps[word] += 1
        self.page.get("page.tools.use('select'), page.closeMenu(), document.activeElement?.blur(), 0")
        getattr(self, word)()
        settled(self.page)
        self.note_outcomes()
        self.close_list()

    def close_list(self) -> None:
        """Closes the list of changes that were not done, and counts them."""
        count = self.page.get("page.notDone.length")
        if count:
            self.steps["not done"] += count
            self.page.click("#close-not-done", "×")

    def names(self, kinds: str = "nwr") -> list[str]:
        """The names of all elements of some kinds."""
        return [name for name in dict(self.room.journal.last.rows) if name[0] in kinds]

    def select(self, *names: str) -> None:
        """Selects elements."""
        self.last = f"{self.last} {names}"
        self.page.get(f"page.select({', '.join(map(json.dumps, names))})")

    def select_one(self, kinds: str = "nwr") -> str | None:
        """Selects a random element. Returns its name, or None if there is none."""
        names = self.names(kinds)
        if not names:
            return None
        name = self.chance.choice(names)
        self.select(name)
        return name

    def press_button(self, selector: str, *texts: str) -> bool:
        """Presses one of the buttons that are there. Returns whether one was there."""
        at = self.page.get(call(BUTTON, selector, texts, self.chance.random()))
        if at:
            self.page.click_at(*at)
        return at is not None

    def place(self) -> tuple[float, float]:
        """A random place of the map in the window."""
        x, y, width, height = self.page.get(
            "(({ x, y, width, height }) => [x, y, width, height])" "($('map').getBoundingClientRect())"
        )
        return x + width * self.chance.uniform(0.1, 0.9), y + height * self.chance.uniform(0.2, 0.9)

    def point(self) -> None:
        """Makes a node."""
        self.press_button("#point")
        self.page.click_at(*self.place())

    def draw(self, tool: str, least: int) -> None:
        """Draws a line or an area near a random place."""
        self.press_button(tool)
        x, y = self.place()
        for _ in range(self.chance.randint(least, 4)):
            self.page.click_at(x + self.chance.uniform(-80, 80), y + self.chance.uniform(-60, 60))
            pause(self.page)
        self.page.press("Enter")

    def line(self) -> None:
        """Draws a line."""
        self.draw("#line", 2)

    def area(self) -> None:
        """Draws an area."""
        self.draw("#area", 3)

    def tag(self) -> None:
        """Types a tag and saves it."""
        self.select_one()
        key, value = self.chance.choice(KEYS), self.chance.choice(VALUES)
        field = "document.querySelector('#selected .tag:last-child input%s')"
        for text, which in ((key, ""), (value, ":nth-child(2)")):
            if self.page.get(f"{field % which}?.focus(), Boolean({field % which})"):
                self.page.ask("Input.insertText", text=text)
        self.press_button("#selected button", "Save tags")
        settled(self.page)
        self.page.get("page.panels.tags.typed.clear(), page.select(), 0")

    def drag(self) -> None:
        """Drags a node, perhaps onto another one."""
        name = self.select_one("n")
        others: list[str | None] = [*self.names("n")]
        other = self.chance.choice(others or [None])
        one, at = (self.page.get(call(NODE, each)) if name else None for each in (name, other))
        if one and (at or self.chance.random() < 0.8):
            is_near = self.chance.random() < 0.8 or not at
            to = (one[0] + self.chance.uniform(-40, 40), one[1] + self.chance.uniform(-40, 40)) if is_near else at
            self.page.drag(one, to)

    def delete(self) -> None:
        """Deletes an element that nothing else uses, with its nodes."""
        self.select_one()
        self.page.press("Delete")

    def delete_everywhere(self) -> None:
        """Deletes an element also out of relations."""
        self.select_one()
        self.press_button("#selected button", "Delete everywhere")

    def press(self) -> None:
        """Presses a button for an element."""
        self.select_one()
        self.press_button("#selected button", *BUTTONS)

    def press_for_two(self) -> None:
        """Presses a button for two elements."""
        names = self.names(self.chance.choice(("n", "w", "nw")))
        self.select(*self.chance.sample(names, min(2, len(names))))
        self.press_button("#selected button", *BUTTONS)

    def edit(self) -> None:
        """Makes edits of any kind as one gesture."""
        rows = dict(self.room.journal.last.rows)
        messages = [self.mapper.edit(rows) for _ in range(self.chance.choice((1, 1, 2, 3)))]
        self.last = messages
        self.page.get(f"page.perform('edited', () => {json.dumps(messages)}), 0")

    def undo(self) -> None:
        """Presses Undo."""
        self.press_button("#undo")

    def redo(self) -> None:
        """Presses Redo."""
        self.press_button("#redo")

    def undo_one(self) -> None:
        """Undoes a chosen entry."""
        self.press_button("#undos button")

    def find(self) -> None:
        """Finds elements, and goes to one of them."""
        self.page.fill("#find", self.chance.choice(("path", "n1", "yes", "47")))
        self.press_button("#found button")
        self.page.fill("#find", "")
        self.press_button("#fit")

    def reload(self) -> None:
        """Loads the page anew, and connects again."""
        if self.page.get("page.session.state === 'open' && page.mayLeave()"):
            self.note_outcomes()
            self.page.reload()
            self.page.wait("typeof page !== 'undefined' && page.background && !page.session")
            self.connect()

    # Looks.

    def look(self, rows: Mapping[str, object], seq: int, undos: object) -> None:
        """Checks, while all authors rest, that the page knows the room's map at an entry, and what this author can undo
        and redo. `undos` are these lists as another session receives them. Before, a drawing that the page gave back
        is dropped, and the list of changes that were not done is closed."""
        self.page.get("page.tools.use('select'), 0")
        lists = "{ undos: page.session.undos.flat(), redo: page.session.redos.flat() }"
        is_ready = f"page.session.state === 'open' && page.session.room.seq >= {seq} && page.session.unsaved === 0"
        self.page.wait(f"{is_ready} && page.session.room.pending === 0")
        deadline = time.monotonic() + PATIENCE / 10 * given.slow
        while self.page.get(f"({lists})") != undos and time.monotonic() < deadline:
            time.sleep(NAP)
        self.note_outcomes()
        self.close_list()
        self.check("the last entry of the page", self.page.get("page.session.room.seq"), seq)
        self.check(
            "the page's map, and the wanted one",
            differing(self.page.get("Object.fromEntries(page.elements)"), rows),
            {},
        )
        self.check("what the page can undo and redo", self.page.get(f"({lists})"), undos)
        self.check("elements that the page draws otherwise", self.page.get(SHAPES), [])
        self.check(
            "what the page says",
            self.page.get("[$('state').textContent, $('saved').textContent]"),
            ["Connected", "All saved"],
        )
        self.check("faults of the page", self.page.faults, [])


class Driver:
    """The thread that drives all pages."""

    def __init__(self, stage: Stage, authors: Sequence[PageAuthor]) -> None:
        self.stage, self.authors = stage, authors
        self.thread = threading.Thread(target=self.live, daemon=True)

    def live(self) -> None:
        """Makes the steps of all pages until all is over."""
        while not self.stage.is_over.is_set():
            if not any([self.drive(author) for author in self.authors]):
                time.sleep(NAP / 2)
        for author in self.authors:
            author.rests = True

    def drive(self, author: PageAuthor) -> bool:
        """Has a page make a step, if it is time. Returns whether it did."""
        try:
            if self.stage.may_act(author) and author.is_time():
                author.step()
                return True
        except Exception as fault:  # whatever goes wrong fails the run
            author.fail(fault)
        return False
