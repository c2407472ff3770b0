"""Cases: two mappers change the same at the same time, and no change overwrites what its author had not seen."""
from __future__ import annotations

import contextlib
from collections.abc import Iterator
from typing import Any

from lib.browser import Page
from lib.cases import check, want
from lib.fake_rooms import FakeRoom
from lib.map_pages import at_node, connect, opened, settled, url_of, window_point
from lib.page_races import races, track
from lib.talk import serving
from page_cases.connections import restarted
from page_cases.looking import at, at_once, comes, draw, new_names, not_done, press_button, row
from page_cases.opening import Link, a_node, base_of, browsing, linked, page_case, pages, village


class SideBySide:
    """A room with a small map, a session of it, and the pages of two mappers. A test holds up what the server sends to
    bob, so that bob does not see what anna does."""

    def __init__(self, link: Link, anna: Page, bob: Page) -> None:
        self.link, self.zoe, self.anna, self.bob = link, link.other, anna, bob

    @contextlib.contextmanager
    def unseen(self) -> Iterator[None]:
        """Until the block ends, bob's page gets nothing. What anna has done by then is in the room, and what bob does
        comes to the room later."""
        for page in (self.anna, self.bob):
            page.wait("page.session.unsaved === 0 && page.session.room.pending === 0")
        self.link.hold_up()
        yield
        self.link.may_pass.set()

    def in_turn(self, annas: str, bobs: str) -> None:
        """Does something in anna's page and then in bob's, before anything of hers can come to him."""
        with self.unseen():
            at_once(self.anna, annas)
            settled(self.anna)
            at_once(self.bob, bobs)


@contextlib.contextmanager
def side_by_side() -> Iterator[SideBySide]:
    """The pages of two mappers, each in a window of its own."""
    with contextlib.ExitStack() as kept:
        server = kept.enter_context(serving(workers=6, sessions=90, base=base_of(village())))
        files, chrome = kept.enter_context(browsing())
        link = Link(server)
        kept.enter_context(link.proxy)
        kept.callback(link.may_pass.set)
        urls = url_of(files, server.port, "anna"), url_of(files, link.proxy.url, "bob")
        anna, bob = (connect(opened(chrome, url, 1000, 700, is_apart=True)) for url in urls)
        yield SideBySide(link, anna, bob)
        for page in (anna, bob):
            page.end()


def fill_tag(page: Page, el: str, key: str, value: str) -> None:
    """Selects an element, and types a tag that it does not have."""
    page.get(f"page.select('{el}')")
    page.fill("#selected .tag:last-child input", key)
    page.fill("#selected .tag:last-child input:nth-child(2)", value)


def question(page: Page) -> list[Any]:
    """The title of the question that a page asks, and for each value what it is and its buttons; or nothing."""
    found: list[Any] = page.get(
        """$('question').hidden ? [] : [$('question-title').textContent,
        ...[...document.querySelectorAll('.dispute')].map((each) => [each.querySelector('p').textContent,
            ...[...each.querySelectorAll('button')].slice(0, 2).map((item) => item.textContent)])]"""
    )
    return found


def asked(page: Page) -> int:
    """How often a page asked."""
    count: int = page.get("page.questions.asked")
    return count


def answer(page: Page, text: str) -> None:
    """Presses a button of a question."""
    page.rest = "true"
    page.click("#question button", text)
    page.rest = "!page.session?.unsaved"


SAVE = press_button("Save tags")
BOTH = "changed this meanwhile, too. Whose is right?"


@page_case
def races_of_two_pages() -> None:
    """Two mappers end a road on one street at almost the same time: both are joined to it, and nothing is asked."""
    with track(12) as tracks:
        for race in races(12):
            check(f"race {race}", tuple(tracks.run(race)), (0, 0))


@page_case
def different_keys_at_once() -> None:
    """Two mappers who give one street different tags at the same time set both, and are not asked."""
    with side_by_side() as both:
        anna, bob = both.anna, both.bob
        for page, key, value in ((anna, "surface", "asphalt"), (bob, "lit", "yes")):
            fill_tag(page, "w3", key, value)
        both.in_turn(SAVE, SAVE)
        tags = {"highway": "residential", "lit": "yes", "name": "Mill Lane", "surface": "asphalt"}
        for page in (anna, bob):
            comes(settled(page), "w3", "tags", tags)
            want((asked(page), page.get("$('saved').textContent")), (0, "All saved"))


@page_case
def one_key_at_once() -> None:
    """Two mappers who give one street the same tag at the same time: the second sees both values, and chooses the one
    or the other. If both typed the same value, nobody is asked."""
    with side_by_side() as both:
        anna, bob = both.anna, both.bob
        fill_tag(anna, "w3", "surface", "asphalt")
        fill_tag(bob, "w3", "surface", "gravel")
        fill_tag(bob, "w3", "lit", "yes")
        both.in_turn(SAVE, SAVE)
        bob.wait("!$('question').hidden")
        what = "“surface” of Mill Lane, street w3"
        want(question(bob), [f"anna {BOTH}", [what, "Yours: gravel", "anna’s: asphalt"]])
        want((asked(anna), bob.get("$('saved').textContent")), (0, "1 change not saved, tags of an element not saved"))
        answer(bob, "anna’s: asphalt")
        comes(settled(bob), "w3", "tags.lit", "yes")
        want((row(bob, "w3")["tags"]["surface"], question(bob)), ("asphalt", []))
        bob.wait_text("#saved", "All saved")
        for page, value in ((anna, "paved"), (bob, "sand")):
            page.get("page.select('w3')")
            page.fill("#selected [aria-label='Value of surface']", value)
        both.in_turn(SAVE, SAVE)
        bob.wait("!$('question').hidden")
        answer(bob, "Yours: sand")
        for page in (anna, bob):
            comes(settled(page), "w3", "tags.surface", "sand")
        for page in (anna, bob):
            page.fill("#selected [aria-label='Value of surface']", "ground")
        both.in_turn(SAVE, SAVE)
        for page in (anna, bob):
            comes(settled(page), "w3", "tags.surface", "ground")
        want((asked(anna), asked(bob)), (0, 2))


@page_case
def a_key_that_changes_while_it_is_typed() -> None:
    """A field that somebody else changes while a mapper types in it says so, with the name and the value. So does the
    line of a new tag, and the field of a role. What is typed stays, and the mapper chooses when it is saved. If the
    mapper leaves it, the field follows the map."""
    with side_by_side() as both:
        zoe, anna, bob = both.zoe, both.anna, both.bob
        bob.get("page.select('w3')")
        bob.fill("#selected [aria-label='Value of name']", "Millers Lane")
        fill_tag(bob, "w3", "surface", "gravel")
        zoe.ask({"id": 2, "do": "retag", "el": "w3", "tags": {"name": "Mill Street", "surface": "sand", "lit": "no"}})
        marked = "[...document.querySelectorAll('#selected .disputed .theirs')].map((each) => each.textContent)"
        bob.wait(f"{marked}.length === 2")
        want(bob.get(marked), ["zoe changed this to: Mill Street", "zoe changed this to: sand"])
        values = "[...document.querySelectorAll('#selected .tag input:nth-child(2)')].map((each) => each.value)"
        want(sorted(bob.get(values)), ["", "Millers Lane", "gravel", "no", "residential"])
        want(bob.get("$('saved').textContent"), "tags of an element not saved")
        bob.click("#selected button", "Save tags")
        bob.wait("!$('question').hidden")
        want(
            question(bob),
            [
                f"zoe {BOTH}",
                ["“name” of Mill Street, street w3", "Yours: Millers Lane", "zoe’s: Mill Street"],
                ["“surface” of Mill Street, street w3", "Yours: gravel", "zoe’s: sand"],
            ],
        )
        answer(bob, "zoe’s: Mill Street")
        want(len(question(bob)), 2)
        answer(bob, "zoe’s: sand")
        settled(bob).wait_text("#said", "It stays as the other mapper made it.")
        want(sorted(bob.get(values)), ["", "Mill Street", "no", "residential", "sand"])
        want((bob.get("page.session.room.seq"), bob.get("$('saved').textContent")), (1, "All saved"))
        anna.get("page.select('r1')")
        anna.fill("#selected [aria-label='Role of w3']", "main")
        zoe.ask({"id": 3, "do": "members", "el": "r1", "members": [["w3", "link"]]})
        anna.wait_text("#selected .member .theirs", "zoe changed this to: link")
        anna.get("document.activeElement.blur()")
        anna.wait("!$('question').hidden")
        want(question(anna)[1], ["The role of w3 in route r1", "Yours: main", "zoe’s: link"])
        answer(anna, "Yours: main")
        comes(anna, "r1", "members", [["w3", "main"]])


@page_case
def a_node_that_two_drag() -> None:
    """If two mappers drag one node at the same time, the second sees how far each moved it, and chooses. The node goes
    to where the mapper dragged it, or stays. A drag of a way and a drag of one of its nodes are both done."""
    with side_by_side() as both:
        anna, bob = both.anna, both.bob
        for page in (anna, bob):
            page.get("page.select('n4')")

        def drag_both() -> None:
            """Bob begins to drag, anna drags, and bob goes on."""
            x, y = at_node(bob, "n4")
            bob.mouse("mousePressed", x, y)
            bob.mouse("mouseMoved", x, y + 20, buttons=1)
            left, top = at_node(anna, "n4")
            anna.drag((left, top), (left + 50, top))
            east = row(settled(anna), "n4")["lon"]
            comes(bob, "n4", "lon", east)
            bob.mouse("mouseMoved", x, y + 40, buttons=1)
            bob.mouse("mouseReleased", x, y + 40)

        was = row(anna, "n4")
        drag_both()
        bob.wait("!$('question').hidden")
        title, [what, mine, theirs] = question(bob)
        want((title, what), (f"anna {BOTH}", "The place of tree n4"))
        want((mine[:16], mine[-13:]), ("Yours: moved by ", " to the south"))
        want((theirs[:17], theirs[-12:]), ("anna’s: moved by ", " to the east"))
        want(float(row(settled(anna), "n4")["lon"]) > float(was["lon"]), True)
        answer(bob, "Yours")
        comes(settled(bob), "n4", "lon", was["lon"])
        want(float(row(bob, "n4")["lat"]) < float(was["lat"]), True)
        comes(anna, "n4", "lat", row(bob, "n4")["lat"])
        drag_both()
        bob.wait("!$('question').hidden")
        answer(bob, "anna’s")
        settled(bob).wait_text("#said", "It stays as the other mapper made it.")
        want((row(bob, "n4"), asked(anna)), (row(settled(anna), "n4"), 0))
        before = {name: row(bob, name) for name in ("n9", "n10")}
        anna.get("page.select('n9')")
        bob.get("page.select('w3')")
        both.in_turn("page.tools.nudge([10, 0], 1)", "page.tools.nudge([0, 10], 1)")
        for page in (anna, bob):
            settled(page).wait("page.session.room.seq === 5")
        after = {name: row(bob, name) for name in ("n9", "n10")}
        want([float(after[name]["lat"]) < float(before[name]["lat"]) for name in before], [True, True])
        want([after[name]["lon"] != before[name]["lon"] for name in before], [True, False])
        want((asked(anna), asked(bob)), (0, 2))


@page_case
def a_point_that_is_gone_when_a_line_is_finished() -> None:
    """If somebody deletes a node, a street, or the corner of a street at which a line that is drawn is to end, the page
    says that the line is not joined there, and who did it. If the street still goes through there, it is joined."""
    rows = [
        *(row for row in village() if row["el"][0] == "n"),
        a_node(11, 47.5996, 8.201),
        a_node(12, 47.5996, 8.2015),
        a_node(13, 47.5996, 8.202),
        *(row for row in village() if row["el"][0] != "n"),
        {"el": "w4", "nodes": [11, 12, 13], "tags": {"highway": "residential", "name": "Long Lane"}},
    ]
    rows.sort(key=lambda each: ("nwr".index(each["el"][0]), int(each["el"][1:])))
    said = "[$('message').className, $('said').textContent]"
    with pages("anna", rows=rows) as (_, zoe, anna):

        def end_on(node: str, number: int, *messages: dict[str, Any]) -> str:
            x, y = at_node(anna, node)
            draw(anna, (x + 15, y + 45), (x, y), finish=None)
            actions = [dict(each) for each in messages]
            reply = zoe.ask({"id": number, "do": "group", "actions": actions})
            want("ok" in reply, True)
            anna.wait(f"page.session.room.seq >= {reply['ok']['seq']}")
            anna.press("Enter")
            settled(anna)
            way: str = new_names(anna, "w")[-1]
            return way

        road = end_on("n2", 2, {"do": "nodes", "el": "w1", "nodes": [1, 3]}, {"do": "delete", "el": "n2"})
        text = "Saved: drew a way with 2 points."
        path = "<img src=x onerror=alert(1)>, path w1"
        want(anna.get(said), ["refused", f"{text} This line is not joined to {path} there: zoe deleted the point."])
        want(len(row(anna, road)["nodes"]), 2)
        anna.click("#show")
        anna.wait(f"page.selected[0] === 'n{row(anna, road)['nodes'][1]}'")
        road = end_on("n12", 3, {"do": "nodes", "el": "w4", "nodes": [11, 13]}, {"do": "delete", "el": "n12"})
        want(anna.get(said)[1], text)
        want(row(anna, "w4")["nodes"], [11, row(anna, road)["nodes"][1], 13])
        end_on("n9", 4, {"do": "members", "el": "r1", "members": []}, {"do": "delete", "el": "w3"})
        want(anna.get(said)[1], f"{text} This line is not joined to w3 there: zoe deleted it.")


@page_case
def a_street_that_changes_before_a_line_is_finished() -> None:
    """A line that ends on a segment is joined to it wherever it is by then: in a part of a street that was split, where
    somebody put nodes into it, and where it was moved to. Two lines that end at one place have one node there."""
    with pages("anna") as (_, zoe, anna):

        def end_on(number: int, lon: float, *actions: dict[str, Any]) -> int:
            draw(anna, at(anna, 47.5997, lon), at(anna, 47.6, lon), finish=None)
            reply = zoe.ask({"id": number, "do": "group", "actions": list(actions)})
            anna.wait(f"page.session.room.seq >= {reply['ok']['seq']}")
            anna.press("Enter")
            node: int = row(settled(anna), new_names(anna, "w")[-1])["nodes"][1]
            return node

        middle = {"do": "create", **a_node(71, 47.6001, 8.2006)}
        node = end_on(2, 8.2003, middle, {"do": "nodes", "el": "w1", "nodes": [1, 71, 2, 3]})
        want(row(anna, "w1")["nodes"], [1, node, 71, 2, 3])
        lat = float(row(anna, f"n{node}")["lat"])
        want(47.60003 < lat < 47.60006, True)
        draw(anna, at(anna, 47.5998, 8.2006), at_node(anna, f"n{node}"))
        want(row(anna, new_names(anna, "w")[-1])["nodes"][1], node)
        split = {"do": "split", "el": "w1", "at": 2, "into": "w9"}
        draw(anna, at(anna, 47.5997, 8.2008), at(anna, 47.60005, 8.2008), finish=None)
        zoe.ask({"id": 3, "do": "group", "actions": [split]})
        anna.wait("page.elements.has('w9')")
        anna.press("Enter")
        node = row(settled(anna), new_names(anna, "w")[-1])["nodes"][1]
        want(row(anna, "w9")["nodes"], [71, node, 2, 3])
        draw(anna, at(anna, 47.5998, 8.2012), at(anna, 47.60008, 8.2012), finish=None)
        zoe.ask({"id": 4, "do": "move", "els": ["n2", "n3"], "dlat": 1000, "dlon": 0})
        comes(anna, "n3", "lat", "47.6005000")
        anna.press("Enter")
        node = row(settled(anna), new_names(anna, "w")[-1])["nodes"][1]
        want(row(anna, "w9")["nodes"][-2:], [node, 3])
        want(float(row(anna, f"n{node}")["lat"]) > 47.60015, True)
        want(asked(anna), 0)


@page_case
def a_handle_that_two_drag() -> None:
    """Two mappers drag a corner out of one segment at the same time: the street gets both corners."""
    with side_by_side() as both:
        anna, bob = both.anna, both.bob
        for page in (anna, bob):
            page.get("page.select('w3'), page.view.show(page.shapes.boxOf('w3'))")
        places = [window_point(page, "page.tools.middles()[0]") for page in (anna, bob)]
        (left, top), (x, y) = places
        with both.unseen():
            bob.mouse("mousePressed", x, y)
            bob.mouse("mouseMoved", x - 20, y, buttons=1)
            anna.drag((left, top), (left + 40, top))
            settled(anna)
            bob.mouse("mouseMoved", x - 40, y, buttons=1)
            bob.mouse("mouseReleased", x - 40, y)
        for page in (anna, bob):
            settled(page).wait("page.session.room.seq === 2")
            want((len(row(page, "w3")["nodes"]), asked(page)), (4, 0))


@page_case
def what_somebody_changed_and_another_deletes() -> None:
    """Whoever deletes what somebody else changed at the same time is asked. A way that two mappers turn at the same
    time is turned once."""
    with side_by_side() as both:
        anna, bob = both.anna, both.bob
        for page in (anna, bob):
            page.get("page.select('w2')")
        both.in_turn("page.tools.nudge([3, 0], 1)", "page.deleteSelected()")
        settled(anna)
        settled(bob).wait("!page.elements.has('w2')")  # its corners moved, and not itself
        want(asked(bob), 0)
        fill_tag(anna, "n4", "height", "8")
        bob.get("page.select('n4')")
        both.in_turn(SAVE, "page.deleteSelected()")
        bob.wait("!$('question').hidden")
        want(question(bob), [f"anna {BOTH}", ["tree n4", "Yours: delete it", "anna’s: changed the tags of it"]])
        answer(bob, "anna’s")
        settled(bob).wait_text("#said", "It stays as the other mapper made it.")
        want(row(bob, "n4")["tags"]["height"], "8")
        both.in_turn("page.reverse('w1')", "page.reverse('w1')")
        for page in (anna, bob):
            comes(settled(page), "w1", "nodes", [3, 2, 1])
        bob.wait_text("#said", "w1 was turned meanwhile, so it runs as you wanted.")
        want(anna.get("page.session.room.seq"), 4)


@page_case
def a_value_that_changes_during_a_gap() -> None:
    """A change that waits for a connection is compared with what the mapper had seen. If somebody changed the same
    meanwhile, the mapper is asked when the connection is back. A restart ends the question, and the list of what was not
    done has the change."""
    with linked() as (zoe, anna, link):
        fill_tag(anna, "w3", "surface", "gravel")
        fill_tag(anna, "w1", "surface", "sand")
        link.cut(anna)
        at_once(anna, "page.panels.tags.save(...page.panels.tags.unsaved())")
        zoe.ask({"id": 2, "do": "retag", "el": "w3", "tags": {"surface": "asphalt"}})
        zoe.ask({"id": 3, "do": "retag", "el": "w1", "tags": {"foot": "yes"}})
        link.is_cut, link.proxy.port = False, link.server.port
        anna.wait("!$('question').hidden")
        wanted = ["“surface” of Mill Lane, street w3", "Yours: gravel", "Theirs: asphalt"]
        want(question(anna), [f"Somebody {BOTH}", wanted])
        answer(anna, "Yours: gravel")
        comes(settled(anna), "w3", "tags.surface", "gravel")
        want((row(anna, "w1")["tags"]["foot"], row(anna, "w1")["tags"]["surface"]), ("yes", "sand"))
        fill_tag(anna, "w3", "width", "4")
        link.cut(anna)
        at_once(anna, SAVE)
        zoe.ask({"id": 4, "do": "retag", "el": "w3", "tags": {"width": "5"}})
        link.is_cut, link.proxy.port = False, link.server.port
        anna.wait("!$('question').hidden")
        link.is_cut = True
        with restarted(anna, link):
            want(question(anna), [])
            want("width" in row(anna, "w3")["tags"], False)
            want(anna.get("$('saved').textContent"), "tags of an element not saved")
            want((not_done(anna), asked(anna)), ([], 2))


@page_case
def tags_that_outlive_a_restart() -> None:
    """Tags that were typed before the server was restarted are compared by their values with the map of the new run,
    whose entries have other numbers."""
    with linked() as (_, anna, link):
        anna.get("page.select('w3')")
        anna.fill("#selected [aria-label='Value of name']", "Millers Lane")
        link.server.stop()
        link.is_cut = True
        anna.wait_text("#state", "trying again")
        rows = village()
        rows[-2]["tags"]["name"] = "Mill Street"
        with serving(workers=6, sessions=50, base=base_of(rows)) as link.server:
            link.is_cut, link.proxy.port = False, link.server.port
            anna.wait("page.session.state === 'open'")
            anna.wait_text("#selected .disputed .theirs", "Somebody changed this to: Mill Street")
            anna.click("#selected button", "Save tags")
            anna.wait("!$('question').hidden")
            want(question(anna)[1][1:], ["Yours: Millers Lane", "Theirs: Mill Street"])
            answer(anna, "Yours")
            comes(settled(anna), "w3", "tags.name", "Millers Lane")


class Grumbler(FakeRoom):
    """A room that refuses each change of the tree as one of what others changed, for some times."""

    grumbles = 0

    def rows_of(self, message: dict[str, Any]) -> dict[str, Any] | list[dict[str, Any]]:
        """The rows that a change makes, or the refusal."""
        if message.get("el") != "n4" or self.grumbles <= 0:
            return super().rows_of(message)
        self.grumbles -= 1
        seq = self.enter("zoe", [{**self.elements["n4"], "tags": {"ref": str(self.grumbles)}}])
        return {"el": "n4", "why": "changed", "with": seq}


@page_case
def what_the_messages_say() -> None:
    """Each change says up to which entry the mapper had seen the map, also a group. Undos do not. A change that is
    refused again and again is given up, and the page says so."""
    with Grumbler(village()) as room, browsing() as (files, chrome):
        anna = connect(opened(chrome, url_of(files, room.url, "anna")))
        move = "page.perform('moved it', () => [{ do: 'move', els: ['n9'], dlat: 1, dlon: 0 }])"
        anna.get(move)
        room.enter("zoe", [{**room.elements["n4"], "tags": {"ref": "8"}}])
        comes(anna, "n4", "tags.ref", "8")
        anna.get("new Promise((done) => setTimeout(done, UNPAINTED))")
        anna.get(
            move.replace("dlat: 1, dlon: 0 }", "dlat: 1, dlon: 0 }, { do: 'move', els: ['n10'], dlat: 1, dlon: 0 }")
        )
        settled(anna)
        at_once(anna, "page.undo([3])")
        settled(anna)
        changes = [message for message in room.heard if message["do"] in ("move", "group", "undo")]
        want([(each["do"], each.get("since")) for each in changes], [("move", 0), ("group", 2), ("undo", None)])
        room.grumbles = 5
        tag = "page.perform('tagged it', () => [{ do: 'retag', el: 'n4', tags: { height: '8' } }])"
        anna.get(tag)
        comes(settled(anna), "n4", "tags.height", "8")
        room.grumbles = 1000
        anna.get(tag.replace("'8'", "'9'"))
        settled(anna).wait_text("#message.refused", "Others go on changing n4. Try again when they are done.")
        want((room.grumbles, row(anna, "n4")["tags"]), (980, {"ref": "980"}))
