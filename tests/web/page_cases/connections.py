"""Cases: silent and broken connections, restarts of the server, and what was not done."""
from __future__ import annotations

import contextlib
from collections.abc import Iterator

from lib.browser import Page
from lib.cases import want
from lib.map_pages import at_node, connect, opened, settled, url_of
from lib.programs import wait_for
from lib.proxy import Proxy
from lib.talk import serving
from page_cases.looking import at, at_once, close_not_done, comes, draw, draw_unanswered, names_of, new_names
from page_cases.looking import not_done, overlay_pixels, press_button, row, small_targets, tagged
from page_cases.opening import Link, base_of, browsing, linked, page_case, pages, village


@page_case
def a_silent_connection() -> None:
    """What is not answered is counted as not saved; the page notices that the connection is dead, and what was done
    comes through afterwards, once."""
    with serving(workers=4, sessions=20, base=base_of(village())) as server, Proxy(
        server.port
    ) as proxy, browsing() as (files, chrome):
        silent: list[bool] = []
        proxy.hold = lambda data: b"" if silent else data  # before the page connects
        anna = opened(chrome, url_of(files, proxy.url, "anna"))
        want(anna.get("Session.heartbeat"), 30_000)
        anna.get("Session.heartbeat = 12_000")
        connect(anna)
        want(anna.get("$('saved').textContent"), "All saved")
        silent.append(True)
        anna.get("page.select('n4')")
        anna.get("page.moveTo(page.elements.get('n4'), '47.6007', '8.1996'), 0")
        anna.get("page.makeRelation(['w1']), 0")
        anna.wait_text("#saved", "2 changes not saved")
        want(anna.get("page.mayLeave()"), False)
        want(
            anna.get(
                "(() => { const event = new Event('beforeunload', { cancelable: true });"
                " dispatchEvent(event); return event.defaultPrevented; })()"
            ),
            True,
        )
        anna.wait_text("#state", "The server does not answer yet")
        anna.wait_text("#state", "Connection lost")
        silent.clear()
        anna.wait_text("#saved", "1 change perhaps not done")
        want(not_done(anna), [[UNKNOWN, ["moved tree n4"]]])
        close_not_done(anna)
        anna.wait_text("#saved", "All saved")
        anna.wait_text("#state", "Connected")
        anna.wait("page.session.state === 'open'")
        want((row(anna, "n4")["lat"], new_names(anna, "r")), ("47.6007000", ["r-1"]))
        anna.end()


@page_case
def before_and_after_a_session() -> None:
    """Without a session nothing can be drawn, and the panels say nothing of a room. A drawing outlives the session: it
    is there again in the same room, and goes for another one if the mapper agrees."""
    with serving(workers=4, sessions=20, base=base_of(village())) as server, browsing() as (files, chrome):
        anna = opened(chrome, url_of(files, server.port, "anna"))
        able = "['select', 'point', 'line', 'area', 'undo'].filter((id) => !$(id).disabled)"
        titles = (
            "[...document.querySelectorAll('aside h2')].filter((each) => each.checkVisibility()).map("
            "(each) => each.textContent)"
        )
        want((anna.get(able), anna.get(titles)), ([], ["No map yet", "Background", "Tracks and photos"]))
        anna.get("document.activeElement.blur()")
        anna.press("l")
        anna.wait_text("#message.refused", "Connect first.")
        want(anna.get("page.tools.tool"), "select")
        connect(anna).wait_text("#people", "Whoever changes something appears here.")
        want(anna.get(able), ["select", "point", "line", "area"])
        for is_same in (True, False):
            draw(anna, at(anna, 47.6006, 8.2002), at(anna, 47.6007, 8.2003), finish=None)
            anna.get("$('preset').value = 'Track', window.confirm = () => true")
            anna.click("#leave")
            anna.wait_text("#saved", "1 drawing not saved")
            anna.wait_text("#message.refused", "What you drew is kept")
            want((anna.get(able), anna.get("page.mayLeave()")), (["select"], False))
            want(anna.get("$('drawing').hidden"), True)
            want("Your changes" in anna.get(titles), False)
            want(anna.get("$('people').textContent.includes('No change came')"), True)
            want(overlay_pixels(anna) > 100, True)
            if is_same:
                connect(anna).wait("page.tools.draft?.places.length === 2")
                want((anna.get("$('preset').value"), anna.get("$('drawing').hidden")), ("Track", False))
                anna.press("Enter")
                comes(settled(anna), "w-1", "tags", {"highway": "track"})
        anna.get("window.confirm = () => false")
        anna.fill("#room", "rome")
        anna.click("#connect", "Connect")
        want((anna.get("page.session.roomName"), anna.get("page.tools.unsaved.length")), ("paris", 1))
        anna.get("window.confirm = () => true")
        anna.click("#connect", "Connect")
        anna.wait_text("#said", "The server has no room of this name.")
        want(anna.get("page.tools.unsaved.length"), 0)
        anna.end()


@page_case
def a_drawing_of_a_closed_tab() -> None:
    """A drawing outlives its tab: the next one in the same room has it, with its preset and what it meets, and saves it.
    Another tab has it only once the first is closed. What was saved or given up does not come back. It is kept under the
    name that the mapper has now."""
    with serving(workers=6, sessions=20, base=base_of(village())) as server, browsing() as (files, chrome):

        def tab() -> Page:
            return connect(opened(chrome, url_of(files, server.port, "anna"), is_apart=True))

        def close(page: Page) -> None:
            page.end()
            target = page.ask("Target.getTargetInfo")["targetInfo"]["targetId"]
            chrome.ask("Target.closeTarget", targetId=target)

        def count(page: Page) -> int:
            drawn: int = page.get("(page.tools.draft?.places.length ?? 0) + page.tools.unsaved.length")
            return drawn

        kept = "Object.keys(localStorage).filter((key) => key.startsWith('maproom drawings'))"
        first = tab()
        draw(first, at(first, 47.6004, 8.2005), at_node(first, "n3"), finish=None)
        first.get("$('preset').value = 'Track'")
        first.wait(f"{kept}.length === 1")
        second = tab()
        second.get("page.kept.bringBack()")
        want(count(second), 0)
        close(first)
        third = tab()
        third.wait_text("#said", "What you drew at your last visit is here again. Press Enter to save it")
        want((third.get("page.tools.draft.places.length"), third.get("$('preset').value")), (2, "Track"))
        want(third.get("$('saved').textContent"), "1 drawing not saved")
        third.press("Enter")
        third.wait("page.elements.has('w-1')")
        want((row(settled(third), "w-1")["nodes"], row(third, "w-1")["tags"]), ([-1, 3], {"highway": "track"}))
        third.wait(f"{kept}.length === 0")
        second.get("page.kept.bringBack()")
        want(count(second), 0)
        draw(third, at(third, 47.6004, 8.2005), at_node(third, "n3"), finish=None)
        third.wait(f"{kept}.length === 1")
        settled(second).get("page.perform('moved', () => [{ do: 'move', els: ['n3'], dlat: 9, dlon: 0 }])")
        third.wait("page.elements.get('n3').lat === '47.6004009'")
        close(third)
        came = "page.kept.bringBack().then(() => page.tools.draft?.places.length === 2)"
        wait_for("the drawing does not come", lambda: bool(second.get(came)))
        want(second.get("page.tools.draft.places[1].el ?? null"), None)
        second.wait(f"{kept}.length === 1 && {kept}[0].endsWith(' anna')")
        second.get("void (window.confirm = () => true)")
        second.click("#leave")
        second.fill("#name", "mika")
        connect(second).wait("page.tools.draft?.places.length === 2")
        second.wait(f"{kept}.length === 1 && {kept}[0].endsWith(' mika')")
        second.press("Escape")
        second.wait(f"{kept}.length === 0")
        second.end()


@page_case
def what_survives_a_restart() -> None:
    """A drawing and typed tags outlive a server that is restarted; what was sent and not answered is reported."""
    with contextlib.ExitStack() as kept:
        first = kept.enter_context(serving(workers=4, sessions=20, base=base_of(village())))
        silent: list[bool] = []
        proxy = kept.enter_context(Proxy(first.port, lambda data: b"" if silent else data))
        files, chrome = kept.enter_context(browsing())
        anna = connect(opened(chrome, url_of(files, proxy.url, "anna")))
        anna.get("page.perform('tagged', () => [{ do: 'retag', el: 'n4', tags: { ref: '7' } }])")
        settled(anna).get("page.select('w3')")
        anna.fill("#selected .tag:last-child input", "surface")
        draw(anna, at_node(anna, "n3"), at(anna, 47.6006, 8.2015), finish=None)
        silent.append(True)
        anna.get("page.makeRelation(['w1']), 0")
        anna.wait_text("#saved", "1 change not saved")
        first.stop()
        anna.wait_text("#state", "trying again")
        second = kept.enter_context(serving(workers=4, sessions=20, base=base_of(village())))
        silent.clear()
        proxy.port = second.port
        anna.wait("page.session.state === 'open' && page.session.unsaved === 0")
        want((anna.get("page.tools.draft.places.length"), row(anna, "n4")["tags"]), (2, {"natural": "tree"}))
        anna.wait("page.panels.tags.unsaved().length === 1")
        want(not_done(anna), [[UNKNOWN, ["made a relation of <img src=x onerror=alert(1)>, path w1"]]])
        anna.wait_text("#saved", "1 change perhaps not done")
        anna.wait_text("#undos", "Nothing yet")
        anna.get("document.activeElement.blur()")
        anna.press("Enter")
        anna.wait("page.elements.has('w-1')")
        want(row(settled(anna), "w-1")["nodes"], [3, -1])
        anna.end()


# What is said of a change if nobody knows whether it was done.
UNKNOWN = "The connection ended before the answer came. Look at the map: the change may be there or not."

# What is said of a change that was not sent to a server that was restarted, or that perhaps was.
TO_ANOTHER = "The server was restarted before this was sent. It was not done."

TO_PERHAPS_ANOTHER = "The connection broke before this was sent. It was not done."


@contextlib.contextmanager
def restarted(page: Page, link: Link, *rooms: str) -> Iterator[Page]:
    """Stops the server of a page, and starts another one with the same map, perhaps with other rooms."""
    link.server.stop()
    link.is_cut = True
    link.may_pass.set()
    page.wait_text("#state", "trying again")
    with serving(*rooms, workers=6, sessions=50, base=base_of(village())) as link.server:
        link.is_cut, link.proxy.port = False, link.server.port
        page.wait("page.session.state !== 'lost'")
        yield settled(page)


@page_case
def drawings_that_are_not_answered() -> None:
    """Before a mapper's first saved change, nobody can ask what the server did. So a drawing that was sent and not
    answered comes back. What was drawn after it is sent later, and is saved. An undo is not done then."""
    with serving(workers=4, sessions=20, base=base_of(village())) as server, browsing() as (files, chrome):
        silent: list[bool] = []
        cut: list[bool] = []
        with Proxy(server.port, lambda data: None if cut else b"" if silent else data) as proxy:
            anna = connect(opened(chrome, url_of(files, proxy.url, "anna")))
            zoe = server.session("zoe")
            silent.append(True)
            draw_unanswered(anna, 47.6006, "Footpath")
            draw_unanswered(anna, 47.6007, "Track")
            zoe.follow(1)
            cut.append(True)
            proxy.port = 9
            zoe.ask({"id": 2, "do": "retag", "el": "n4", "tags": {"ref": "1"}})
            anna.wait_text("#state", "Connection lost")
            draw_unanswered(anna, 47.6008, "")
            at_once(anna, "page.undo()")
            anna.wait_text("#saved", "4 changes not saved")
            cut.clear()
            silent.clear()
            proxy.port = server.port
            anna.wait("page.session.state === 'open' && page.session.unsaved === 0")
            anna.wait_text("#saved", "1 drawing not saved")
            want((anna.get("$('preset').value"), anna.get("page.tools.draft.places.length")), ("Footpath", 2))
            want(new_names(anna, "w"), ["w-1", "w-2", "w-3"])
            want(anna.get("[$('message').className, $('said').textContent]"), ["refused", UNKNOWN])
            want(not_done(anna), [[TO_PERHAPS_ANOTHER, ["undid the last change"]]])
            close_not_done(anna)
            anna.press("Escape")
            anna.wait_text("#saved", "All saved")
            want((anna.get("page.tools.draft"), anna.get("$('said').textContent")), (None, "The drawing is given up."))
            anna.end()


@page_case
def drawings_that_a_restart_gives_back() -> None:
    """If the server is restarted, drawings that are not saved come back, one after the other, with their presets:
    first the one that was sent. An undo that was not sent is not done. What is drawn then is saved."""
    with linked() as (_, anna, link):
        link.hold_up()
        for lat, preset in ((47.6006, "Footpath"), (47.6007, "Track"), (47.6008, "")):
            draw_unanswered(anna, lat, preset)
        at_once(anna, "page.undo()")
        anna.wait_text("#saved", "4 changes not saved")
        with restarted(anna, link):
            anna.wait_text("#undos", "Nothing yet")
            want(not_done(anna), [[TO_ANOTHER, ["undid the last change"]]])
            close_not_done(anna)
            for preset, left, why in (("Footpath", 3, UNKNOWN), ("Track", 2, TO_ANOTHER), ("", 1, TO_ANOTHER)):
                anna.wait_text("#saved", f"{left} drawing")
                want((anna.get("$('preset').value"), anna.get("page.tools.draft.places.length")), (preset, 2))
                want(why in anna.get("$('said').textContent"), True)
                anna.press("Escape")
            anna.wait_text("#saved", "All saved")
            want((new_names(anna), anna.get("page.session.room.seq")), ([], 0))
            draw_unanswered(anna, 47.6006, "Track")
            anna.wait("page.elements.has('w-1')")
            settled(anna)


@page_case
def drawings_that_are_saved_one_after_the_other() -> None:
    """If several drawings come back, Enter says first that one was saved, and then that the next came back. The next
    one waits for the answer. If the answer is a refusal, the same drawing comes back first."""
    with linked() as (_, anna, link):
        link.cut(anna)
        for lat, preset in ((47.6006, "Footpath"), (47.6007, "Track"), (47.6008, "Street")):
            draw_unanswered(anna, lat, preset)
        with restarted(anna, link):
            anna.wait_text("#saved", "3 drawings not saved")
            said = "[$('message').className, $('said').textContent]"
            next_one = f"The next drawing was not saved either. {TO_ANOTHER}"
            by_keys = "Press Enter to save it, or Escape to drop it."
            link.hold_up()
            anna.press("Enter")
            anna.wait_text("#saved", "1 change not saved, 2 drawings not saved")
            want(anna.get("page.tools.draft"), None)
            link.go_on(anna)
            anna.wait("$('preset').value === 'Track' && page.tools.draft.places.length === 2")
            want(anna.get(said), ["refused", f"Saved: drew a footway with 2 points. {next_one} {by_keys}"])
            want([row(anna, way)["tags"] for way in new_names(anna, "w")], [{"highway": "footway"}])
            anna.get("page.session.send = () => Promise.reject({ why: 'memory' })")
            anna.press("Enter")
            settled(anna).wait_text("#said", "The server is out of memory.")
            want((anna.get("$('preset').value"), "next" in anna.get(said)[1]), ("Track", False))
            anna.get("delete page.session.send, page.isTouch = true, $('cancel').click()")
            anna.wait("$('preset').value === 'Street'")
            want(anna.get(said), ["refused", f"{next_one} “Finish” saves it, “Cancel” drops it."])
            anna.press("Enter")
            anna.wait_text("#said", "Saved: drew a street with 2 points.")
            want((anna.get(said)[0], anna.get("$('saved').textContent")), ("", "All saved"))


@page_case
def changes_that_a_restart_drops() -> None:
    """If the server is restarted, each change that was not sent is listed with its text and its reason, and the page
    does not say that all is saved, until the mapper closes the list. Nothing keeps the mapper from leaving."""
    with linked() as (_, anna, link):
        colour = "getComputedStyle($('saved')).backgroundColor"
        link.cut(anna)
        for el in ("n4", "w2"):
            anna.get(f"page.select('{el}')")
            anna.get(press_button("Delete"))
        anna.get("page.select('w3')")
        anna.get(press_button("Reverse"))
        anna.wait_text("#saved", "3 changes not saved")
        red = anna.get(colour)
        dropped = [
            [
                TO_ANOTHER,
                [
                    "deleted 7, tree n4",
                    "deleted building w2 with 4 elements that nothing else needs",
                    "reversed Mill Lane, street w3",
                ],
            ]
        ]
        with restarted(anna, link):
            want(not_done(anna), dropped)
            want([anna.get("$('saved').textContent"), anna.get(colour)], ["3 changes not done", red])
            want(anna.get("$('not-done-title').textContent"), "3 changes not done")
            want(anna.get("$('said').textContent"), "The server was restarted. This is the map that it has now.")
            want((row(anna, "w3")["nodes"], len(names_of(anna))), ([9, 10], len(village())))
            want(
                (
                    anna.get("page.mayLeave()"),
                    ("button", "Close the list of changes that were not done") in anna.tree(),
                ),
                (True, True),
            )
            anna.click("#point")
            anna.click_at(*at(anna, 47.6004, 8.2012))
            anna.wait_text("#said", "Saved: made a node.")
            want((not_done(anna), anna.get("$('saved').textContent")), (dropped, "3 changes not done"))
            anna.press("Escape")
            want(not_done(anna), dropped)
            close_not_done(anna)
            want((anna.get("$('saved').textContent"), anna.get("$('saved').className")), ("All saved", ""))


@page_case
def changes_that_waited_and_are_refused() -> None:
    """If a change waited for a connection and is refused then, the list has it for every reason, together with those of
    the same reason. A change that is refused over a connection is only reported. Neither is a change listed that
    somebody else has made already."""
    with linked() as (zoe, anna, link):
        move = "page.perform('moved {0}', () => [{{ do: 'move', els: ['{0}'], dlat: 1, dlon: 0 }}])"
        zoe.ask({"id": 2, "do": "create", "el": "n77", "lat": "47.6", "lon": "8.2", "tags": {}})
        anna.wait("page.elements.has('n77')")
        link.cut(anna)
        anna.get("page.select('n77')")
        at_once(
            anna,
            move.format("n98"),
            press_button("Delete"),
            press_button("Move to"),
            "page.saveNodes('w1', '3 2 1', '1 2 3')",
            move.format("n98"),
            "page.undo()",
        )
        zoe.ask({"id": 3, "do": "delete", "el": "n77"})
        zoe.ask({"id": 4, "do": "nodes", "el": "w1", "nodes": [1, 2, 3, 4]})
        link.mend(anna)
        wanted = [
            ["n98 is not there, or not any more.", ["moved n98", "moved n98"]],
            ["What this is about is not there any more.", ["moved node n77"]],
            [
                "Somebody changed the nodes of w1 meanwhile. Select it again, and change its list.",
                ["changed the line of <img src=x onerror=alert(1)>, path w1"],
            ],
            ["Nothing was undone or redone, because the change before was not saved.", ["undid the last change"]],
        ]
        want(not_done(anna), wanted)
        want(
            anna.get("[$('saved').textContent, $('said').textContent]"),
            ["5 changes not done", "That would change nothing."],
        )
        at_once(anna, move.format("n99"))
        anna.wait_text("#message.refused", "n99 is not there, or not any more.")
        want(not_done(anna), wanted)
        close_not_done(anna)
        want(row(anna, "n4")["tags"]["ref"], "7")


@page_case
def undos_that_a_restart_drops() -> None:
    """An undo and a redo that were not sent are listed with what they were about, if that was known. A change that was
    sent and not answered is listed as one of which nobody knows."""
    with linked() as (_, anna, link):
        anna.get(tagged("8"))
        settled(anna).wait("page.session.undos.length === 2")
        link.hold_up()
        at_once(anna, tagged("9"), "page.undo([1])", "page.undo()", "page.redo()")
        anna.wait_text("#saved", "4 changes not saved")
        with restarted(anna, link):
            want(
                not_done(anna),
                [
                    [UNKNOWN, ["tagged 9"]],
                    [TO_ANOTHER, ["undid entry 1: tagged 7", "undid the last change", "redid the last change"]],
                ],
            )
            want(anna.get("$('saved').textContent"), "3 changes not done, 1 perhaps")


@page_case
def what_comes_back_is_not_listed() -> None:
    """Drawings and typed tags that the mapper has back after a refusal are not listed, but count as not saved. Typed
    tags of an element that is gone are listed."""
    with linked() as (zoe, anna, link):
        link.cut(anna)
        for el in ("w3", "n4"):
            anna.get(f"page.select('{el}')")
            anna.fill("#selected .tag:last-child input", "surface")
            anna.fill("#selected .tag:last-child input:nth-child(2)", "gravel")
            anna.get(press_button("Save tags"))
        draw_unanswered(anna, 47.6006, "Track")
        zoe.ask({"id": 2, "do": "delete", "el": "n4"})
        anna.get("page.session.send = () => Promise.reject({ why: 'memory' })")
        link.mend(anna)
        want(
            not_done(anna),
            [["The server is out of memory. Try again later.", ["tagged 7, tree n4 with surface=gravel"]]],
        )
        want(anna.get("$('saved').textContent"), "1 drawing not saved, tags of an element not saved, 1 change not done")


@page_case
def a_session_that_ends_before_all_is_saved() -> None:
    """If a session ends by itself, the changes that waited are listed. Whoever leaves has agreed to drop them."""
    with linked() as (_, anna, link):
        link.cut(anna)
        at_once(anna, tagged("8"), "page.makeRelation(['w1'])")
        with restarted(anna, link, "rome"):
            anna.wait_text("#said", "The server has no room of this name.")
            want(
                not_done(anna),
                [
                    [
                        "The session ended before this was sent. It was not done.",
                        ["tagged 8", "made a relation of <img src=x onerror=alert(1)>, path w1"],
                    ]
                ],
            )
            want(anna.get("$('saved').textContent"), "2 changes not done")
            close_not_done(anna)
            want(anna.get("$('saved').textContent"), "")
    with linked() as (_, anna, link):
        link.cut(anna)
        at_once(anna, tagged("8"))
        anna.get("window.confirm = () => true, $('leave').click()")
        anna.wait_text("#said", "You left the room before the answer came.")
        want(not_done(anna), [])


@page_case
def a_long_list_of_what_was_not_done() -> None:
    """Twenty changes that were not done are a short list that scrolls, next to the map on a screen and on a phone."""
    with pages("anna") as (_, _, anna):
        anna.get(
            """for (let at = 0; at < 20; at += 1) {
            const why = at < 14 ? { why: 'not_sent', restarted: true } : { why: 'unknown' };
            page.changeRefused({ ...why, isDropped: true, text: `deleted Old Oak Tree, tree n${5000 + at}` });
        }"""
        )
        want([len(changes) for _, changes in not_done(anna)], [14, 6])
        anna.wait_text("#saved", "14 changes not done, 6 perhaps")
        box, frame = (f"$('{name}').getBoundingClientRect()" for name in ("not-done", "frame"))
        for width, height, is_phone in ((1280, 800, False), (390, 844, True), (844, 390, True)):
            anna.resize(width, height, is_phone)
            anna.wait(f"innerWidth === {width} && page.view.size().x <= {width}")
            want(anna.get(f"{box}.height < innerHeight * 0.5 && {box}.right <= innerWidth"), True)
            want(anna.get(f"{box}.bottom < {frame}.bottom"), True)
            want(anna.get("$('not-done-changes').scrollHeight > $('not-done-changes').clientHeight"), True)
            want(anna.get("document.documentElement.scrollWidth <= innerWidth"), True)
            want([] if not is_phone else small_targets(anna), [])
        close_not_done(anna)


@page_case
def leaving_before_all_is_saved() -> None:
    """Whoever leaves while changes wait for the connection keeps the drawings among them, can connect again, and saves
    them one after the other."""
    with linked() as (_, anna, link):
        link.cut(anna)
        for lat, preset in ((47.6006, "Footpath"), (47.6007, "Track")):
            draw_unanswered(anna, lat, preset)
        at_once(anna, "page.undo()", "page.makeRelation(['w1'])")
        anna.wait_text("#saved", "4 changes not saved")
        anna.get("window.confirm = () => true, $('leave').click()")
        anna.wait_text("#saved", "2 drawings not saved")
        want(anna.get("[page.session.unsaved, $('state').textContent]"), [0, "Not connected"])
        link.is_cut, link.proxy.port = False, link.server.port
        connect(anna)
        for preset in ("Footpath", "Track"):
            anna.wait(f"page.tools.draft?.places.length === 2 && $('preset').value === '{preset}'")
            anna.press("Enter")
        anna.wait_text("#saved", "All saved")
        want([row(anna, way)["tags"]["highway"] for way in new_names(anna, "w")], ["footway", "track"])
        want((new_names(anna, "r"), row(anna, "n4")["tags"]["ref"]), ([], "7"))
