"""Cases: undo, redo, conflicts, and what others do."""
from __future__ import annotations

import urllib.parse

from lib.cases import want
from lib.map_pages import at_node, connect, middle_of, opened, settled, url_of
from lib.talk import serving
from page_cases.looking import at, at_once, close_not_done, comes, draw, draw_unanswered, new_names, not_done, row
from page_cases.looking import tagged
from page_cases.opening import base_of, browsing, linked, page_case, pages, village


@page_case
def a_link_that_connects() -> None:
    """A link with `connect` joins the room at once; any other fills in its fields alone."""
    with serving(workers=4, sessions=90, base=base_of(village())) as server, browsing() as (files, chrome):
        anna = opened(chrome, url_of(files, server.port, "anna", connect="now"))
        anna.wait_text("#state", "Connected")
        anna.wait("page.elements.has('w1')")
        bob = opened(chrome, url_of(files, server.port, "bob"))
        want(bob.get("$('state').textContent"), "Not connected")
        for page in (anna, bob):
            page.end()


@page_case
def two_pages_and_a_third_client() -> None:
    """Each sees at once what the others do; a conflict is told in a sentence and shown, and goes when it is gone; an
    undo is told as one; a redo."""
    with pages("anna", "bob") as (_, zoe, anna, bob):
        anna.click("#point")
        anna.click_at(*at(anna, 47.6006, 8.2002))
        bob.wait("page.elements.has('n-1')")
        bob.wait_text("#changes", "anna made a point")
        anna.wait_text("#undos", "1: made a node")
        bob.get("page.select('n-1')")
        was = row(bob, "n-1")
        x, y = at_node(bob, "n-1")
        bob.drag((x, y), (x + 60, y - 40))
        anna.wait_text("#changes", "bob moved a point")
        settled(anna).click("#undo")
        anna.wait_text(
            "#message.refused",
            "Not undone: bob later moved a point (entry 2). You can undo yours after bob undid that, or change the "
            "element by hand.",
        )
        want(anna.get("$('undo-possible').hidden"), True)
        anna.wait("document.querySelector('#changes .blocks')?.dataset.seq === '2'")
        anna.click("#show")
        anna.wait_text("#selected-title", "n-1")
        settled(bob).click("#undo")
        comes(anna, "n-1", "lat", was["lat"])
        anna.wait_text("#changes", "bob undid entry 2: moved a point")
        anna.wait("!document.querySelector('#changes .blocks') && page.session.conflict === null")
        anna.wait_text("#said", "What was in the way is gone")
        anna.click("#undos button", "Undo")
        anna.wait_text("#undos", "1, undone: made a node")
        bob.wait("!page.elements.has('n-1')")
        bob.wait_text("#changes", "anna undid entry 1: made a point")
        bob.wait_text("#selected-title", "Nothing selected")
        settled(anna).click("#redo")
        bob.wait("page.elements.has('n-1')")
        bob.wait_text("#changes", "anna redid entry 1: made a point")
        want(anna.get("[$('changes').children.length, $('people').children.length]"), [2, 1])
        anna.wait_text("#undos", "5: made a node")
        zoe.follow(5)
        want(zoe.rows, settled(bob).get("Object.fromEntries(page.elements)"))


@page_case
def the_last_that_can_be_undone() -> None:
    """A refused undo says who did what later, and where. It offers to undo the last change that can be undone, if there
    is another, and says so if none can be."""
    moved = "page.perform('moved {0}', () => [{{ do: 'move', els: ['{0}'], dlat: 1000, dlon: 0 }}])"
    with pages("anna", "bob") as (_, zoe, anna, bob):
        for change in (tagged("7"), moved.format("n9"), moved.format("n10")):
            anna.get(change)
        anna.click("#point")
        anna.click_at(*at(anna, 47.6006, 8.2002))
        bob.wait("page.elements.has('n-1')")
        bob.get(moved.format("n9"))
        zoe.ask({"id": 2, "do": "create", "el": "w99", "nodes": [-1, 1], "tags": {"highway": "path", "name": "Elm"}})
        anna.wait("page.elements.has('w99')")
        refusal = (
            "Not undone: zoe later made the path Elm at a point (entry 6). You can undo yours after zoe undid that, "
            "or change the element by hand."
        )
        for undone in ("moved n10", "tagged 7"):
            settled(anna).click("#undo")
            anna.wait_text("#message.refused", refusal)
            anna.click("#undo-possible", "Undo the last that can be undone")
            anna.wait_text("#said", f"Undone: {undone}.")
            want(anna.get("[$('undo-possible').hidden, $('message').className]"), [True, ""])
        want([row(anna, name) for name in ("n4", "n10")], [each for each in village() if each["el"] in ("n4", "n10")])
        want(anna.get("page.session.undos.map(([seq]) => page.session.textOf(seq))"), ["moved n9", "made a node"])
        settled(anna).click("#undo")
        anna.wait_text("#message.refused", refusal)
        anna.click("#undo-possible")
        anna.wait_text("#said", "None of your changes can be undone: later changes build on each of them.")
        want(anna.get("$('undo-possible').hidden"), True)
        anna.click("#undos li:nth-child(2) button", "Undo")
        anna.wait_text("#message.refused", "Not undone: bob later moved a point (entry 5).")
        settled(bob).click("#undo")
        anna.wait_text("#said", "What was in the way is gone.")
        want(anna.get("$('undo-possible').hidden"), True)


@page_case
def quick_undos() -> None:
    """An undo means what was done last, also if that is not answered yet. If it is refused, nothing older is undone.
    Several undos and redos at once take one after the other, and each says which. The lists are right at once."""
    with linked() as (_, anna, link):
        anna.get("page.session.askUndos = () => {}")
        said = "[$('message').className, $('said').textContent]"
        lists = "[page.session.undos, page.session.redos].map((each) => each.map(([seq]) => page.session.textOf(seq)))"
        at_once(anna, tagged("8"), tagged("9"), "page.undo()")
        want((row(settled(anna), "n4")["tags"]["ref"], anna.get(said)[1]), ("8", "Undone: tagged 9."))
        want(anna.get(lists), [["tagged 7", "tagged 8"], ["tagged 9"]])
        at_once(anna, "page.undo()", "page.undo()")
        want((row(settled(anna), "n4")["tags"], anna.get(said)), ({"natural": "tree"}, ["", "Undone: tagged 7."]))
        at_once(anna, "page.redo()", "page.redo()")
        want((row(settled(anna), "n4")["tags"]["ref"], anna.get(said)), ("8", ["", "Redone: tagged 8."]))
        want(anna.get(lists), [["tagged 7", "tagged 8"], ["tagged 9"]])
        kept = anna.get("JSON.parse(localStorage.getItem(page.session.key)).entries.map(([, text]) => text)")
        want(kept[-2:], ["tagged 7", "tagged 8"])
        asked = "page.session.room.undos().then(({ undos, redo }) => [undos, redo])"
        want(anna.get("[page.session.undos.flat(), page.session.redos.flat()]"), anna.get(asked))
        at_once(anna, "page.perform('moved', () => [{ do: 'move', els: ['n99'], dlat: 1, dlon: 0 }])", "page.undo()")
        settled(anna)
        want(anna.get(said), ["refused", "n99 is not there, or not any more."])
        want(
            not_done(anna),
            [["Nothing was undone or redone, because the change before was not saved.", ["undid the last change"]]],
        )
        close_not_done(anna)
        want(row(anna, "n4")["tags"]["ref"], "8")
        held = (
            "document.body.dispatchEvent(new KeyboardEvent('keydown', {{ key: '{}', ctrlKey: {}, repeat: true,"
            " bubbles: true }}))"
        )
        at_once(anna, tagged("10"), held.format("z", "true"), "page.select('w2')", held.format("Delete", "false"))
        want((row(settled(anna), "n4")["tags"]["ref"], anna.get("page.elements.has('w2')")), ("10", True))
        link.cut(anna)
        draw_unanswered(anna, 47.6006, "Track")
        anna.press("z", modifiers=2)
        anna.wait_text("#saved", "2 changes not saved")
        link.mend(anna)
        want((new_names(anna), row(anna, "n4")["tags"]["ref"]), ([], "10"))
        want(anna.get(said)[1], "Undone: drew a street with 2 points.")


@page_case
def a_click_while_news_come() -> None:
    """A button in a list takes a click also if the list changes while the button is down. What came meanwhile is shown
    once it is up."""
    with pages("anna") as (_, zoe, anna):
        zoe.ask({"id": 2, "do": "move", "els": ["w2"], "dlat": 100, "dlon": 0})
        anna.get(tagged("7"))
        settled(anna).wait_text("#undos", "2: tagged 7")
        place = middle_of(anna, "#undos button")
        anna.mouse("mousePressed", *place)
        for number in range(3, 9):
            zoe.ask({"id": number, "do": "retag", "el": "w3", "tags": {"lit": str(number)}})
        anna.get("page.session.askUndos()")
        anna.wait("page.session.room.seq === 8")
        anna.get("new Promise((done) => setTimeout(done, 200))")
        want(anna.get("$('changes').textContent.includes('lit=8')"), False)
        want(middle_of(anna, "#undos button"), place)
        anna.mouse("mouseReleased", *place)
        anna.wait_text("#said", "Undone: tagged 7.")
        anna.wait("$('changes').textContent.includes('lit=8')")
        anna.mouse("mousePressed", *middle_of(anna, "#people li"))
        zoe.ask({"id": 9, "do": "retag", "el": "w3", "tags": {"lit": "never"}})
        anna.wait_text("#changes", "lit=never")  # the pointer stays down for long


@page_case
def changes_of_an_earlier_visit() -> None:
    """After a reload, the last changes of all are still listed, in words: a way of which all nodes moved was moved."""
    with pages("anna") as (_, zoe, anna):
        anna.get(tagged("7"))
        zoe.ask({"id": 2, "do": "move", "els": ["w2"], "dlat": 100, "dlon": 0})
        settled(anna).wait_text("#changes", "zoe moved a building")
        anna.wait("JSON.parse(localStorage.getItem(page.session.key)).changes?.length === 2")
        anna.reload()
        anna.wait("typeof page !== 'undefined' && page.background && !page.session")
        connect(anna).wait_text("#changes", "zoe moved a building")
        anna.wait_text("#people", "zoe moved a building")
        anna.wait_text("#undos", "1: tagged 7")
        zoe.ask({"id": 3, "do": "retag", "el": "n4", "tags": {"height": "8"}})
        anna.wait_text("#changes", "zoe set height=8 on the tree 7")
        want(anna.get("[...$('changes').children].map((each) => each.dataset.seq)"), ["3", "2"])


@page_case
def what_is_taken_back_is_said() -> None:
    """Each undo says what it undoes, also after a reload; it undoes a whole gesture."""
    with pages("anna") as (server, _, anna):
        draw(anna, at(anna, 47.6003, 8.2015), at(anna, 47.6, 8.2008))
        [way] = new_names(anna, "w")
        anna.wait_text("#undos", "drew a way with 2 points")
        anna.reload()
        anna.wait("typeof page !== 'undefined' && page.background && !page.session")
        connect(anna)
        anna.wait_text("#undos", "drew a way with 2 points")
        want(anna.get("$('undos').querySelectorAll('button').length"), 1)
        want(anna.get("$('undo').title"), "Undo: drew a way with 2 points (Ctrl+Z)")
        anna.press("Z", modifiers=2)  # as under caps lock
        anna.wait(f"!page.elements.has('{way}')")
        want((new_names(settled(anna)), row(anna, "w1")["nodes"]), ([], [1, 2, 3]))
        anna.wait_text("#said", "Undone: drew a way with 2 points")
        anna.press("Z", modifiers=10)
        anna.wait("page.elements.size > %d" % len(village()))
        anna.wait_text("#said", "Redone: drew a way with 2 points")
        settled(anna)


@page_case
def what_was_made_before() -> None:
    """Entries of an earlier session, of which nothing is known, are one line, and are undone one by one from the last.
    Each undo shows what its entry did."""
    with pages() as (server, zoe), browsing() as (files, chrome):
        for number in (2, 3, 4):
            zoe.ask({"id": number, "do": "create", "el": f"n-{number}", "lat": "47.6", "lon": "8.2", "tags": {}})
        zoe.leave()
        page = connect(opened(chrome, url_of(files, server.port, "zoe")))
        lines = "[...$('undos').children].map((each) => each.firstChild.textContent)"
        page.wait_text("#undos", "3 earlier entries, made before you came")
        page.get("page.perform('tagged', () => [{ do: 'retag', el: 'n4', tags: { ref: '7' } }])")
        page.wait_text("#undos", "4: tagged")
        want(page.get(lines), ["4: tagged", "3 earlier entries, made before you came"])
        for last, rest in ((3, "2 earlier entries, made before you came"), (2, "1: made before you came")):
            page.click("#undos button", f"Undo {last}")
            page.wait_text("#said", "Undone: made a point.")
            page.wait_text("#undos", rest)
            want(page.get(lines)[:3], ["4: tagged", rest, f"{last}, undone: made a point"])
        page.end()


@page_case
def people() -> None:
    """Who changed what and where can be gone to; a link fills in room and address; the last room in which the mapper
    saved something is remembered."""
    with pages("anna", tiles="http://127.0.0.1:9/{z}/{x}/{y}.png", credit="test") as (server, zoe, anna):
        zoe.ask({"id": 4, "do": "create", "el": "n99", "lat": "47.9", "lon": "8.9", "tags": {"natural": "tree"}})
        anna.wait_text("#people", "zoe made a tree")
        anna.click("#people button", "Go")
        anna.wait("Math.abs(page.view.map.getCenter().lat - 47.9) < 0.001")
        want(anna.get("page.selected"), ["n99"])
        want(anna.get("colourOf('zoe') !== colourOf('bob')"), True)
        want(anna.get("$('people').querySelector('.dot').style.background !== ''"), True)
        fields = dict(urllib.parse.parse_qsl(urllib.parse.urlsplit(anna.get("page.link()")).query))
        want(
            fields,
            {
                "address": f"ws://127.0.0.1:{server.port}",
                "room": "paris",
                "tiles": "http://127.0.0.1:9/{z}/{x}/{y}.png",
                "credit": "test",
            },
        )
        want(anna.get("localStorage.getItem('maproom last')"), None)
        anna.get(tagged("7"))
        settled(anna).get("location.href = location.href.split('?')[0]")
        anna.wait("typeof page !== 'undefined' && page.background && !page.session")
        want(
            anna.get("[$('address').value, $('room').value, $('name').value]"),
            [f"ws://127.0.0.1:{server.port}", "paris", "anna"],
        )
