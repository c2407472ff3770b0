"""Cases: what is drawn joins what is there, and nothing loose is left."""
from __future__ import annotations

import json

from lib.cases import want
from lib.map_pages import at_node, connect, opened, pause, settled, url_of
from lib.proxy import Proxy
from lib.talk import serving
from page_cases.looking import at, at_once, comes, draw, new_names, overlay_pixels, press_button, row
from page_cases.opening import a_node, base_of, browsing, linked, page_case, pages, village


@page_case
def a_line_joins_nodes_that_are_not_shown() -> None:
    """A line that is drawn onto an existing node takes it, also where the zoom does not show it."""
    with pages("anna") as (_, _, anna):
        anna.get("page.view.map.setZoom(16, { animate: false }), 0")
        want(anna.get("page.view.zoom < 17"), True)
        x, y = at_node(anna, "n4")
        draw(anna, at_node(anna, "n3"), (x - 60, y - 40))
        [way] = new_names(anna, "w")
        want(row(anna, way)["nodes"][0], 3)
        want(len(new_names(anna, "n")), 1)


@page_case
def a_line_joins_a_line() -> None:
    """A line that is drawn onto a segment becomes a part of it, and one that crosses two lines at their crossing of
    both; all of it is undone at once."""
    with pages("anna") as (_, _, anna):
        before = anna.get("Object.fromEntries(page.elements)")
        draw(anna, at(anna, 47.6003, 8.2015), at(anna, 47.6, 8.2008))
        [way] = new_names(anna, "w")
        joint = row(anna, way)["nodes"][1]
        want(row(anna, "w1")["nodes"], [1, joint, 2, 3])
        want(abs(float(row(anna, f"n{joint}")["lat"]) - 47.6) < 2e-7, True)
        anna.click("#undo")
        anna.wait("!page.elements.has('%s')" % way)
        settled(anna)
        want(anna.get("Object.fromEntries(page.elements)"), before)
        draw(anna, at(anna, 47.6003, 8.2001), at(anna, 47.60001, 8.20051))
        [way] = new_names(anna, "w")
        joint = row(anna, way)["nodes"][1]
        want((row(anna, "w1")["nodes"], row(anna, "w3")["nodes"]), ([1, joint, 2, 3], [9, joint, 10]))


@page_case
def two_joints_on_one_segment() -> None:
    """A line that joins the same segment twice has its nodes there in the order in which they lie."""
    with pages("anna") as (_, _, anna):
        draw(anna, at(anna, 47.6, 8.2009), at(anna, 47.6002, 8.2008), at(anna, 47.6, 8.2007))
        nodes = row(anna, new_names(anna, "w")[0])["nodes"]
        want(row(anna, "w1")["nodes"], [1, nodes[2], nodes[0], 2, 3])


@page_case
def a_line_goes_on_at_either_end() -> None:
    """A way that is selected goes on where a line begins at its end, and by its buttons at its end and its start."""
    with pages("anna") as (_, _, anna):
        anna.get("page.select('w1')")
        x, y = at_node(anna, "n3")
        draw(anna, (x, y), (x + 40, y - 40))
        comes(anna, "w1", "nodes", [1, 2, 3, -1])
        want(new_names(anna, "w"), [])
        anna.get("page.select('w1')")
        anna.click("#selected button", "Continue at the start")
        x, y = at_node(anna, "n1")
        anna.click_at(x - 50, y + 20)
        anna.press("Enter")
        comes(anna, "w1", "nodes", [-2, 1, 2, 3, -1])


@page_case
def a_way_that_changes_while_it_goes_on() -> None:
    """A drawing that goes on with a way stays at its end: others turn the way, or split it, so that the drawing becomes
    a way of its own. If that happens while it cannot be sent, it comes back, and nothing loose is left."""
    with linked() as (zoe, anna, link):

        def go_on(way: str, at_start: bool, node: str) -> None:
            anna.get(f"page.tools.goOn('{way}', {json.dumps(at_start)})")
            x, y = at_node(anna, node)
            anna.click_at(x + 30, y + 40)
            pause(anna)

        said = "[$('message').className, $('said').textContent]"
        does_go_on = "[Boolean(page.tools.draft.extend), $('preset').checkVisibility()]"
        go_on("w1", False, "n3")
        want(anna.get(does_go_on), [True, False])
        zoe.ask({"id": 2, "do": "reverse", "el": "w1"})
        comes(anna, "w1", "nodes", [3, 2, 1])
        anna.press("Enter")
        comes(settled(anna), "w1", "nodes", [-1, 3, 2, 1])
        go_on("w1", False, "n1")
        zoe.ask({"id": 3, "do": "split", "el": "w1", "at": 2, "into": "w9"})
        comes(anna, "w9", "nodes", [2, 1])
        want(anna.get(does_go_on), [False, True])
        anna.press("Enter")
        comes(settled(anna), "w-1", "nodes", [1, -2])
        want((row(anna, "w1")["nodes"], row(anna, "w9")["nodes"]), ([-1, 3, 2], [2, 1]))
        link.cut(anna)
        go_on("w3", False, "n10")
        anna.press("Enter")
        zoe.ask({"id": 4, "do": "reverse", "el": "w3"})
        link.mend(anna)
        want(row(anna, "w3")["nodes"], [-3, 10, 9])
        link.cut(anna)
        go_on("w3", True, "n-3")
        anna.press("Enter")
        zoe.ask({"id": 5, "do": "nodes", "el": "w3", "nodes": [9, 4]})
        zoe.ask({"id": 6, "do": "delete", "el": "n-3"})
        link.mend(anna)
        want(
            anna.get(said),
            ["refused", "w3 does not end there any more. You can save the drawing as a way of its " "own."],
        )
        want((anna.get(does_go_on), row(anna, "w3")["nodes"]), ([False, True], [9, 4]))
        want(new_names(anna, "n"), ["n-1", "n-2"])
        anna.press("Enter")
        anna.wait("page.elements.has('w-2')")
        want(sorted(row(settled(anna), "w-2")["nodes"]), sorted(int(name[1:]) for name in new_names(anna, "n")[2:]))


@page_case
def a_way_that_comes_back_to_itself() -> None:
    """A way that goes on to one of its own segments has the new node there, too."""
    with pages("anna") as (_, _, anna):
        anna.get("page.tools.goOn('w1', false), page.fit()")
        for place in ((47.5997, 8.2015), (47.6, 8.2007)):
            anna.click_at(*at(anna, *place))
            pause(anna)
        anna.press("Enter")
        comes(settled(anna), "w1", "nodes", [1, -2, 2, 3, -1, -2])


@page_case
def a_point_on_a_line() -> None:
    """A point on a line becomes a part of it in its place, and none is made where a node is."""
    with pages("anna") as (_, _, anna):
        anna.click("#point")
        anna.click_at(*at(anna, 47.6002, 8.2015))
        comes(anna, "w1", "nodes", [1, 2, -1, 3])
        anna.click("#point")
        anna.click_at(*at_node(anna, "n-1"))
        anna.wait_text("#said", "There is a node at this place already")
        x, y = at_node(anna, "n2")
        anna.click("#point")
        anna.click_at(x - 6, y + 5)
        anna.wait("page.selected[0] === 'n2'")
        want((new_names(anna, "n"), row(anna, "w1")["nodes"]), (["n-1"], [1, 2, -1, 3]))


# ---- Nothing loose is left


@page_case
def no_loose_nodes() -> None:
    """A deleted building takes its corners along, and the page says so; a node that something else needs stays."""
    with pages("anna") as (_, _, anna):
        anna.get("page.select('w2')")
        anna.press("Delete")
        anna.wait("!page.elements.has('w2')")
        settled(anna)
        want([name for name in ("n5", "n6", "n7", "n8") if row(anna, name)], [])
        anna.wait_text("#said", "with 4 elements that nothing else needs")
        anna.click("#undo")
        comes(anna, "w2", "nodes", [5, 6, 7, 8, 5])
        draw(settled(anna), at_node(anna, "n8"), at(anna, 47.6004, 8.2007))
        anna.get("page.select('w2')")
        anna.press("Delete")
        anna.wait("!page.elements.has('w2')")
        settled(anna)
        want([name for name in ("n5", "n6", "n7", "n8") if row(anna, name)], ["n8"])


@page_case
def a_drawing_is_local() -> None:
    """What is drawn goes out when it is finished: Escape, wherever the focus is, leaves nothing behind."""
    with pages("anna") as (_, _, anna):
        draw(anna, at(anna, 47.6006, 8.2002), at(anna, 47.6007, 8.2003), finish=None)
        anna.get("$('find').focus(), $('find').blur(), $('share').focus()")
        anna.press("Escape")
        anna.wait_text("#said", "Nothing of it was sent")
        want((anna.get("page.session.room.seq"), new_names(anna)), (0, []))
        want((anna.get("page.tools.tool"), anna.get("page.tools.draft")), ("select", None))


@page_case
def a_connection_that_is_lost_while_drawing() -> None:
    """If the connection is lost while something is drawn, nothing of it is in the room, and the drawing goes on."""
    with serving(workers=4, sessions=20, base=base_of(village())) as server, browsing() as (files, chrome):
        cut: list[bool] = []
        with Proxy(server.port, lambda data: None if cut else data) as proxy:
            anna = connect(opened(chrome, url_of(files, proxy.url, "anna")))
            zoe = server.session("zoe")
            draw(anna, at(anna, 47.6006, 8.2002), at(anna, 47.6007, 8.2003), finish=None)
            cut.append(True)
            proxy.port = 9
            zoe.ask({"id": 2, "do": "retag", "el": "n4", "tags": {"ref": "1"}})
            anna.wait_text("#state", "Connection lost")
            cut.clear()
            proxy.port = server.port
            comes(anna, "n4", "tags.ref", "1")
            zoe.follow(1)
            want((anna.get("page.session.room.seq"), len(zoe.rows), new_names(anna)), (1, len(village()), []))
            want(anna.get("page.tools.draft.places.length"), 2)
            anna.press("Enter")
            anna.wait("page.elements.has('w-1')")
            zoe.follow(2)
            want(zoe.rows["w-1"]["nodes"], [-1, -2])
            anna.end()


@page_case
def finishing_a_drawing() -> None:
    """A double click and Enter finish, Backspace removes the last point, a band follows the pointer, Delete deletes."""
    with pages("anna") as (_, _, anna):
        x, y = at(anna, 47.6006, 8.2002)
        anna.click("#line")
        anna.click_at(x, y)
        pause(anna)
        anna.mouse("mouseMoved", x + 30, y, button="none")
        short = overlay_pixels(anna)
        anna.mouse("mouseMoved", x + 160, y, button="none")
        want(overlay_pixels(anna) > short, True)
        anna.double_click_at(x + 40, y)
        anna.wait("page.elements.has('w-1')")
        want(row(settled(anna), "w-1")["nodes"], [-1, -2])
        anna.press("Delete")
        anna.wait("!page.elements.has('w-1')")
        want(new_names(settled(anna)), [])
        draw(anna, (x, y), (x + 40, y), (x + 40, y + 40), finish=None)
        anna.press("Backspace")
        anna.get("$('share').focus()")
        anna.get("document.activeElement.blur()")
        anna.press("Enter")
        anna.wait("page.selected[0]?.startsWith('w-')")
        want(len(row(settled(anna), anna.get("page.selected[0]"))["nodes"]), 2)
        before = new_names(anna, "n")
        draw(anna, (x, y + 80), (x + 40, y + 80), finish=None)
        anna.get("$('map').focus()")
        anna.press("Enter")
        anna.wait("page.tools.tool === 'select'")
        made = [int(name[1:]) for name in new_names(settled(anna), "n") if name not in before]
        want(sorted(row(anna, anna.get("page.selected[0]"))["nodes"]), sorted(made))


@page_case
def an_area_is_closed() -> None:
    """An area has its first node last; what it is can be said while it is drawn."""
    with pages("anna") as (_, _, anna):
        anna.click("#area")
        anna.get("$('preset').value = 'House'")
        for lat, lon in ((47.6003, 8.201), (47.6003, 8.2013), (47.6005, 8.2013)):
            anna.click_at(*at(anna, lat, lon))
            pause(anna)
        anna.click("#finish")
        comes(anna, "w-1", "nodes", [-1, -2, -3, -1])
        want(row(settled(anna), "w-1")["tags"], {"building": "house"})


@page_case
def an_unglued_node_comes_first() -> None:
    """After an unglue a drag moves the new node, though the old one lies at the same place."""
    with pages("anna") as (_, _, anna):
        draw(anna, at_node(anna, "n2"), at(anna, 47.6004, 8.2007))
        anna.get("page.select('n2')")
        anna.click("#selected button", "Unglue w1")
        anna.wait_text("#said", "drag it away")
        new = anna.get("page.selected[0]")
        was = row(anna, "n2")
        x, y = at_node(anna, new)
        centre = anna.get("page.view.map.getCenter()")
        anna.drag((x, y), (x + 30, y + 50))
        anna.wait(f"page.elements.get('{new}').lat !== '{was['lat']}'")
        want(row(settled(anna), "n2"), was)
        want(anna.get("page.view.map.getCenter()"), centre)


@page_case
def a_node_that_moved_in_its_list() -> None:
    """A split and an unglue are at the node that is selected, wherever in the list of its way it is by then. The
    buttons for the node follow its ways."""
    with pages("anna") as (_, zoe, anna):
        draw(anna, at_node(anna, "n2"), at(anna, 47.6004, 8.2007))

        def put_before(name: str, *nodes: int) -> str:
            return (
                "page.perform('put a node into a line', () => ["
                f"{{ do: 'create', el: '{name}', lat: '47.6', lon: '8.2002', tags: {{}} }},"
                f"{{ do: 'nodes', el: 'w1', nodes: {json.dumps(nodes)} }}])"
            )

        anna.get("page.select('n2')")
        at_once(anna, put_before("n71", 1, 71, 2, 3), press_button("Unglue w1"))
        settled(anna)
        new = int(new_names(anna, "n")[-1][1:])
        want(row(anna, "w1")["nodes"], [1, 71, new, 3])
        anna.get(f"page.select('n{new}')")
        at_once(anna, put_before("n72", 1, 72, 71, new, 3), press_button("Split w1"))
        settled(anna)
        want((row(anna, "w1")["nodes"], row(anna, "w-2")["nodes"]), ([1, 72, 71, new], [new, 3]))
        anna.get("page.select('n71')")
        at_once(
            anna,
            "page.perform('took it out', () => [{ do: 'nodes', el: 'w1', nodes: [1, 72, 2] }])",
            press_button("Split w1"),
        )
        anna.wait_text("#message.refused", "The way cannot be split or unglued there.")
        split = "[...$('selected').querySelectorAll('button')].filter((each) => each.textContent.startsWith('Split'))"
        want(anna.get(f"{split}.length"), 0)
        zoe.ask({"id": 2, "do": "nodes", "el": "w1", "nodes": [1, 71, 2]})
        anna.wait(f"{split}.length === 1")


# Has the page forget the ways of each node right before the next entry.
UNLISTED = """(() => {
    const { change } = page.shapes;
    page.shapes.change = function (rows) {
        this.change = change;
        this.users = null;
        return this.change(rows);
    };
})()"""


@page_case
def former_nodes_of_a_way() -> None:
    """The first entry after the welcome comes before the page has listed the ways of each node. It adds a node and
    takes another out of a way: no way has that node any more, and once the way is deleted, it can be deleted, too."""
    with pages("anna") as (_, other, anna):
        anna.get(UNLISTED)
        actions = [{"do": "create", **a_node(-1, 47.6, 8.2011)}, {"do": "nodes", "el": "w1", "nodes": [1, -1, 3]}]
        want("ok" in other.ask({"id": 2, "do": "group", "actions": actions}), True)
        comes(anna, "w1", "nodes", [1, -1, 3])
        want(anna.get("[1, 2, 3, -1].map((id) => page.shapes.usersOf(id))"), [["w1"], [], ["w1"], ["w1"]])
        want("ok" in other.ask({"id": 3, "do": "delete", "el": "w1"}), True)
        anna.wait("!page.elements.has('w1')")
        anna.get("page.select('n2')")
        anna.press("Delete")
        anna.wait("!page.elements.has('n2')")


@page_case
def ids_that_are_rounded() -> None:
    """A way whose ids of nodes JavaScript rounds loses no node and gets no other one: the page refuses to change it. If
    it is deleted, a node stays whose id the rounded one is."""
    large = 2**53 + 1
    nodes, others = village()[:10], village()[10:]
    rows = [
        *nodes,
        a_node(large - 1, 47.6005, 8.2),
        a_node(large, 47.6005, 8.2004),
        *others[:3],
        {"el": "w4", "nodes": [large, 4, 3], "tags": {"highway": "path"}},
        *others[3:],
    ]
    with pages("anna", rows=rows) as (_, zoe, anna):
        for name in ("n4", f"n{large - 1}"):
            anna.get(f"page.select('{name}')")
            anna.press("Delete")
            anna.wait_text("#message.refused", "The id of a node is too large: the line cannot be changed here.")
            anna.click("#hush")
        want(anna.get("page.session.room.seq"), 0)
        anna.get("page.select('w4')")
        anna.press("Delete")
        anna.wait("!page.elements.has('w4')")
        zoe.follow(settled(anna).get("page.session.room.seq"))
        want([name for name in (f"n{large - 1}", f"n{large}") if name not in zoe.rows], [])
