"""Cases: refusals, typed tags, members, and gestures as groups of actions."""
from __future__ import annotations

from lib.cases import want
from lib.fake_rooms import FakeRoom
from lib.map_pages import at_node, connect, opened, pause, settled, url_of
from page_cases.looking import at, at_once, comes, draw, draw_unanswered, new_names, press_button, row, tagged
from page_cases.opening import browsing, linked, page_case, pages, village


@page_case
def what_a_refusal_gives_way_to() -> None:
    """What is saved later does not hide a refusal, and a second one is said with it. They stay until they are closed,
    or until the mapper does something else."""
    with pages("anna") as (_, _, anna):
        said = "[$('message').className, $('said').textContent]"
        at_once(
            anna,
            *(
                f"page.perform('moved', () => [{{ do: 'move', els: ['n{number}'], dlat: 1, dlon: 0 }}])"
                for number in (98, 99)
            ),
            tagged("7"),
        )
        wrong = [f"n{number} is not there, or not any more." for number in (98, 99)]
        anna.wait_text("#said", " ".join(wrong))
        comes(settled(anna), "n4", "tags.ref", "7")
        want(anna.get(said), ["refused", " ".join(wrong)])
        anna.click("#hush")
        want(anna.get(said), ["empty", ""])
        anna.get("page.saveNodes('w1', 'none')")
        want(anna.get(said)[0], "refused")
        anna.click("#point")
        anna.click_at(*at(anna, 47.6006, 8.2002))
        anna.wait_text("#said", "Saved: made a node.")
        want(anna.get(said)[0], "")


@page_case
def what_is_done_without_a_connection() -> None:
    """What is done while there is no connection waits, and fits the map that comes then and what was done before it:
    nodes that two mappers put into one line are all in it, and a node is where it was put, also if it moved."""
    with linked() as (zoe, anna, link):
        link.cut(anna)
        zoe.ask({"id": 2, "do": "create", "el": "n77", "lat": "47.6", "lon": "8.2008", "tags": {}})
        zoe.ask({"id": 3, "do": "nodes", "el": "w1", "nodes": [1, 77, 2, 3]})
        zoe.ask({"id": 4, "do": "move", "els": ["n4"], "dlat": 1000, "dlon": 1000})
        anna.get("page.moveTo(page.elements.get('n4'), '47.6007', '8.1996'), 0")
        for lon in (8.2003, 8.2006):
            anna.get("page.tools.use('point')")
            anna.click_at(*at(anna, 47.6, lon))
            pause(anna)
        anna.wait_text("#saved", "3 changes not saved")
        link.mend(anna)
        anna.wait_text("#saved", "All saved")
        want(row(anna, "w1")["nodes"], [1, -1, -2, 77, 2, 3])
        want((row(anna, "n4")["lat"], row(anna, "n4")["lon"]), ("47.6007000", "8.1996000"))


@page_case
def members_that_change_at_once() -> None:
    """Members that are picked, get a role or are removed one right after the other all are, and others that somebody
    adds meanwhile stay, too."""
    with linked() as (zoe, anna, link):
        link.cut(anna)
        anna.get("page.tools.use('members', { relation: 'r1' })")
        for place in (at_node(anna, "n4"), at(anna, 47.60072, 8.20115)):
            anna.click_at(*place)
            pause(anna)
        zoe.ask({"id": 2, "do": "members", "el": "r1", "members": [["w3", "part"], ["w1", ""]]})
        link.mend(anna)
        want(row(anna, "r1")["members"], [["w3", "part"], ["w1", ""], ["n4", ""], ["w2", ""]])
        anna.get("page.tools.use('select'), page.select('r1')")
        role = (
            "(() => {{ const field = $('selected').querySelector('[data-field=\"role {} 1\"]');"
            " field.value = '{}'; field.onchange(); }})()"
        )
        at_once(anna, role.format("n4", "stop"), role.format("w2", "house"))
        want(row(settled(anna), "r1")["members"][2:], [["n4", "stop"], ["w2", "house"]])
        at_once(anna, *(press_button(f"Remove {name}") for name in ("w3", "w1")))
        want(row(settled(anna), "r1")["members"], [["n4", "stop"], ["w2", "house"]])
        at_once(anna, press_button("Remove n4"), "page.toggleMember('r1', 'n4')", "page.toggleMember('r1', 'n2')")
        anna.wait_text("#message.refused", "That would change nothing.")
        want(row(settled(anna), "r1")["members"], [["w2", "house"], ["n2", ""]])


@page_case
def a_role_that_is_typed_while_members_change() -> None:
    """A role that is typed stays with its member and keeps the focus when somebody takes out another member, and is
    saved when the field loses the focus."""
    with pages("anna") as (_, zoe, anna):
        zoe.ask({"id": 2, "do": "members", "el": "r1", "members": [["w3", "part"], ["n4", ""], ["w1", ""]]})
        comes(anna, "r1", "members.length", 3)
        anna.get("page.select('r1'), document.querySelector('[aria-label=\"Role of n4\"]').focus()")
        anna.ask("Input.insertText", text="sto")
        zoe.ask({"id": 3, "do": "members", "el": "r1", "members": [["n4", ""], ["w1", ""]]})
        comes(anna, "r1", "members.length", 2)
        want(anna.get("document.activeElement.ariaLabel"), "Role of n4")
        anna.ask("Input.insertText", text="p")
        want(row(anna, "r1")["members"], [["n4", ""], ["w1", ""]])
        anna.get("document.activeElement.blur()")
        comes(anna, "r1", "members", [["n4", "stop"], ["w1", ""]])
        want(settled(anna).get("page.session.undos.length"), 1)
        anna.end()


@page_case
def typed_tags() -> None:
    """Typed tags stay with their element when something else is selected and when news of it come; a tag that was
    removed and not saved does not come back."""
    with pages("anna") as (_, zoe, anna):
        anna.get("page.select('w3')")
        anna.fill("#selected .tag:last-child input", "surface")
        anna.fill("#selected .tag:last-child input:nth-child(2)", "gravel")
        anna.get("page.select('n4')")
        anna.wait_text("#typed", "Mill Lane, street w3")
        labels = (
            "[...$('selected').querySelectorAll('.tag:last-child input')].map((each) => [each.placeholder,"
            " each.ariaLabel])"
        )
        want(anna.get(labels), [["key", "Key"], ["value", "Value of the new key"]])
        anna.wait_text("#saved", "tags of an element not saved")
        anna.get("page.select('w3')")
        anna.click("#selected .tag button[aria-label='Remove name']")
        zoe.ask({"id": 5, "do": "retag", "el": "w3", "tags": {"lit": "yes"}})
        comes(anna, "w3", "tags.lit", "yes")
        removed = "[...$('selected').querySelectorAll('.removed input')].map((each) => each.value)"
        want(anna.get(removed), ["name", "Mill Lane"])
        values = "[...$('selected').querySelectorAll('.tag input')].map((each) => each.value)"
        want([text in anna.get(values) for text in ("lit", "gravel")], [True, True])
        anna.click("#selected button", "Save tags")
        comes(anna, "w3", "tags", {"highway": "residential", "lit": "yes", "surface": "gravel"})
        anna.wait_text("#saved", "All saved")
        anna.fill("#selected .tag:last-child input:nth-child(2)", "asphalt")
        anna.click("#selected button", "Save tags")
        anna.wait_text("#selected form .fault", "A tag needs a key: “asphalt” has none")


@page_case
def typing_while_an_answer_comes() -> None:
    """An answer takes neither what somebody types meanwhile nor the focus: in a tag that is being saved, after another
    gesture, and when the connection comes back. What was saved is not typed any more."""
    with linked() as (zoe, anna, link):
        field = "document.activeElement"
        anna.get("page.select('w3')")
        anna.fill("#selected .tag:last-child input", "surface")
        anna.fill("#selected .tag:last-child input:nth-child(2)", "gra")
        anna.get("$('selected').querySelector('.tag button').click()")
        link.hold_up()
        anna.get("$('selected').querySelectorAll('.tag:nth-child(3) input')[1].focus()")
        anna.press("Enter")
        anna.ask("Input.insertText", text="vel")
        link.go_on(anna)
        want(row(anna, "w3")["tags"], {"name": "Mill Lane", "surface": "gra"})
        lines = (
            "[...$('selected').querySelectorAll('.tag')].map((each) => [each.className, each.children[0].value,"
            " each.children[1].value])"
        )
        want(anna.get(lines), [["tag", "name", "Mill Lane"], ["tag typed", "surface", "gravel"], ["tag", "", ""]])
        anna.press("Enter")
        comes(settled(anna), "w3", "tags.surface", "gravel")
        want((anna.get(f"{field}.value"), anna.get("$('saved').textContent")), ("gravel", "All saved"))
        link.hold_up()
        draw_unanswered(anna, 47.6006, "Track")
        anna.get("page.select('n4')")
        link.go_on(anna)
        want((anna.get("page.selected"), new_names(anna, "w")), (["n4"], ["w-1"]))
        anna.get("$('selected').querySelector('.tag:last-child input').focus()")
        link.hold_up()
        at_once(anna, "page.makeRelation(['w1'])")
        zoe.ask({"id": 2, "do": "retag", "el": "n4", "tags": {"species": "oak"}})
        link.go_on(anna)
        comes(anna, "n4", "tags.species", "oak")
        anna.ask("Input.insertText", text="hi")
        anna.press("Backspace")
        link.cut(anna)
        link.mend(anna)
        anna.get("new Promise((done) => setTimeout(done, 200))")
        anna.ask("Input.insertText", text="eight")
        want((anna.get("page.selected"), anna.get(f"{field}.value")), (["n4"], "height"))
        want((new_names(anna, "r"), anna.get(f"{field}.matches('.typed input')")), (["r-1"], True))


@page_case
def one_gesture_is_one_group() -> None:
    """A gesture of several actions goes out as one group, and as single actions if the server knows no groups."""
    with FakeRoom(village()) as room, browsing() as (files, chrome):
        anna = connect(opened(chrome, url_of(files, room.url, "anna")))
        draw(anna, at(anna, 47.6003, 8.2015), at(anna, 47.6, 8.2008), finish=None)
        made = [{"el": "n-9", "lat": "47.6000000", "lon": "8.2000000", "tags": {}}]
        setattr(room, "rows_of_group", lambda actions: made)
        anna.press("Enter")
        anna.wait("page.elements.has('n-9')")
        groups = [message for message in room.heard if message["do"] == "group"]
        words = [[action["do"] for action in group["actions"]] for group in groups]
        want(words, [["create", "create", "nodes", "create"]])
        want(anna.get("page.session.hasGroups"), True)
        anna.end()


@page_case
def a_gesture_that_is_refused() -> None:
    """If one action of a gesture is refused, nothing of it stays, and the drawing comes back."""
    with pages("anna") as (_, zoe, anna):
        anna.get("page.session.hasGroups = false")
        draw(anna, at(anna, 47.6006, 8.2002), at(anna, 47.6007, 8.2003), finish=None)
        anna.get(
            """(() => {
            const { ask } = page.session.room;
            page.session.room.ask = function (message, ...more) {
                const isWay = message.do === 'create' && message.nodes;
                return ask.call(this, isWay ? { ...message, nodes: [...message.nodes, 77777] } : message, ...more);
            };
        })()"""
        )
        anna.press("Enter")
        anna.wait_text("#message.refused", "n77777 is not there")
        want(new_names(settled(anna)), [])
        want((anna.get("page.tools.tool"), anna.get("page.tools.draft.places.length")), ("line", 2))
        zoe.follow(anna.get("page.session.room.seq"))
        want(len(zoe.rows), len(village()))


@page_case
def names_that_others_took() -> None:
    """Two pages that give the same new name both get their element."""
    with pages("anna", "bob") as (_, zoe, anna, bob):
        anna.get("page.session.newName = function (kind) { return `${kind}-${this.tries = (this.tries ?? 0) + 1}`; }")
        zoe.ask({"id": 3, "do": "create", "el": "n-1", "lat": "47.6", "lon": "8.2", "tags": {}})
        anna.click("#point")
        anna.click_at(*at(anna, 47.6006, 8.2002))
        bob.wait("page.elements.has('n-2')")
