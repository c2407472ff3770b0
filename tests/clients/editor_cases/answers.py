"""Uploads: what they become in the room, and what editors get if connections break or servers are restarted."""
from __future__ import annotations

import asyncio
import contextlib
import itertools

from lib.cases import want
from editor_cases.shared import (
    Bridge,
    by_name,
    CREATE,
    CREATED,
    folder,
    HAS_ALL,
    in_a_loop,
    modified,
    moves,
    MOVES,
    needed,
    node,
    NOW,
    NOW_VERSION,
    opened,
    put_in,
    taken,
    TOR,
    version_of,
)
from collections.abc import Callable
from typing import Any

if HAS_ALL:
    from maproom.osm_api import uploads
    from maproom.osm_api.connection import Accepted, Answer, News, Refusal, Welcome
    from maproom.osm_api.errors import ApiError
    from maproom.osm_api.ledger import Known, Ledger
    from maproom.osm_api.memory_room import MemoryRoom
    from maproom.osm_api.preferences import Preferences
    from maproom.osm_api.room_map import RoomMap


@needed
def limits_of_preferences() -> None:
    """A mapper has 150 preferences at most, and each has a key and a value of at most 255 characters."""
    kept = Preferences()

    def refusal(key: str, value: bytes) -> str | None:
        try:
            kept.put("lina", key, value)
        except ApiError as fault:
            return fault.text
        return None

    for number in range(150):
        kept.put("lina", f"{number}", b"x")
    kept.put("lina", "7", "ä".encode() * 255)
    want((kept.get("lina", "7"), len(kept.all_of("lina")), kept.all_of("bob")), ("ä" * 255, 150, {}))
    want(refusal("150", b"x"), "A mapper has at most 150 preferences")
    want(refusal("7", b"x" * 256), "A key and a value of a preference have at most 255 characters")
    want(refusal("7", b"\xff"), "The value of a preference has to be UTF-8")


@in_a_loop
async def an_upload_is_one_group() -> None:
    """An upload is one message, one entry, and one undo; the result has the versions."""
    room = MemoryRoom([node("n1"), node("n2")])
    bridge = Bridge(room)
    changeset = await bridge.open()
    document = CREATE + modified("n1", 3) + modified("n2", 3) + modified("n2", 3, NOW_VERSION + 1, "delete")
    want(
        await bridge.upload(changeset, document),
        (
            200,
            [
                *CREATED,
                f'<node old_id="1" new_id="1" new_version="{NOW_VERSION + 1}"/>',
                f'<node old_id="2" new_id="2" new_version="{NOW_VERSION + 1}"/>',
                '<node old_id="2"/>',
            ],
        ),
    )
    want((room.seq, len(room.groups), len(room.groups[0]), len(bridge.ledger.pending)), (1, 1, 3, 1))
    await asyncio.sleep(2 * uploads.ANSWERED_SECONDS)
    want(bridge.ledger.pending, {})
    want(await bridge.ask("POST", "undo"), (200, f"Undone: changeset {changeset}, 4 changes\n"))
    want(room.elements, by_name([node("n1"), node("n2")]))
    want(await bridge.ask("POST", "undo"), (409, "There is no upload to undo"))
    want(await bridge.ask("POST", "redo"), (200, f"Redone: changeset {changeset}, 4 changes\n"))
    want(set(room.elements), {"n1", "n-1"})
    want(await bridge.ask("POST", "redo"), (409, "There is no upload to redo"))
    room.group("bob", [{"do": "move", "els": ["n1"], "dlat": 1, "dlon": 1}])
    want(
        await bridge.ask("POST", "undo"),
        (409, "The upload cannot be undone: entry 4 of bob changed n1 since, and has to be undone first"),
    )
    refused = room.take_back("lina", 3)
    want(isinstance(refused, Refusal) and refused.why, "conflict")
    want(room.take_back("bob", 4), Accepted(5, 4))
    want(room.take_back("lina", 3), Accepted(6, 3))
    want(await bridge.ask("POST", "undo"), (409, "The last upload was undone by another program already"))


@in_a_loop
async def the_lowest_names_are_taken() -> None:
    """A mapper names elements as low as a room allows, and as the program counts. New elements get names that no
    element had, also after restarts, and with a ledger of an earlier version."""
    room, low = MemoryRoom(), -(2**52)
    with folder() as place:
        with opened(place / "l") as ledger:
            ledger.set({f"n{-2**63}": Known(NOW_VERSION, NOW, 1, "bob", "gone")})
        names: list[tuple[list[int], list[int]]] = [
            ([-(2**63)], [-1]),
            ([low, low - 2], [-2]),
            ([low + 1], [low - 1, low - 3]),
            ([], [low - 4]),
        ]
        for of_bob, of_lina in names:
            bridge = Bridge(room, place / "l")
            for number in of_bob:
                taken(room.group("bob", [{"do": "create", **node(f"n{number}")}]))
                taken(room.group("bob", [{"do": "delete", "el": f"n{number}"}]))
            for number in of_lina:
                want(
                    await bridge.upload(await bridge.open(), CREATE),
                    (200, [f'<node old_id="-1" new_id="{10**15 - number}" new_version="1"/>']),
                )
            bridge.ledger.close()
            room.forget_listeners()


@in_a_loop
async def an_upload_ends_what_can_be_redone() -> None:
    """After another upload there is nothing to redo, as in the room; after the server's restart, nothing to undo."""
    room = MemoryRoom([node("n1"), node("n2")])
    bridge = Bridge(room)
    changeset = await bridge.open()
    want((await bridge.upload(changeset, modified("n1", 3)))[0], 200)
    want((await bridge.ask("POST", "undo"))[0], 200)
    want((await bridge.upload(changeset, modified("n2", 3)))[0], 200)
    want(await bridge.ask("POST", "redo"), (409, "There is no upload to redo"))
    room.restart()
    want(await bridge.ask("POST", "undo"), (409, "There is no upload to undo"))
    want((await bridge.upload(changeset, modified("n2", 4, NOW_VERSION + 1)))[0], 200)
    want(await bridge.ask("POST", "undo"), (200, f"Undone: changeset {changeset}, 1 change\n"))


@in_a_loop
async def nothing_to_do_is_not_sent() -> None:
    """An upload that changes nothing is answered without a message to the room."""
    bridge = Bridge(MemoryRoom([node("n1")]))
    want(
        await bridge.upload(await bridge.open(), modified("n1", 1)),
        (200, [f'<node old_id="1" new_id="1" new_version="{NOW_VERSION}"/>']),
    )
    want(bridge.room.groups, [])


@in_a_loop
async def an_overtaken_upload_is_undone() -> None:
    """If another entry changed an element between the plan and the group, the group is undone, and the conflict has
    the API's words; the other's work stays, and versions are those that nobody's undo raised."""
    room = MemoryRoom([node("n1"), node("n2")])
    bridge = Bridge(room)

    async def bob_is_quicker() -> None:
        room.before_group = None
        room.holds_news = True
        room.group("bob", [{"do": "retag", "el": "n1", "tags": {"name": "Tor"}}])

    room.before_group = bob_is_quicker
    document = modified("n1", 3) + modified("n2", 3)
    want(
        await bridge.upload(await bridge.open(), document),
        (409, f"Version mismatch: Provided {NOW_VERSION}, server had: {NOW_VERSION + 3} of Node 1"),
    )
    want((room.seq, room.elements), (3, by_name([node("n1", name="Tor"), node("n2")])))
    want(bridge.map.version("n2"), NOW_VERSION)
    want(await bridge.ask("POST", "undo"), (409, "There is no upload to undo"))


@in_a_loop
async def versions_are_those_of_the_upload() -> None:
    """If another changes an element right after the upload, the editor is told the version that the upload gave, or a
    lower one if the news were missed, and cannot overwrite what it did not see."""
    for is_missed in (False, True):
        room = MemoryRoom([node("n1"), node("n2")])
        bridge = Bridge(room)

        async def news_are_late() -> None:
            room.holds_news = is_missed

        async def bob_follows() -> None:
            room.after_group = None
            room.group("bob", [{"do": "retag", "el": "n1", "tags": {"name": "Tor"}}])
            if is_missed:
                room.greet()

        room.before_group, room.after_group = news_are_late, bob_follows
        changeset, reported = await bridge.open(), NOW_VERSION + (not is_missed)
        want(
            await bridge.upload(changeset, modified("n1", 3) + modified("n2", 1)),
            (
                200,
                [
                    f'<node old_id="1" new_id="1" new_version="{reported}"/>',
                    f'<node old_id="2" new_id="2" new_version="{NOW_VERSION}"/>',
                ],
            ),
        )
        want(
            await bridge.upload(changeset, modified("n1", 4, reported)),
            (409, f"Version mismatch: Provided {reported}, server had: {bridge.map.version('n1')} of Node 1"),
        )
        want(version_of(bridge, "n1") > reported, True)
        want(
            await bridge.upload(changeset, modified("n2", 4)),
            (200, [f'<node old_id="2" new_id="2" new_version="{NOW_VERSION + 1}"/>']),
        )
        want((room.elements["n1"], room.seq), (node("n1", 3, name="Tor"), 3))


@in_a_loop
async def what_changes_nothing_in_the_end() -> None:
    """What an upload creates and deletes, or moves there and back, has the version that it had."""
    bridge = Bridge(MemoryRoom([node("n1"), node("n2")]))
    document = CREATE + modified("n1", 3) + modified("n1", 1, NOW_VERSION + 1) + modified("n2", 5)
    document += '<delete><node id="-1" version="1"/></delete>'
    want(
        await bridge.upload(await bridge.open(), document),
        (
            200,
            [
                *CREATED,
                *2 * [f'<node old_id="1" new_id="1" new_version="{NOW_VERSION}"/>'],
                f'<node old_id="2" new_id="2" new_version="{NOW_VERSION + 1}"/>',
                '<node old_id="-1"/>',
            ],
        ),
    )


@needed
def old_entries_are_forgotten() -> None:
    """The memory of entries has a limit, and a watch has another, and says if it missed rows."""
    room_map, rows = RoomMap(Ledger(), lambda: NOW), {f"n{number}": node(f"n{number}") for number in range(1, 49_001)}
    room_map.on_welcome(Welcome({}, 0, 1))
    for seq in range(1, 8):
        room_map.on_news(News(seq, "bob", rows))
    want([entry.seq for entry in room_map.recent], [4, 5, 6, 7])
    few = {f"n{number}": node(f"n{number}") for number in range(1, 6_002)}
    watch = room_map.watch(f"n{number}" for number in range(1, 6_001))
    for seq in range(8, 11):
        room_map.on_news(News(seq, "bob", few))
    want(
        [(step.entry.seq, len(step.before), len(step.after)) for step in watch.steps],
        [(seq, 6_000, 6_000) for seq in (8, 9, 10)],
    )
    want((watch.between(7, 8), watch.between(8, 11), watch.between(7, 10)), ([], watch.steps[1:], watch.steps[:2]))
    room_map.on_news(News(11, "bob", few))
    want([step.entry.seq for step in watch.steps], [9, 10, 11])
    want((watch.between(8, 11), watch.between(10, 11), watch.step(8), watch.step(9)), (None, [], None, watch.steps[0]))
    room_map.unwatch()
    room_map.on_news(News(12, "bob", few))
    want(len(watch.steps), 3)


@needed
def a_watch_knows_what_it_missed() -> None:
    """After a gap in the news a watch knows no entry before it, and after a restart of the server it begins again."""
    room_map = RoomMap(Ledger(), lambda: NOW)
    room_map.on_welcome(Welcome({"n1": node("n1")}, 5, 1))
    watch = room_map.watch(["n1", "n2"])
    room_map.on_news(News(6, "bob", {"n1": node("n1", 2), "n3": node("n3")}))
    room_map.on_welcome(Welcome({"n1": node("n1", 3)}, 8, 1))
    room_map.on_news(News(9, "bob", {"n1": None, "n2": node("n2")}))
    seen = watch.steps[:]
    want(
        [(step.entry.seq, step.before, step.after) for step in seen],
        [
            (6, {"n1": node("n1")}, {"n1": node("n1", 2)}),
            (9, {"n1": node("n1", 3), "n2": None}, {"n1": None, "n2": node("n2")}),
        ],
    )
    want(
        (watch.between(5, 7), watch.between(5, 9), watch.between(8, 9), watch.between(8, 10)),
        ([seen[0]], None, [], None),
    )
    room_map.on_welcome(Welcome({"n1": node("n1", 3)}, 0, 2))
    room_map.on_news(News(1, "bob", {"n1": node("n1", 4)}))
    room_map.on_news(News(2, "bob", {"n1": node("n1", 5)}))
    want([step.entry.seq for step in watch.steps], [1, 2])
    want((watch.between(0, 2), watch.between(0, 3), watch.step(6)), (watch.steps[:1], watch.steps, None))


@in_a_loop
async def an_upload_is_planned_again() -> None:
    """If others changed elements that the upload does not touch, it stays; if they only made the room refuse the
    group, it is planned again and accepted, and after four refusals it is refused."""
    room = MemoryRoom([node("n1"), node("n2")])
    bridge = Bridge(room)

    async def bob_makes_the_same() -> None:
        room.before_group = None
        room.holds_news = True
        room.group("bob", [{"do": "create", **node("n-1")}, {"do": "move", "els": ["n2"], "dlat": 1, "dlon": 1}])

    room.before_group = bob_makes_the_same
    changeset = await bridge.open()
    want(
        await bridge.upload(changeset, CREATE + modified("n1", 3)),
        (
            200,
            [
                f'<node old_id="-1" new_id="{10**15 + 2}" new_version="1"/>',
                f'<node old_id="1" new_id="1" new_version="{NOW_VERSION + 1}"/>',
            ],
        ),
    )
    want((room.seq, len(room.groups)), (2, 2))

    async def bob_always_does() -> None:
        name = f"n{bridge.map.first_new_number}"
        room.group("bob", [{"do": "create", **node(name)}])

    room.before_group = bob_always_does
    want(
        await bridge.upload(changeset, CREATE), (409, "The room refused the upload 4 times: n-6 is in the room already")
    )
    want(len(room.groups), 6)


@in_a_loop
async def a_broken_connection_leaves_nothing() -> None:
    """An upload whose answer does not come is answered 503, and is undone when the room turns out to have accepted it.
    Until then other uploads are answered 503, and afterwards they are carried out."""
    room = MemoryRoom([node("n1")])
    bridge, is_back = Bridge(room, seconds=0.1), asyncio.Event()

    async def wait() -> None:
        room.after_group = None
        await is_back.wait()

    room.after_group = wait
    changeset = await bridge.open()
    status, text = await bridge.upload(changeset, modified("n1", 3))
    want(
        (status, text),
        (
            503,
            "The connection to the room broke. Nothing of this upload stays in the room: if the "
            "room accepted it, it is undone.",
        ),
    )
    want((await bridge.upload(changeset, modified("n1", 4)))[0], 503)
    want(room.seq, 1)
    is_back.set()
    want(
        await bridge.upload(changeset, modified("n1", 4)),
        (200, [f'<node old_id="1" new_id="1" new_version="{NOW_VERSION + 1}"/>']),
    )
    want((room.seq, room.elements["n1"]["lat"]), (3, "4.0000000"))
    await asyncio.sleep(2 * uploads.ANSWERED_SECONDS)
    want(bridge.ledger.pending, {})


@in_a_loop
async def no_connection_is_said() -> None:
    """Without a connection each call is answered 503."""
    room = MemoryRoom([node("n1")])
    bridge = Bridge(room)
    room.is_open = False
    for method, path in (("GET", "0.6/node/1"), ("PUT", "0.6/changeset/create"), ("GET", "")):
        want(await bridge.ask(method, path), (503, "The room cannot be reached at the moment. Nothing was done."))


@in_a_loop
async def a_full_journal_is_said() -> None:
    """An upload to a room whose journal is full is refused with 400, since it would be refused again."""
    bridge = Bridge(MemoryRoom([node("n1")], limit=1))
    changeset = await bridge.open()
    want((await bridge.upload(changeset, modified("n1", 3)))[0], 200)
    status, text = await bridge.upload(changeset, modified("n1", 4, NOW_VERSION + 1))
    want((status, text.startswith("The room's journal is full, so nothing was uploaded.")), (400, True))


@in_a_loop
async def a_server_restarts_during_an_upload() -> None:
    """If the server was restarted before its answer or its news came, the map shows whether the group is in it. Then
    it is not sent again, and otherwise it is, also if somebody has given the name of a new element to another one."""
    kinds: list[tuple[bool, dict[str, Any]]] = [(True, {}), (False, {}), (False, by_name([node("n-1", 9)]))]
    for is_answered, (is_saved, others) in itertools.product((False, True), kinds):
        room = MemoryRoom([node("n1")])
        bridge, send = Bridge(room), room.send_group

        async def send_and_restart(
            author: str, actions: list[Any], announce: Callable[..., Any], since: int | None
        ) -> Any:
            put_in(room, send_group=send)
            saved = dict(room.elements)
            answer = await send(author, actions, announce, since)
            room.restart(None if is_saved else saved | others)
            return answer if is_answered else Refusal("unknown")

        put_in(room, send_group=send_and_restart)
        want(
            await bridge.upload(await bridge.open(), CREATE + modified("n1", 3)),
            (
                200,
                [
                    f'<node old_id="-1" new_id="{10**15 + (1 if is_saved else 2)}" new_version="1"/>',
                    f'<node old_id="1" new_id="1" new_version="{bridge.map.version("n1")}"/>',
                ],
            ),
        )
        want((len(room.groups), len(room.elements)), (1 if is_saved else 2, 2 + len(others)))
        want(room.elements["n1"]["lat"], "3.0000000")


@in_a_loop
async def a_restarted_server_stays_away() -> None:
    """If the server was restarted before its answer came, and cannot be reached since, the upload is answered 409. The
    map shows later whether the room has it."""
    for is_saved in (True, False):
        room = MemoryRoom([node("n1")])
        bridge, send, catch_up = Bridge(room, seconds=0.1), room.send_group, room.catch_up
        changeset = await bridge.open()

        async def send_and_restart(
            author: str, actions: list[Any], announce: Callable[..., Any], since: int | None
        ) -> Any:
            saved = dict(room.elements)
            await send(author, actions, announce, since)
            room.restart(None if is_saved else saved)
            put_in(room, send_group=send, catch_up=asyncio.Event().wait)
            return Refusal("unknown")

        put_in(room, send_group=send_and_restart)
        want(
            await bridge.upload(changeset, modified("n1", 3)),
            (
                409,
                "The server was restarted while the upload was on its way, and cannot be reached since. Update the "
                "data to see whether the room has the upload.",
            ),
        )
        put_in(room, catch_up=catch_up)
        status, text = await bridge.ask("GET", "0.6/node/1")
        want((status, f'lat="{3 if is_saved else 1}.0000000"' in text), (200, True))
        want((len(room.groups), bridge.ledger.pending), (1, {}))


@in_a_loop
async def a_restart_after_changes_alone() -> None:
    """An upload that creates nothing is known by all that it changed."""
    room = MemoryRoom([node("n1")])
    bridge, send = Bridge(room), room.send_group

    async def send_and_restart(author: str, actions: list[Any], announce: Callable[..., Any], since: int | None) -> Any:
        await send(author, actions, announce, since)
        room.restart()
        return Refusal("unknown")

    put_in(room, send_group=send_and_restart)
    want(
        await bridge.upload(await bridge.open(), modified("n1", 3)),
        (200, [f'<node old_id="1" new_id="1" new_version="{NOW_VERSION + 1}"/>']),
    )
    want(len(room.groups), 1)


@in_a_loop
async def a_restart_hides_nothing() -> None:
    """If another changed an element of an accepted upload before the bridge saw the map again, the editor is told a
    lower version than the present one, and cannot overwrite what it did not see."""
    room = MemoryRoom([node("n1")])
    bridge, send = Bridge(room), room.send_group

    async def send_and_restart(author: str, actions: list[Any], announce: Callable[..., Any], since: int | None) -> Any:
        put_in(room, send_group=send)
        await send(author, actions, announce, since)
        room.restart({**room.elements, "n1": node("n1", 9)})
        return Refusal("unknown")

    put_in(room, send_group=send_and_restart)
    changeset = await bridge.open()
    status, rows = await bridge.upload(changeset, CREATE + modified("n1", 3))
    present = version_of(bridge, "n1")
    want((status, rows), (200, [*CREATED, f'<node old_id="1" new_id="1" new_version="{present - 1}"/>']))
    want((await bridge.upload(changeset, modified("n1", 4, present - 1)))[0], 409)


@in_a_loop
async def a_killed_bridge_asks_the_room() -> None:
    """A bridge that was killed after it sent an upload asks the room what became of it. If the editor repeats the
    request, it gets the answer, and nothing is done twice; an upload that never arrived is forgotten."""
    for is_accepted in (True, False):
        with folder() as place:
            room = MemoryRoom([node("n1"), node("n2")])
            first = Bridge(room, place / "l")

            async def be_killed() -> None:
                raise asyncio.CancelledError

            room.holds_news = True
            setattr(room, "after_group" if is_accepted else "before_group", be_killed)
            changeset, document = await first.open(), CREATE + modified("n1", 3) + modified("n2", 3)
            with contextlib.suppress(asyncio.CancelledError):
                await first.upload(changeset, document)
            room.after_group = room.before_group = None
            want((len(first.ledger.pending), first.map.seq), (1, 0))
            first.ledger.close()
            room.forget_listeners()
            room.holds_news = False
            if is_accepted:
                room.group("bob", [{"do": "move", "els": ["n2"], "dlat": 1, "dlon": 1}])
            second = Bridge(room, place / "l")
            await second.calls.start()
            want(second.ledger.pending, {})
            if is_accepted:
                status, rows = await second.upload(changeset, document)
                want(
                    (status, rows[:2]),
                    (200, [*CREATED, f'<node old_id="1" new_id="1" new_version="{NOW_VERSION + 1}"/>']),
                )
                reported = int(rows[2].split('new_version="')[1].split('"')[0])  # bob changed this one since
                want(reported, version_of(second, "n2") - 1)
                want((room.seq, len(room.groups)), (2, 1))
                want((await second.ask("POST", "undo"))[0], 409)
                want(room.take_back("bob", 2), Accepted(3, 2))
                want((await second.ask("POST", "undo"))[0], 200)
            else:
                want((await second.upload(changeset, document))[0], 409)
                want(room.seq, 0)
            second.ledger.close()


@in_a_loop
async def restarted_without_a_ledger() -> None:
    """Without its ledger, a program that starts again makes a conflict of what an editor changed and did not upload.
    With or without it, the tags of changesets and the uploads to undo are forgotten."""
    with folder() as place:
        for path, wanted in ((None, 409), (place / "l", 200)):
            room = MemoryRoom([node("n1"), node("n2")])
            first = Bridge(room, path)
            body = '<osm><changeset><tag k="comment" v="A bench"/></changeset></osm>'
            changeset = (await first.ask("PUT", "0.6/changeset/create", body))[1]
            want("A bench" in (await first.ask("GET", f"0.6/changeset/{changeset}"))[1], True)
            want((await first.upload(changeset, modified("n2", 3)))[0], 200)
            await asyncio.sleep(2 * uploads.ANSWERED_SECONDS)
            first.ledger.close()
            room.forget_listeners()
            second = Bridge(room, path, clock=NOW + 10)
            await second.calls.start()
            want((await second.ask("GET", f"0.6/changeset/{changeset}"))[0], 404)
            want(await second.ask("POST", "undo"), (409, "There is no upload to undo"))
            want((await second.upload(await second.open(), modified("n1", 3)))[0], wanted)
            second.ledger.close()


@in_a_loop
async def a_bridge_is_killed_before_it_answers() -> None:
    """A bridge is killed after the room's answer, and before the editor has it. The next one gives it, also if the
    server was restarted on the saved map meanwhile; then the upload cannot be undone."""
    for is_restarted in (False, True):
        with folder() as place:
            room = MemoryRoom([node("n1"), node("n2")])
            first = Bridge(room, place / "l")
            changeset, document = await first.open(), CREATE + modified("n1", 3) + modified("n2", 3)
            status, rows = await first.upload(changeset, document)
            first.ledger.close()
            room.forget_listeners()
            if is_restarted:
                room.restart()
            second = Bridge(room, place / "l")
            await second.calls.start()
            want(await second.upload(changeset, document), (200, rows))
            want((status, room.seq, len(room.groups)), (200, 0 if is_restarted else 1, 1))
            want((await second.ask("POST", "undo"))[0], 409 if is_restarted else 200)
            second.ledger.close()


@in_a_loop
async def a_killed_bridge_may_be_overtaken() -> None:
    """If a bridge is killed before it knows whether another overtook its upload, the next one undoes the upload, and
    the editor's next try is planned anew. It stays if nothing was in between, if the bridge found that nobody overtook
    it, or if others built on it."""
    for how in ("overtaken", "elsewhere", "found", "built on", "undone", "alone"):
        with folder() as place:
            room = MemoryRoom([node("n1"), node("n2"), node("n3")])
            first = Bridge(room, place / "l")

            async def bob_is_quicker() -> None:
                room.holds_news = how != "found"
                if how != "alone":
                    taken(room.group("bob", TOR if how == "overtaken" else [moves("n3")]))

            async def be_killed() -> None:
                if how == "built on":
                    taken(room.group("bob", [moves("n2")]))
                if how == "undone":
                    taken(room.take_back("lina", 2))
                if how != "found":
                    raise asyncio.CancelledError

            room.before_group, room.after_group = bob_is_quicker, be_killed
            changeset, answer = await first.open(), None
            with contextlib.suppress(asyncio.CancelledError):
                answer = await first.upload(changeset, MOVES)
            room.before_group = room.after_group = None
            first.ledger.close()
            room.forget_listeners()
            room.holds_news = False
            second = Bridge(room, place / "l")
            await second.calls.start()
            want(second.ledger.pending, {})
            count, again = room.seq, await second.upload(changeset, MOVES)
            if how in ("found", "built on", "alone"):
                reported = int(again[1][0].split('new_version="')[1].split('"')[0])
                want((again[0], room.seq, answer in (None, again)), (200, count, True))
                want(reported, NOW_VERSION + 1)
                want((await second.ask("POST", "undo"))[0], 409 if how == "built on" else 200)
            else:
                rows = [node("n1", name="Tor") if how == "overtaken" else node("n1"), node("n2")]
                want((again[0], room.seq), (409, 3))
                want({name: room.elements[name] for name in ("n1", "n2")}, by_name(rows))
            second.ledger.close()


@in_a_loop
async def an_upload_that_was_not_sent_is_dropped() -> None:
    """An upload that waits for a session of its author for too long is dropped, and others are carried out."""
    room = MemoryRoom([node("n1")])
    bridge, send = Bridge(room, seconds=0.1), room.send_group

    async def waits_for_a_session(
        author: str, actions: list[dict[str, Any]], announce: Callable[..., Any], since: int | None
    ) -> Answer:
        if author == "lina":
            await asyncio.sleep(0.2)
        return await send(author, actions, announce, since)

    put_in(room, send_group=waits_for_a_session)
    want((await bridge.upload(await bridge.open(), modified("n1", 3)))[0], 503)
    changeset = await bridge.open(author="bob")
    want((await bridge.upload(changeset, modified("n1", 4), author="bob"))[0], 200)
    await asyncio.sleep(0.3)
    want((room.seq, room.elements["n1"]["lat"]), (1, "4.0000000"))


@in_a_loop
async def a_lost_answer_is_given_again() -> None:
    """A request that an editor repeats since its connection broke gets its answer, and is not carried out twice; the
    same request once more is another upload."""
    room = MemoryRoom()
    bridge = Bridge(room)
    changeset = await bridge.open()
    want(await bridge.upload(changeset, CREATE, is_lost=True), (200, CREATED))
    want(await bridge.upload(changeset, CREATE), (200, CREATED))
    want(room.seq, 1)
    want((await bridge.upload(changeset, CREATE))[0], 200)
    want(room.seq, 2)


@in_a_loop
async def reads_do_not_wait_for_uploads() -> None:
    """A read is answered while an upload is under way. If it shows what is taken back later, the versions of these
    elements stay, so that its editor cannot overwrite what it did not see. Those that nobody saw are as before."""
    for is_read in (False, True):
        room = MemoryRoom([node("n1"), node("n2")])
        bridge, is_back = Bridge(room, seconds=0.2), asyncio.Event()
        room.before_group = is_back.wait
        uploading = asyncio.create_task(bridge.upload(await bridge.open(), MOVES))
        await asyncio.sleep(0.01)
        want('lat="1.0000000"' in (await bridge.ask("GET", "0.6/node/1"))[1], True)
        want(uploading.done(), False)

        async def bob_is_quicker() -> None:
            taken(room.group("bob", [{"do": "retag", "el": "n2", "tags": {"name": "Tor"}}]))

        async def read() -> None:
            if is_read:
                want('lat="3.0000000"' in (await bridge.ask("GET", "0.6/node/1"))[1], True)

        room.before_group, room.after_group = None, read
        room.before_undo = read
        await bob_is_quicker()
        is_back.set()
        want((await uploading)[0], 409)
        want(room.elements["n1"], node("n1"))
        want(bridge.map.version("n1"), NOW_VERSION + 2 if is_read else NOW_VERSION)


@in_a_loop
async def changesets_are_their_authors() -> None:
    """Nobody writes to another author's changeset, to a closed one, or to one from before the bridge started."""
    bridge = Bridge(MemoryRoom([node("n1")]))
    lina, bob = await bridge.open(), await bridge.open(author="bob")
    want((lina, bob), (NOW_VERSION, NOW_VERSION + 1))
    want(await bridge.upload(lina, modified("n1", 3), author="bob"), (409, "The user doesn't own that changeset"))
    want(await bridge.ask("PUT", f"0.6/changeset/{lina}/close"), (200, ""))
    closed = "was closed at 2024-01-01T00:00:00Z"
    want(await bridge.upload(lina, modified("n1", 3)), (409, f"The changeset {lina} {closed}"))
    want(await bridge.upload(5, modified("n1", 3)), (409, f"The changeset 5 {closed}"))
    want(
        await bridge.ask("PUT", "0.6/node/create", '<osm><node lat="1" lon="1"/></osm>'),
        (409, "You need to supply a changeset to be able to make a change"),
    )
    want(
        await bridge.ask("PUT", "0.6/changeset/create", "<osm/>", author=None),
        (401, "Give your name by HTTP Basic: 1 to 32 characters of a-z, 0-9 and _"),
    )
