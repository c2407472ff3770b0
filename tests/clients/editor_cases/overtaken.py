"""Uploads that others overtake: they are undone, or what was there before is written back."""
from __future__ import annotations

import asyncio
import itertools
import time

from lib.cases import each_case, given, want
from editor_cases.shared import (
    Bridge,
    by_name,
    HAS_ALL,
    has_packages,
    in_a_loop,
    left_nothing,
    MISMATCH,
    modified,
    moves,
    MOVES,
    node,
    NOT_UNDONE,
    NOW_VERSION,
    overtaken,
    put_in,
    relation,
    retags,
    step,
    taken,
    TOR,
    way,
)
from collections.abc import Callable
from typing import Any

if HAS_ALL:
    from maproom.osm_api import elements, taking_back, uploads
    from maproom.osm_api.connection import Accepted, Refusal
    from maproom.osm_api.memory_room import MemoryRoom


@in_a_loop
async def an_undo_is_refused_once() -> None:
    """If the entry goes that blocks the undo of an upload, the undo is accepted after all, and the upload has left
    nothing but the entries."""
    room = MemoryRoom([node("n1"), node("n2")])
    bridge = Bridge(room)

    def bob_takes_it_back() -> None:
        room.holds_news = False
        taken(room.take_back("bob", 3))

    async def an_undo_is_asked() -> None:
        asked.append(room.seq)
        if len(asked) == 1:
            asyncio.get_running_loop().call_later(0.01, bob_takes_it_back)

    asked: list[Any] = []
    room.before_undo = an_undo_is_asked
    want(await overtaken(bridge, MOVES, TOR, [moves("n2")]), (409, MISMATCH.format(NOW_VERSION, NOW_VERSION + 3)))
    want((room.elements, room.seq, asked), (by_name([node("n1", name="Tor"), node("n2")]), 5, [3, 4]))
    want(
        bridge.notes,
        [
            "entry 2 of lina, an upload, is taken back: entry 1 of bob changed n1 just before it",
            NOT_UNDONE.format(2, "lina", "entry 3 of bob changed n2"),
        ],
    )
    want((bridge.map.version("n1"), bridge.map.version("n2")), (NOW_VERSION + 3, NOW_VERSION))
    await left_nothing(bridge)


@in_a_loop
async def an_undo_may_be_done_already() -> None:
    """If the author's other client undoes an overtaken upload first, that is as good."""
    room = MemoryRoom([node("n1"), node("n2")])
    bridge = Bridge(room)

    async def lina_is_quicker() -> None:
        room.before_undo = None
        taken(room.take_back("lina", 2))

    room.before_undo = lina_is_quicker
    want(await overtaken(bridge, MOVES, TOR), (409, MISMATCH.format(NOW_VERSION, NOW_VERSION + 3)))
    want((room.elements, room.seq), (by_name([node("n1", name="Tor"), node("n2")]), 3))
    want((bridge.map.version("n2"), len(bridge.notes)), (NOW_VERSION, 1))
    await left_nothing(bridge)


@in_a_loop
async def an_undo_is_tried_as_long_as_news_come() -> None:
    """The undo is tried again at each entry, but not for longer than a moment; then the upload is repaired."""
    room = MemoryRoom([node("n1"), node("n2"), node("n3")])
    bridge, tries = Bridge(room), []

    async def carl_works_elsewhere() -> None:
        tries.append(time.monotonic())
        room.holds_news = False
        taken(room.group("carl", [moves("n3")]))

    async def carl_goes_on() -> None:
        while True:
            await asyncio.sleep(0.01)
            taken(room.group("carl", [moves("n3")]))

    room.before_undo = carl_works_elsewhere
    going_on = asyncio.create_task(carl_goes_on())
    want(await overtaken(bridge, MOVES, TOR, [moves("n2")]), (409, MISMATCH.format(NOW_VERSION, NOW_VERSION + 3)))
    going_on.cancel()
    most = taking_back.UNDO_SECONDS * 10 * given.slow
    want((len(tries) > 3, taking_back.UNDO_SECONDS / 2 < tries[-1] - tries[0] < most), (True, True))
    want((room.elements["n1"], room.elements["n2"]), (node("n1", name="Tor"), node("n2", 3.0000001)))
    room.before_undo = None
    await left_nothing(bridge)


# Each has the map, what is uploaded besides a move of n1, what bob does after it, what is left besides n1, and what of
# the upload stays.
STREET = [
    node("n2", a="1", b="2", c="3"),
    node("n3"),
    node("n4"),
    node("n5"),
    way("w1", 2, 3, a="1"),
    relation("r1", ("n2", "x"), ("w1", "y")),
]


REPAIRS = {
    "tags": (
        STREET,
        step("modify", node("n2", a="5", b="6", d="7")),
        [retags("n2", b="9")],
        [node("n2", a="1", b="9", c="3"), *STREET[1:]],
        "",
    ),
    "a position": (
        STREET,
        step("modify", node("n3", 8)) + step("modify", node("n4", 8)),
        [retags("n3", name="x")],
        [STREET[0], node("n3", name="x"), *STREET[2:]],
        "",
    ),
    "a position that bob changed": (
        STREET,
        step("modify", node("n3", 8, name="x")),
        [moves("n3")],
        [STREET[0], node("n3", 8.0000001), *STREET[2:]],
        "",
    ),
    "nodes": (
        STREET,
        step("modify", way("w1", 2, 3, 4, a="5")),
        [retags("w1", b="2")],
        [*STREET[:4], way("w1", 2, 3, a="1", b="2"), STREET[5]],
        "",
    ),
    "nodes that bob changed": (
        STREET,
        step("modify", way("w1", 2, 3, 4, a="5")),
        [{"do": "nodes", "el": "w1", "nodes": [4, 3, 2]}],
        [*STREET[:4], way("w1", 4, 3, 2, a="1"), STREET[5]],
        "",
    ),
    "nodes of which bob deleted one": (
        [*STREET[:4], way("w1", 2, 3, 4), STREET[5]],
        step("modify", way("w1", 2, 3, a="5")),
        [{"do": "delete", "el": "n4"}],
        [STREET[0], STREET[1], STREET[3], way("w1", 2, 3), STREET[5]],
        "way 1",
    ),
    "members": (
        STREET,
        step("modify", relation("r1", ("n2", "z"), ("n5", ""), a="1")),
        [retags("r1", b="2")],
        [*STREET[:5], relation("r1", ("n2", "x"), ("w1", "y"), b="2")],
        "",
    ),
    "members that bob changed": (
        STREET,
        step("modify", relation("r1", ("n5", ""), a="1")),
        [{"do": "members", "el": "r1", "members": []}],
        [*STREET[:5], relation("r1")],
        "",
    ),
    "created elements": (
        STREET,
        step("create", node("n-1", 5))
        + step("create", way("w-2", -1, 3))
        + step("modify", way("w1", 2, -1))
        + step("create", relation("r-3", ("w-2", ""), ("n-1", "")))
        + step("create", relation("r-4", ("r-3", "")))
        + step("create", relation("r-5", ("r-5", ""), ("r-4", "")))
        + step("modify", relation("r-3", ("w-2", ""), ("r-5", "")), 1),
        [retags("w1", b="2")],
        [*STREET[:4], way("w1", 2, 3, a="1", b="2"), STREET[5]],
        "",
    ),
    "a created node that bob uses": (
        STREET,
        step("create", node("n-1", 5)) + step("modify", node("n4", 8)),
        [{"do": "nodes", "el": "w1", "nodes": [2, 3, -1]}],
        [*STREET[:4], way("w1", 2, 3, -1, a="1"), STREET[5], node("n-1", 5)],
        f"node {10**15 + 1}",
    ),
    "a created node that bob tags": (
        STREET,
        step("create", node("n-1", 5, a="1")) + step("create", node("n-2", 6)) + step("modify", node("n4", 8)),
        [retags("n-1", b="2")],
        [*STREET, node("n-1", 5, a="1", b="2")],
        f"node {10**15 + 1}",
    ),
    "a created way that bob uses": (
        STREET,
        step("create", node("n-1", 5)) + step("create", way("w-2", -1, 2)) + step("modify", node("n4", 8)),
        [{"do": "members", "el": "r1", "members": [["w-2", ""]]}],
        [*STREET[:5], relation("r1", ("w-2", "")), node("n-1", 5), way("w-2", -1, 2)],
        f"node {10**15 + 1}, way {10**15 + 2}",
    ),
    "a deleted node": (
        STREET,
        step("delete", node("n5")),
        [retags("n4", b="2")],
        [*STREET[:2], node("n4", b="2"), *STREET[3:]],
        "",
    ),
    "a deleted node that bob created": (
        STREET,
        step("delete", node("n5")),
        [{"do": "create", **node("n5", 7)}],
        [*STREET[:3], node("n5", 7), *STREET[4:]],
        "",
    ),
    "a deleted way with its nodes": (
        STREET[:5],
        "".join(step("delete", row) for row in (STREET[4], STREET[0], STREET[1])),
        [retags("n4", b="2")],
        [STREET[0], STREET[1], node("n4", b="2"), *STREET[3:5]],
        "",
    ),
    "a deleted way of which bob deleted a node": (
        STREET[:5],
        step("delete", STREET[4]),
        [{"do": "delete", "el": "n3"}],
        [STREET[0], *STREET[2:4]],
        "way 1",
    ),
    "deleted relations of one another": (
        [*STREET[:5], relation("r1", ("r2", "a")), relation("r2", ("r1", "b"), ("r2", "c"))],
        step("modify", relation("r1"))
        + step("delete", relation("r2"))
        + step("delete", relation("r1"), NOW_VERSION + 1),
        [retags("n4", b="2")],
        [
            *STREET[:2],
            node("n4", b="2"),
            *STREET[3:5],
            relation("r1", ("r2", "a")),
            relation("r2", ("r1", "b"), ("r2", "c")),
        ],
        "",
    ),
}


def is_repaired(story: tuple[list[Any], str, list[dict[str, Any]], list[Any], str]) -> None:
    """An upload whose undo stays refused is written back detail by detail: what bob changed after it stays his, and of
    the upload stays only what he uses or what needs what he deleted. The answer says so."""

    async def play() -> None:
        rows, steps, bobs, left, stays = story
        room = MemoryRoom([node("n1"), *rows])
        bridge = Bridge(room)
        status, text = await overtaken(bridge, step("modify", node("n1", 3)) + steps, TOR, [moves("n1")], bobs)
        want(room.elements, by_name([node("n1", 3.0000001, name="Tor"), *left]))
        if stays:
            what = "A part of the upload" if room.seq > 4 else "The upload"
            want(
                (status, text),
                (
                    409,
                    f"{what} stays in the room, although entry 1 of bob changed n1 just before it: "
                    "entry 3 of bob changed n1 since, and has to be undone first. Update the data, "
                    f"and look at {stays}",
                ),
            )
        else:
            want((status, text), (409, MISMATCH.format(NOW_VERSION, NOW_VERSION + 3)))
        for row in rows:  # an unchanged element keeps its version, and each other has a new one
            is_same = elements.is_same(row, room.elements.get(row["el"]))
            want((row["el"], bridge.map.version(row["el"]) == NOW_VERSION), (row["el"], is_same))
        if room.seq > 4 or not stays:
            want(room.seq <= 5, True)
            await left_nothing(bridge)
        else:
            want(
                await bridge.ask("POST", "undo"),
                (409, "The upload cannot be undone: entry 3 of bob changed n1 " "since, and has to be undone first"),
            )

    asyncio.run(asyncio.wait_for(play(), 20 * given.slow))


each_case(is_repaired, {f"repaired are {name}": story for name, story in REPAIRS.items()}, has_packages)


STAYS = (
    "The upload stays in the room, although entry 1 of bob changed n1 just before it: {}. Update the data, and "
    "look at {}"
)


BLOCKED = "entry 3 of bob changed n1 since, and has to be undone first"
TAGGED = step("modify", node("n1", 3)) + step("modify", node("n2", 3, a="5"))


def in_front_of(room: MemoryRoom, acts: tuple[Callable[..., Any], ...]) -> Callable[..., Any]:
    """Does one thing in front of each group, whose news are late."""
    waiting = list(acts)

    async def act() -> None:
        room.holds_news = True
        if waiting:
            waiting.pop(0)()

    return act


async def repaired_with(room: MemoryRoom, bridge: Bridge, *acts: Any, document: str = TAGGED) -> Any:
    """Uploads a document that bob overtakes, and blocks its undo by a move of n1. Then something is done in front of
    each group that repairs it. Gives the answer."""

    async def bob_goes_on() -> None:
        room.after_group, room.before_group = None, front
        taken(room.group("bob", [moves("n1")]))

    front = in_front_of(room, acts)

    async def bob_is_quicker() -> None:
        room.before_group, room.holds_news = None, True
        taken(room.group("bob", TOR))

    room.before_group, room.after_group = bob_is_quicker, bob_goes_on
    return await bridge.upload(await bridge.open(), document)


@in_a_loop
async def undo_before_a_refused_one() -> None:
    """After an upload that was refused and written back, an undo is of the upload before it. The author's undo of what
    was written back brings the refused upload again."""
    room = MemoryRoom([node("n1"), node("n2", a="1"), node("n3")])
    bridge = Bridge(room)
    changeset = await bridge.open()
    want((await bridge.upload(changeset, modified("n3", 5)))[0], 200)
    want((await repaired_with(room, bridge))[0], 409)
    rows = by_name([node("n1", 3.0000001, name="Tor"), node("n2", a="1"), node("n3", 5)])
    want((room.elements, room.seq, room.authors[5]), (rows, 5, "lina"))
    want(await bridge.ask("POST", "undo"), (200, f"Undone: changeset {changeset}, 1 change\n"))
    want((room.elements, room.seq), (rows | by_name([node("n3")]), 6))
    want(room.take_back("lina", 5), Accepted(7, 5))
    want(room.elements["n2"], node("n2", 3, a="5"))


@in_a_loop
async def a_repair_is_overtaken() -> None:
    """If another changes a detail that a repair writes, that detail stays the other's: the room refuses the repair, and
    it is made anew. If another program of the author does it, the repair is undone and made anew. A change of another
    detail is in nobody's way."""
    details: list[tuple[str, dict[str, Any], dict[str, Any], int]]
    details = [
        ("carl", {"a": "7"}, {"a": "7"}, 5),
        ("lina", {"a": "7"}, {"a": "7"}, 7),
        ("carl", {"b": "7"}, {"a": "1", "b": "7"}, 5),
        ("lina", {"b": "7"}, {"a": "1", "b": "7"}, 5),
    ]
    for author, tags, wanted, entries in details:
        room = MemoryRoom([node("n1"), node("n2", a="1")])
        bridge = Bridge(room)
        answer = await repaired_with(room, bridge, lambda: taken(room.group(author, [retags("n2", **tags)])))
        want(answer, (409, MISMATCH.format(NOW_VERSION, NOW_VERSION + 3)))
        want((room.elements, room.seq), (by_name([node("n1", 3.0000001, name="Tor"), node("n2", **wanted)]), entries))
        await left_nothing(bridge)


@in_a_loop
async def a_deletion_is_overtaken() -> None:
    """If another changes a created element right in front of the repair that deletes it, the element stays, and the
    answer says so."""
    for author, entries in (("carl", 4), ("lina", 6)):  # another program of the author is not refused
        room = MemoryRoom([node("n1")])
        bridge = Bridge(room)
        answer = await repaired_with(
            room,
            bridge,
            lambda: taken(room.group(author, [retags("n-1", b="7")])),
            document=step("modify", node("n1", 3)) + step("create", node("n-1", 5)),
        )
        want(answer, (409, STAYS.format(BLOCKED, f"node {10**15 + 1}")))
        want((room.elements, room.seq), (by_name([node("n1", 3.0000001, name="Tor"), node("n-1", 5, b="7")]), entries))
        want(await bridge.ask("POST", "undo"), (409, f"The upload cannot be undone: {BLOCKED}"))


@in_a_loop
async def a_repair_cannot_be_undone_either() -> None:
    """If another program of the author overtakes a repair, and its undo is refused as well, the repair is repaired by
    the same rule. If the room then refuses to repair the upload, a part of it stays."""
    for is_without_memory in (False, True):
        room = MemoryRoom([node("n1"), node("n2", a="1")])
        bridge, send = Bridge(room), room.send_group

        async def without_memory(
            author: str, actions: list[Any], announce: Callable[..., Any], since: int | None
        ) -> Any:
            if is_without_memory and len(room.groups) == 3:
                return Refusal("memory", {"action": 0})
            return await send(author, actions, announce, since)

        async def dora_goes_on() -> None:
            room.after_group = None
            taken(room.group("dora", [retags("n2", b="9")]))

        def lina_is_quicker() -> None:
            taken(room.group("lina", [retags("n2", a="7")]))
            room.after_group = dora_goes_on

        put_in(room, send_group=without_memory)
        answer = await repaired_with(room, bridge, lina_is_quicker)
        n2 = node("n2", 3 if is_without_memory else 1, a="7", b="9")
        want(room.elements, by_name([node("n1", 3.0000001, name="Tor"), n2]))
        if is_without_memory:
            memory = "the server is out of memory"
            want(answer, (409, f"A part of {STAYS[0].lower()}{STAYS[1:]}".format(memory, "node 2")))
        else:
            want(answer, (409, MISMATCH.format(NOW_VERSION, NOW_VERSION + 3)))
            want(
                room.groups[1:],
                [
                    [retags("n2", a="1"), moves("n2", -2 * 10**7)],
                    [retags("n2", a="7"), moves("n2", 2 * 10**7)],
                    [moves("n2", -2 * 10**7)],
                ],
            )
            want(
                bridge.notes[1:],
                [
                    NOT_UNDONE.format(2, "lina", "entry 3 of bob changed n1"),
                    NOT_UNDONE.format(5, "lina", "entry 6 of dora changed n2"),
                    "entry 7 repairs entry 5 of lina",
                    "entry 8 repairs entry 2 of lina",
                ],
            )
        await left_nothing(bridge)


@in_a_loop
async def repairs_end() -> None:
    """If another changes what a repair writes, again and again, the answer says after a few repairs what stays."""
    room = MemoryRoom([node("n1"), node("n2", a="1")])
    bridge, numbers = Bridge(room), itertools.count()

    def carl_is_quicker() -> None:
        taken(room.group("carl", [moves("n2", 1)]))
        taken(room.group("carl", [moves("n2", -1), retags("n2", b=str(next(numbers)))]))

    answer = await repaired_with(room, bridge, *20 * [carl_is_quicker])
    last = f"entry {3 + 2 * taking_back.MOST_REPAIRS} of carl changed n2 just before it"
    want(answer, (409, STAYS.format(last, "node 2")))
    want((len(room.groups), room.elements["n2"]), (1 + taking_back.MOST_REPAIRS, node("n2", 3, a="5", b="5")))
    want(await bridge.ask("POST", "undo"), (409, f"The upload cannot be undone: {BLOCKED}"))
    room.before_group = None
    for seq in sorted((entry.seq for entry in room.journal if entry.author in ("bob", "carl")), reverse=True):
        room.take_back(room.journal[seq - 1].author, seq)
    want((await bridge.ask("POST", "undo"))[0], 200)
    want((room.elements, bridge.map._watch), (by_name([node("n1"), node("n2", a="1")]), None))


@in_a_loop
async def a_repair_is_refused() -> None:
    """If the room refuses the undo or the repair for its journal or its memory, the answer says so, and what stays."""
    rows = [node("n1"), node("n2", a="1")]
    stays = by_name([node("n1", 3.0000001, name="Tor"), node("n2", 3, a="5")])

    def fills(room: MemoryRoom) -> Callable[..., Any]:
        return lambda: taken(room.group("carl", [{"do": "create", **node("n9")}]))

    room = MemoryRoom(rows, limit=3)
    want(await repaired_with(room, Bridge(room)), (409, STAYS.format("the journal is full", "node 2")))
    want((room.elements, room.seq), (stays, 3))
    room = MemoryRoom(rows, limit=4)
    want(await repaired_with(room, Bridge(room), fills(room)), (409, STAYS.format("the journal is full", "node 2")))
    want((room.elements, room.seq), (stays | by_name([node("n9")]), 4))

    for count in (1, taking_back.MOST_REPAIRS):
        room = MemoryRoom(rows)
        bridge, send, left = Bridge(room), room.send_group, [count]

        async def without_memory(
            author: str, actions: list[Any], announce: Callable[..., Any], since: int | None
        ) -> Any:
            if room.groups and left[0]:
                left[0] -= 1
                return Refusal("memory", {"action": 0})
            return await send(author, actions, announce, since)

        put_in(room, send_group=without_memory)
        answer = await repaired_with(room, bridge)
        if count == 1:
            want(answer, (409, MISMATCH.format(NOW_VERSION, NOW_VERSION + 3)))
            want(room.elements, stays | by_name([node("n2", a="1")]))
            await left_nothing(bridge)
        else:
            want(answer, (409, STAYS.format("the server is out of memory", "node 2")))
            want(room.elements, stays)
            want(taken(room.take_back("bob", 3)), 4)
            want((await bridge.ask("POST", "undo"))[0], 200)
            want(room.elements, by_name([node("n1", name="Tor"), rows[1]]))


@in_a_loop
async def a_repair_is_planned_again() -> None:
    """If another begins to use a created node right in front of the repair that deletes it, the room refuses the
    repair, and the next one leaves the node; the answer says so."""
    room = MemoryRoom([node("n1"), node("n2"), node("n3"), way("w1", 2, 3)])
    bridge = Bridge(room)
    document = step("modify", node("n1", 3)) + step("modify", node("n2", 3)) + step("create", node("n-1", 5))
    answer = await repaired_with(
        room,
        bridge,
        lambda: taken(room.group("carl", [{"do": "nodes", "el": "w1", "nodes": [2, -1, 3]}])),
        document=document,
    )
    want(answer, (409, f"A part of {STAYS[0].lower()}{STAYS[1:]}".format(BLOCKED, f"node {10**15 + 1}")))
    want(
        (room.elements, room.seq, len(room.groups)),
        (
            by_name([node("n1", 3.0000001, name="Tor"), node("n2"), node("n3"), way("w1", 2, -1, 3), node("n-1", 5)]),
            5,
            3,
        ),
    )
    await left_nothing(bridge)


@in_a_loop
async def a_connection_breaks_while_an_upload_is_taken_back() -> None:
    """If the answer to an undo or a repair does not come, the upload is answered 503, and is taken back when the
    connection is there again. Until then other uploads are answered 503, and reads are answered."""
    for is_undo in (True, False):
        room = MemoryRoom([node("n1"), node("n2", a="1")])
        bridge, is_back = Bridge(room, seconds=0.3), asyncio.Event()

        def break_it() -> None:
            room.after_group = is_back.wait

        if is_undo:
            room.before_undo = is_back.wait
        answer = await repaired_with(room, bridge, break_it if not is_undo else lambda: None)
        want(answer, (503, uploads.BROKEN))
        want((await bridge.ask("GET", "0.6/node/1"))[0], 200)
        changeset = await bridge.open()
        want((await bridge.upload(changeset, modified("n2", 4)))[0], 503)
        is_back.set()
        want(await bridge.ask("POST", "undo"), (409, "There is no upload to undo"))
        want((room.elements, room.seq), (by_name([node("n1", 3.0000001, name="Tor"), node("n2", a="1")]), 4))
        await left_nothing(bridge)
        want((await bridge.upload(changeset, modified("n2", 4)))[0], 200)


@in_a_loop
async def a_server_restarts_while_an_upload_is_taken_back() -> None:
    """If the server is restarted before it undoes an upload, the map shows whether the upload is in it. What is there
    is repaired, and nothing else."""
    for is_saved in (True, False):
        room = MemoryRoom([node("n1"), node("n2", a="1")])
        bridge = Bridge(room)

        async def restart(author: str, seq: int) -> Refusal:
            room.holds_news = False
            del room.undo
            room.restart(None if is_saved else by_name([node("n1", name="Tor"), node("n2", a="1")]))
            return Refusal("not_sent")

        put_in(room, undo=restart)
        status, text = await overtaken(bridge, TAGGED, TOR)
        want((status, text.startswith("Version mismatch: Provided")), (409, True))
        want(room.elements, by_name([node("n1", name="Tor"), node("n2", a="1")]))
        want((room.seq, len(room.groups)), (1, 2) if is_saved else (0, 1))
        await left_nothing(bridge)

    room = MemoryRoom([node("n1"), node("n2", a="1")])
    bridge, undos = Bridge(room), []

    async def restart_soon() -> None:
        room.holds_news = False
        undos.append(room.seq)
        asyncio.get_running_loop().call_later(0.01, room.restart)

    room.before_undo = restart_soon  # no other entry of the new run may be undone
    want((await overtaken(bridge, TAGGED, TOR, [moves("n1")]))[0], 409)
    want(room.elements, by_name([node("n1", 3.0000001, name="Tor"), node("n2", a="1")]))
    want((room.seq, undos), (1, [3]))


@in_a_loop
async def what_was_missed_may_be_a_conflict() -> None:
    """If entries were missed between the plan of an upload and the upload, nobody knows whether one overtook it. So it
    is taken back and tried again. If the undo is refused, all of it stays, and the answer says so."""
    for others in ([moves("n3")], TOR):
        room = MemoryRoom([node("n1"), node("n2"), node("n3")])
        bridge = Bridge(room)

        async def news_are_missed() -> None:
            room.after_group = None
            room.greet()

        async def bob_is_quicker() -> None:
            room.before_group, room.holds_news, room.after_group = None, True, news_are_missed
            taken(room.group("bob", others))

        room.before_group = bob_is_quicker
        answer = await bridge.upload(await bridge.open(), MOVES)
        if others != TOR:
            want(answer[0], 200)
            want((room.elements, room.seq), (by_name([node("n1", 3), node("n2", 3), node("n3", 1.0000001)]), 4))
            want((await bridge.ask("POST", "undo"))[0], 200)
        else:
            want(answer, (409, MISMATCH.format(NOW_VERSION, NOW_VERSION + 2)))
            want((room.elements, room.seq), (by_name([node("n1", name="Tor"), node("n2"), node("n3")]), 3))
            await left_nothing(bridge)

    room = MemoryRoom([node("n1"), node("n2")])
    bridge = Bridge(room)

    async def bob_goes_on() -> None:
        room.after_group = None
        taken(room.group("bob", [moves("n1")]))
        room.greet()

    async def bob_is_first() -> None:
        room.before_group, room.holds_news, room.after_group = None, True, bob_goes_on
        taken(room.group("bob", TOR))

    room.before_group = bob_is_first
    want(
        await bridge.upload(await bridge.open(), MOVES),
        (
            409,
            "The upload stays in the room, although others may have changed its elements just before it: entry 3 "
            "of bob changed n1 since, and has to be undone first. Update the data, and look at node 1, node 2",
        ),
    )
    want(room.elements, by_name([node("n1", 3.0000001, name="Tor"), node("n2", 3)]))
    want(taken(room.take_back("bob", 3)), 4)
    want((await bridge.ask("POST", "undo"))[0], 200)
    want(room.elements, by_name([node("n1", name="Tor"), node("n2")]))
