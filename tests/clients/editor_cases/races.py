"""Uploads that wait for others, and editors and programs at the same time."""
from __future__ import annotations

import asyncio
import itertools
import random
import time

from lib.cases import given, want
from editor_cases.shared import (
    Bridge,
    by_name,
    CREATE,
    HAS_ALL,
    in_a_loop,
    left_nothing,
    MISMATCH,
    modified,
    moves,
    MOVES,
    needed,
    node,
    NOT_UNDONE,
    NOW,
    NOW_VERSION,
    overtaken,
    put_in,
    relation,
    retags,
    step,
    taken,
    TOR,
    version_of,
    way,
)
from collections.abc import Callable
from typing import Any
from asyncio.locks import Event

if HAS_ALL:
    from maproom.osm_api.connection import News, Refusal, Welcome
    from maproom.osm_api import elements, room_map as maps, taking_back
    from maproom.osm_api.connection import Accepted, Answer
    from maproom.osm_api.ledger import Ledger
    from maproom.osm_api.memory_room import MemoryRoom
    from maproom.osm_api.repair import plan_repair
    from maproom.osm_api.room_map import RoomMap


class Times:
    """Other times than those of the script, for a block."""

    def __init__(self, settling: float, undo: float = 0.2) -> None:
        self.times = settling, undo

    def __enter__(self) -> None:
        self.before = maps.SETTLING_SECONDS, taking_back.UNDO_SECONDS
        maps.SETTLING_SECONDS, taking_back.UNDO_SECONDS = self.times

    def __exit__(self, *_: Any) -> None:
        maps.SETTLING_SECONDS, taking_back.UNDO_SECONDS = self.before


def stuck_undo(room: MemoryRoom) -> Event:
    """Has an undo of a room wait until an event, which is given."""
    going_on = asyncio.Event()

    async def wait() -> None:
        room.before_undo = None
        await going_on.wait()

    room.before_undo = wait
    return going_on


async def until(condition: Callable[..., Any]) -> None:
    """Waits until something is true."""
    while not condition():
        await asyncio.sleep(0.001)


def version_told(bridge: Bridge, name: str, lat: int) -> str:
    """A document that moves a node of the version that a program shows now."""
    return modified(name, lat, bridge.map.version(name))


@in_a_loop
async def two_programs_take_back() -> None:
    """If a later upload by another program of the author blocks the undo of an overtaken one, and is overtaken itself,
    the one undo waits for the other."""
    room = MemoryRoom([node("n1"), node("n2")])
    lina, again = Bridge(room), Bridge(room)
    send, undo, is_there, changeset = room.send_group, room.undo, asyncio.Event(), await again.open()

    async def send_together(
        author: str, actions: list[dict[str, Any]], announce: Callable[..., Any], since: int | None
    ) -> Answer:
        if actions[0]["els"] == ["n2"]:
            await is_there.wait()
            return await send(author, actions, announce, since)
        answer = await send(author, actions, announce, since)
        is_there.set()
        await until(lambda: room.seq == 3)
        return answer

    async def undo_in_order(author: str, seq: int) -> Accepted | Refusal:
        if seq == 3:
            await until(lambda: len(lina.notes) == 2)
        elif len(lina.notes) == 2:
            await asyncio.wait({second})
        return await undo(author, seq)

    put_in(room, send_group=send_together, undo=undo_in_order)
    with Times(30, 30):
        second = asyncio.create_task(again.upload(changeset, modified("n2", 4)))
        await asyncio.sleep(0.01)
        want(await overtaken(lina, MOVES, TOR), (409, MISMATCH.format(NOW_VERSION, NOW_VERSION + 3)))
        want(await second, (409, MISMATCH.replace("Node 1", "Node 2").format(NOW_VERSION, NOW_VERSION + 3)))
    want((len(lina.notes), lina.notes[1]), (2, NOT_UNDONE.format(2, "lina", "entry 3 of lina changed n2")))
    want(list(room.authors.values()), ["bob", *4 * ["lina"]])
    want(room.elements, by_name([node("n1", name="Tor"), node("n2")]))
    await left_nothing(lina)
    await left_nothing(again)


@in_a_loop
async def a_repair_lasts() -> None:
    """If the entry that blocked an undo is undone itself soon after the repair, what it covered of the upload does not
    come back."""
    for is_soon in (True, False):
        room = MemoryRoom([node("n1"), node("n2")])
        bridge = Bridge(room)

        async def bob_takes_it_back() -> None:
            await until(lambda: room.seq == 4)
            room.holds_news = False
            if not is_soon:
                taken(room.group("bob", [retags("n2", name="x")]))
                await uploading
            taken(room.take_back("bob", 3))

        with Times(30):
            uploading = asyncio.create_task(overtaken(bridge, MOVES, TOR, [moves("n2")]))
            await bob_takes_it_back()
            want(await uploading, (409, MISMATCH.format(NOW_VERSION, NOW_VERSION + 3)))
        rows = [node("n1", name="Tor"), node("n2") if is_soon else node("n2", 3, name="x")]
        want((room.elements, room.seq), (by_name(rows), 6))
        await left_nothing(bridge)


@in_a_loop
async def an_upload_waits_for_what_may_be_taken_back() -> None:
    """If another program's upload is overtaken and not taken back yet, nobody can build on it by this program: an
    upload waits, and then meets the conflict."""
    room = MemoryRoom([node("n1"), node("n2")])
    lina, mika = Bridge(room), Bridge(room, author="mika")
    changeset, going_on = await mika.open(), stuck_undo(room)
    with Times(30):
        first = asyncio.create_task(overtaken(lina, MOVES, TOR))
        await until(lambda: room.before_undo is None)
        want((mika.map.elements["n2"], mika.map.version("n2")), (node("n2", 3), NOW_VERSION + 1))
        second = asyncio.create_task(mika.upload(changeset, version_told(mika, "n2", 4)))
        await asyncio.sleep(0.1)
        want((room.seq, second.done()), (2, False))
        going_on.set()
        want(await first, (409, MISMATCH.format(NOW_VERSION, NOW_VERSION + 3)))
        want(await second, (409, MISMATCH.replace("Node 1", "Node 2").format(NOW_VERSION + 1, NOW_VERSION + 2)))
        want((room.elements, room.seq), (by_name([node("n1", name="Tor"), node("n2")]), 3))
        await left_nothing(lina)
        await left_nothing(mika)


@in_a_loop
async def an_upload_waits_for_what_it_refers_to() -> None:
    """An upload also waits for elements to which it refers, so that no node stays of what is taken back."""
    room = MemoryRoom([node("n1"), node("n2")])
    lina, mika = Bridge(room), Bridge(room, author="mika")
    changeset, going_on = await mika.open(), stuck_undo(room)
    with Times(30):
        first = asyncio.create_task(overtaken(lina, MOVES + CREATE, TOR))
        await until(lambda: room.before_undo is None)
        path = f'<create><way id="-1"><nd ref="1"/><nd ref="{10**15 + 1}"/></way></create>'
        second = asyncio.create_task(mika.upload(changeset, path))
        await asyncio.sleep(0.1)
        want((room.seq, second.done()), (2, False))
        going_on.set()
        want((await first)[0], 409)
        want(
            await second,
            (
                412,
                f"Precondition failed: Way -1 requires the nodes with id in {10**15 + 1}, which "
                "either do not exist, or are not visible.",
            ),
        )
        want((room.elements, room.seq), (by_name([node("n1", name="Tor"), node("n2")]), 3))


@in_a_loop
async def an_upload_does_not_wait_for_long() -> None:
    """An upload goes on when the other's entry is old enough, or when its author did something else. It does not wait
    for an entry in front of which nobody else changed its elements, or others changed the same part, which the author
    had seen; and not for one of the program itself."""

    async def uploads_after(settling: float, *entries: Any) -> Any:
        room = MemoryRoom([node("n1"), node("n2")])
        bridge = Bridge(room)
        changeset = await bridge.open()
        for author, actions in entries:
            if author == "zoe":
                want((await bridge.upload(changeset, version_told(bridge, "n1", 5)))[0], 200)
            else:
                taken(room.group(author, actions))
        with Times(settling):
            began = time.monotonic()
            want((await bridge.upload(changeset, version_told(bridge, "n1", 4)))[0], 200)
            return time.monotonic() - began

    both = ("carl", TOR), ("bob", [moves("n1")])
    want(0.2 < await uploads_after(0.3, *both) < 5 * given.slow, True)
    for entries in (
        (*both, ("bob", [moves("n2")])),
        (("bob", TOR), ("bob", [moves("n1")])),
        (("carl", [moves("n1")]), ("bob", [moves("n1")])),
        (("carl", [moves("n2")]), ("bob", [moves("n1")])),
        (*both, ("zoe", None)),
        both[:1],
        (),
    ):
        want(await uploads_after(30, *entries) < 5 * given.slow, True)


@in_a_loop
async def an_upload_waits_for_what_it_was_overtaken_by() -> None:
    """An overtaken upload that is undone settles nothing: the next one waits for the entry that overtook it. Nobody
    waits for a repair of the program itself."""
    room = MemoryRoom([node("n1"), node("n2")])
    bridge = Bridge(room)
    with Times(30):
        taken(room.group("carl", [moves("n1")]))
        want((await overtaken(bridge, version_told(bridge, "n1", 3), TOR))[0], 409)
        changeset = await bridge.open()
        uploading = asyncio.create_task(bridge.upload(changeset, version_told(bridge, "n1", 4)))
        await asyncio.sleep(0.05)
        want((uploading.done(), room.seq), (False, 4))
        room.holds_news = False
        taken(room.group("bob", [moves("n2")]))
        want((await uploading)[0], 200)

    async def bob_goes_on() -> None:
        await until(lambda: room.seq == 4)
        room.holds_news = False
        taken(room.group("bob", [moves("n3")]))

    room = MemoryRoom([node("n1"), node("n2"), node("n3")])
    bridge = Bridge(room)
    with Times(30):
        going_on = asyncio.create_task(bob_goes_on())
        want((await overtaken(bridge, MOVES, TOR, [moves("n2")]))[0], 409)
        began = time.monotonic()
        want((await bridge.upload(await bridge.open(), version_told(bridge, "n1", 4)))[0], 200)
        want((time.monotonic() - began < 10 * given.slow, going_on.done()), (True, True))


@in_a_loop
async def an_upload_waits_until_another_goes_on() -> None:
    """An upload that waits for another author goes on at once when that author does something else."""
    room = MemoryRoom([node("n1"), node("n2")])
    bridge = Bridge(room)
    changeset = await bridge.open()
    with Times(30):
        taken(room.group("carl", TOR))
        taken(room.group("bob", [moves("n1")]))
        uploading = asyncio.create_task(bridge.upload(changeset, version_told(bridge, "n1", 4)))
        for author in ("carl", "dora"):
            await asyncio.sleep(0.02)
            taken(room.group(author, [moves("n2")]))
        await asyncio.sleep(0.05)
        want((uploading.done(), room.seq), (False, 4))
        taken(room.group("bob", [moves("n2")]))
        want(((await uploading)[0], room.seq), (200, 6))


@in_a_loop
async def racing_editors_lose_nothing() -> None:
    """Editors and a mapper who count on the same nodes: each accepted upload is counted once, and of a refused one
    there is nothing."""
    room, chance = MemoryRoom([node(f"n{number}", count="0") for number in range(1, 6)]), random.Random(4)
    bridge, counts = Bridge(room), {f"n{number}": 0 for number in range(1, 6)}
    tally: dict[int, int] = {}

    async def news_are_late() -> None:
        room.holds_news = chance.random() < 0.7
        if chance.random() < 0.3:
            count("bob", chance.sample(sorted(counts), 1))
        await asyncio.sleep(0)

    def count(author: Any, names: list[str]) -> None:
        actions = [
            {"do": "retag", "el": name, "tags": {"count": str(int(room.elements[name]["tags"]["count"]) + 1)}}
            for name in names
        ]
        want(isinstance(room.group(author, actions), Accepted), True)
        for name in names:
            counts[name] += 1

    async def edit(author: str) -> None:
        changeset = await bridge.open(author=author)
        for _ in range(60):
            names = chance.sample(sorted(counts), chance.randint(1, 3))
            steps, seen = "", {name: (bridge.map.elements[name], bridge.map.version(name)) for name in names}
            await asyncio.sleep(chance.random() / 1000)
            for name, (row, version) in seen.items():
                tag = f'<tag k="count" v="{int(row["tags"]["count"]) + 1}"/>'
                steps += f'<node id="{name[1:]}" version="{version}" lat="1" lon="2">{tag}</node>'
            status, _ = await bridge.upload(changeset, f"<modify>{steps}</modify>", author=author)
            tally[status] = tally.get(status, 0) + 1
            if status == 200:
                for name in names:
                    counts[name] += 1

    room.before_group = news_are_late
    await asyncio.gather(*map(edit, ("lina", "mika", "zoe")))
    want({name: int(row["tags"]["count"]) for name, row in room.elements.items()}, counts)
    want((set(tally), sum(tally.values())), ({200, 409}, 180))


class Line:
    """A bridge's own connection to a room in memory, on which all takes a moment at random, and news come late."""

    def __init__(self, room: MemoryRoom, chance: random.Random, most: float | int) -> None:
        self.memory, self.chance, self.most = room, chance, most
        self.held: list[Any] = []

    def __getattr__(self, name: str) -> Any:
        return getattr(self.memory, name)

    def subscribe(self, listener: RoomMap) -> None:
        """Has a listener be told."""
        self.listener = listener
        self.memory.subscribe(self)

    def on_welcome(self, welcome: Welcome) -> None:
        """Passes the map on."""
        self.listener.on_welcome(welcome)

    def on_news(self, news: News) -> None:
        """Passes news on a moment later, in their order."""
        self.held.append(news)
        asyncio.get_running_loop().call_later(self.chance.random() * self.most, self.tell)

    def tell(self) -> None:
        """Passes on all news that came."""
        while self.held:
            self.listener.on_news(self.held.pop(0))

    async def pause(self, times: int = 1) -> None:
        """Waits a moment, or several."""
        await asyncio.sleep(self.chance.random() * self.most * times)

    async def catch_up(self) -> None:
        """Passes on all news that came until a moment later."""
        await self.pause()
        self.tell()

    async def send_group(
        self,
        author: str,
        actions: list[dict[str, Any] | dict[str, Any]],
        announce: Callable[..., Any],
        since: int | None,
    ) -> Accepted | Refusal:
        """Sends a group a little late, and gives the answer."""
        await self.pause(4)
        answer = await self.memory.send_group(author, actions, announce, since)
        await self.pause()
        return answer

    async def undo(self, author: str, seq: int) -> Answer:
        """Undoes an entry late, and gives the answer."""
        await self.pause(10)
        answer = await self.memory.undo(author, seq)
        await self.pause()
        return answer


@in_a_loop
async def racing_programs_lose_nothing() -> None:
    """Three programs with five editors, and a mapper who moves the nodes that they count on: each accepted upload is
    counted once, and created its node, and of a refused one there is nothing. Some uploads are taken back."""
    room, chance = MemoryRoom([node(f"n{number}", count="0") for number in range(1, 7)]), random.Random(8)
    programs = [Bridge(Line(room, chance, 0.004)) for _ in range(3)]
    names = sorted(room.elements)
    accepted: list[Any] = []
    refused: list[Any] = []
    moved_by = dict.fromkeys(room.elements, 0)

    async def edit(bridge: Bridge, author: str) -> None:
        changeset = await bridge.open(author=author)
        for _ in range(40):
            chosen, steps = chance.sample(names, chance.randint(1, 3)), CREATE
            for name in chosen:
                row = bridge.map.elements[name]
                steps += step(
                    "modify", {**row, "tags": {"count": str(int(row["tags"]["count"]) + 1)}}, version_of(bridge, name)
                )
            await asyncio.sleep(chance.random() / 200)
            status, text = await bridge.upload(changeset, steps, author=author)
            want((status in (200, 409), "stays in the room" in text), (True, False))
            (accepted if status == 200 else refused).append(len(chosen))

    async def move() -> None:
        while True:
            await asyncio.sleep(chance.random() / 50)
            moved_by[name := chance.choice(names)] += 1
            taken(room.group("mapper", [moves(name)]))

    with Times(0.5, 0.5):
        moving = asyncio.create_task(move())
        await asyncio.gather(
            *itertools.starmap(edit, zip((*programs, *programs), ("lina", "mika", "vera", "yuri", "zoe")))
        )
        moving.cancel()
    counts = {name: int(room.elements[name]["tags"]["count"]) for name in names}
    want((sum(counts.values()), len(room.elements)), (sum(accepted), len(names) + len(accepted)))
    want({name: elements.text_units(room.elements[name]["lat"]) - 10**7 for name in names}, moved_by)
    undone = sum(not entry.is_active for entry in room.journal)
    print(
        f"{len(accepted)} uploads, {len(refused)} conflicts, {sum(moved_by.values())} moves, "
        f"{undone // 2} taken back"
    )
    want((len(accepted) > 20, undone > 0), (True, True))


@needed
def a_repair_is_an_undo() -> None:
    """Where nobody changed a detail after a group, its repair leads to the map to which its undo leads."""
    chance, compared = random.Random(6), 0
    for turn in range(1_500):
        rows = [node(f"n{number}", number, a=str(number)) for number in range(1, 7)]
        rows += [
            way("w1", 1, 2, 3, a="1"),
            way("w2", 3, 4),
            relation("r1", ("w1", ""), ("n5", "x")),
            relation("r2", ("r1", ""), ("r2", "")),
        ]
        room = MemoryRoom(rows)
        view = RoomMap(Ledger(), lambda: NOW)
        room.subscribe(view)
        group = chance_actions(chance, room, chance.randint(1, 6))
        watch = view.watch([*room.elements, *(name for name in named_in(group))])
        if not isinstance(room.group("lina", group), Accepted):
            continue
        for _ in range(chance.randint(0, 3)):
            room.group("bob", chance_actions(chance, room, 1))
        did, other = watch.step(1), MemoryRoom(list(room.elements.values()))
        assert did is not None
        repair = plan_repair(did.before, did.after, view)
        if repair.actions:
            want((turn, group, other.group("lina", repair.actions)), (turn, group, Accepted(1)))
        want({name: other.elements.get(name) for name in repair.rows}, repair.rows)
        if isinstance(room.take_back("lina", 1), Accepted):
            compared += 1
            want((turn, group, repair.stays, other.elements), (turn, group, [], room.elements))
    want(compared > 300, True)


def named_in(actions: list[Any]) -> list[str]:
    """The elements that some actions create."""
    return [action["el"] for action in actions if action["do"] == "create"]


def chance_actions(chance: random.Random, room: MemoryRoom, count: int) -> list[Any]:
    """Some actions at random, most of which a room accepts."""
    actions, numbers = [], itertools.count(-1 - room.seq * 10, -1)
    for _ in range(count):
        nodes = [int(name[1:]) for name in room.elements if name[0] == "n"] or [1]
        name, number = chance.choice(sorted(room.elements)), next(numbers)
        some = chance.choices(nodes, k=chance.randint(2, 4))
        members = [[chance.choice(sorted(room.elements)), chance.choice("xy")] for _ in range(chance.randint(0, 2))]
        actions.append(
            chance.choice(
                [
                    {"do": "create", **node(f"n{number}", 5)},
                    {"do": "create", **way(f"w{number}", *some)},
                    {"do": "create", **relation(f"r{number}"), "members": members},
                    {"do": "delete", "el": name},
                    retags(name, **{chance.choice("abc"): chance.choice(["1", "2", "3"])}),
                    moves(f"n{chance.choice(nodes)}", chance.randint(1, 9)),
                    {"do": "nodes", "el": chance.choice(["w1", "w2"]), "nodes": some},
                    {"do": "members", "el": chance.choice(["r1", "r2"]), "members": members},
                ]
            )
        )
    return actions
