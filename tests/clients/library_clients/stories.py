"""Stories that a program tells with the Python package: stories.py STORY URL. stories.js tells the same ones."""
from __future__ import annotations

import asyncio
import json
import sys
import time

import maproom
from collections.abc import Callable, Coroutine
from typing import Any
from maproom.core import compact
from maproom.errors import error_of, short_words


def say(*words: Any) -> None:
    """Prints a line at once."""
    print(*words, flush=True)


def connect(url: str, **how: Any) -> maproom.Room:
    """The room paris, for anna."""
    return maproom.connect(url, room="paris", name="anna", **how)


def say_map(room: maproom.Room) -> None:
    """Prints the mirror."""
    say(compact([room.elements[name] for name in sorted(room.elements)]))


async def say_outcome(awaited: Coroutine[Any, Any, Any]) -> None:
    """Prints what came of a message."""
    try:
        say("done", compact(await awaited))
    except maproom.Error as error:
        say(type(error).__name__, error)


async def lost(url: str) -> None:
    """A change is accepted, then a move whose answer is lost, and one that comes while there is no connection."""
    async with connect(url) as room:
        await say_outcome(room.create_node(1, "2", el="n-1"))
        moves = asyncio.create_task(say_outcome(room.move("n1", "0.000001", 0)))
        while room.state == "open":
            await asyncio.sleep(0.001)
        await say_outcome(room.move(["n1"], 0, 0.000001))
        await moves
        await say_outcome(room.retag("n1", {"after": "it"}))
        say_map(room)


async def lost_first(url: str) -> None:
    """The answer to the very first change is lost."""
    async with connect(url) as room:
        await say_outcome(room.move("n1", 0.000001, 0))
        await say_outcome(room.retag("n1", {"after": "it"}))
        say_map(room)


async def events(url: str) -> None:
    """Prints all changes until n9 is there, and then the map."""
    async with connect(url) as room:
        changes = room.changes()
        say("open")
        async for change in changes:
            say(compact(maproom.event_as_json(change)))
            if "n9" in room.elements:
                break
        say_map(room)


async def leaving(url: str) -> None:
    """Leaves when the connection breaks."""
    async with connect(url) as room:
        moving = asyncio.ensure_future(say_outcome(room.move("n1", 0.000001, 0)))
        while room.state == "open":
            await asyncio.sleep(0.001)
        await room.close()
        await moving
        await asyncio.sleep(0.5)
        say(room.state)


async def listener(url: str) -> None:
    """One reader fails; another one, and the room, go on."""
    async with connect(url) as room:

        async def fails(changes: maproom.Changes) -> None:
            async for change in changes:
                raise RuntimeError(f"boom {change.seq}")

        failing, changes = asyncio.create_task(fails(room.changes())), room.changes()
        await room.create_node(1, 2, el="n-1")
        say("change", (await changes.__anext__()).seq)
        await asyncio.wait({failing})
        say("error", failing.exception())
        await room.create_node(1, 2, el="n-2")
        say("change", (await changes.__anext__()).seq)


async def opening(url: str) -> None:
    """The server is silent: opening ends in time, and by a cancellation, and leaves nothing."""
    begun = time.monotonic()
    try:
        async with connect(url, open_timeout=0.5):
            say("opened")
    except maproom.ConnectionFailed as error:
        say(type(error).__name__, str(error).replace(url, "URL"))
    attempt = asyncio.create_task(connect(url, open_timeout=None).open())
    await asyncio.sleep(0.2)
    attempt.cancel()
    await asyncio.wait({attempt})
    say("cancelled", attempt.cancelled(), "left", len(asyncio.all_tasks()) - 1)
    say("soon", time.monotonic() - begun < 5)


async def names(url: str) -> None:
    """Some names of new elements are taken by somebody else."""
    async with connect(url) as room:
        made = await asyncio.gather(*(room.create_node(1, number) for number in range(6)))
        say(len(set(made)), all(name in room.elements for name in made))
        await say_outcome(room.create_node(1, 2, el=made[0]))


async def many(url: str) -> None:
    """A thousand moves at once, while connections break."""
    async with connect(url) as room:
        await room.create_node(1, 2, el="n-1")
        seqs = await asyncio.gather(*(room.move("n-1", "0.0000001", 0) for _ in range(1000)))
        say(seqs == list(range(2, 1002)), room.pending)
        say_map(room)


async def silent(url: str) -> None:
    """The server falls silent in the middle of a session, which has a heartbeat of some seconds or the default."""
    how = {"heartbeat": int(sys.argv[3])} if len(sys.argv) > 3 else {}
    async with connect(url, **how) as room:
        await room.create_node(1, 2, el="n-1")
        begun = time.monotonic()
        await say_outcome(room.move("n-1", "0.0000001", 0))
        say(f"{time.monotonic() - begun:.1f}")
        say_map(room)


async def limits(url: str) -> None:
    """A message is cancelled on its way, one gets no answer in time, and one waits when the room is closed."""
    async with connect(url, timeout=0.5) as room:
        try:
            await asyncio.wait_for(room.create_node(1, 2, el="n-1"), 0.1)
        except asyncio.TimeoutError:
            say("cancelled")
        await say_outcome(room.create_node(1, 2, el="n-2"))
        while room.pending:
            await asyncio.sleep(0.01)
        waits = asyncio.create_task(say_outcome(room.create_node(1, 2, el="n-3")))
        await asyncio.sleep(0.1)
        await room.close()
        await waits
        await say_outcome(room.get("n1"))


async def ends(url: str) -> None:
    """The room is gone when the connection is made anew."""
    async with connect(url) as room:
        changes = room.changes()
        await room.create_node(1, 2, el="n-1")
        try:
            async for _ in changes:
                pass
        except maproom.NoRoom as error:
            say(type(error).__name__, error)
        await say_outcome(room.get("n1"))


async def late(url: str) -> None:
    """A reader that is too late gets one reset."""
    maproom.room.MOST_EVENTS = 5
    async with connect(url) as room:
        changes = room.changes()
        for number in range(8):
            await room.create_node(number, 2, el=f"n-{number + 1}")
        await room.delete("n-8")
        change = await changes.__anext__()
        assert isinstance(change, maproom.Reset)
        say(type(change).__name__, change.restarted, [row.el for row in change.rows])


async def built(url: str) -> None:
    """A move whose answer is lost, perhaps after an accepted change."""
    async with connect(url) as room:
        if len(sys.argv) > 3:
            await say_outcome(room.retag("n1", {"first": "yes"}))
        await say_outcome(room.move("n1", "0.000001", 0))
        await say_outcome(room.retag("n1", {"after": "it"}))
        await say_outcome(room.undo())
        say_map(room)


async def speed(url: str) -> None:
    """Ten thousand changes. The last one waits for all others, so that it has no limit of its own."""
    async with connect(url, timeout=None) as room:
        begun = time.monotonic()
        await asyncio.gather(*(room.create_node(1, 2, el=f"n{number}") for number in range(1, 10_001)))
        say(len(room.elements), room.seq, f"{time.monotonic() - begun:.3f}")


async def groups(url: str) -> None:
    """A group is accepted as one entry, or refused with the position of an action."""
    make = maproom.actions
    async with connect(url) as room:
        first, second, way = (room.new_name(kind) for kind in "nnw")
        say(first, second, way)
        steps = [make.create_node(first, 1, 2), make.create_node(second, 1, 3), make.create_way(way, [first, second])]
        await say_outcome(room.group(iter(steps)))
        say_map(room)
        steps = [make.retag(first, {"k": "v"}), make.delete(second)]
        try:
            await room.group(steps)
        except maproom.Refused as error:
            say(error.why, error.action, error)
        await say_outcome(room.group([make.move(first, 1, 0)]))
        await say_outcome(room.group(steps[:1]))
        say_map(room)


async def groups_built(url: str) -> None:
    """The same with the built program, and what only a whole room refuses. `unknown_do` is of one without groups."""
    make = maproom.actions
    async with connect(url) as room:
        first, second, way = (room.new_name(kind) for kind in "nnw")
        steps = [make.create_node(first, 1, 2), make.create_node(second, 1, 3), make.create_way(way, [first, second])]
        groups: list[list[dict[str, Any]]] = [
            steps,
            [make.retag(first, {"k": "v"}), make.delete(second)],
            [],
            [make.reverse(way), make.reverse(way)],
            [make.undo()],
            [make.create_way("w-9", [1, 0])],
        ]
        for group in groups:
            try:
                say("done", await room.group(group))
            except maproom.Refused as error:
                say(error.why, error.action, error)
        await say_outcome(room.undo())
        say_map(room)


async def possible(url: str) -> None:
    """Bob's move blocks anna's last entry, and then each of hers: she undoes what is left."""
    async with connect(url) as room, maproom.connect(url, room="paris", name="bob") as bob:
        await room.create_node(1, 2, el="n-1")
        await room.create_node(1, 2, el="n-2")
        await room.move("n-1", 1, 0)
        await bob.move("n-1", 0, 1)
        await say_outcome(room.undo())
        for _ in range(2):
            await say_outcome(room.undo_last_possible())
        await bob.undo()
        await say_outcome(room.undo_last_possible())
        say_map(room)


async def guards(url: str) -> None:
    """Each method passes `since` on. A change of what somebody changed since is refused when the mirror has that."""
    async with connect(url) as room, maproom.connect(url, room="paris", name="bob") as bob:
        await room.create_node(1, 2, el="n-1")
        calls: list[Callable[[int], Coroutine[Any, Any, Any]]] = [
            lambda since: room.create_node(1, 2, since=since),
            lambda since: room.create_way(["n-1", "n-1"], since=since),
            lambda since: room.create_relation([], since=since),
            lambda since: room.retag("n-1", {"a": "1"}, since=since),
            lambda since: room.move("n-1", 1, 1, since=since),
            lambda since: room.reverse("w-1", since=since),
            lambda since: room.set_nodes("w-1", [], since=since),
            lambda since: room.set_members("r-1", [], since=since),
            lambda since: room.delete("n-1", since=since),
            lambda since: room.purge("n-1", since=since),
            lambda since: room.split("w-1", 1, since=since),
            lambda since: room.join("w-1", "w-2", since=since),
            lambda since: room.merge("n-1", "n-2", since=since),
            lambda since: room.unglue("w-1", 1, since=since),
            lambda since: room.group([maproom.actions.delete("n-1")], since=since),
        ]
        for call in calls:
            await say_outcome(call(99))
        await say_outcome(room.retag("n-1", {"a": "1"}, since=room.seq))
        changes: list[Callable[[int], Coroutine[Any, Any, Any]]] = [
            lambda since: bob.retag("n-1", {"a": "2"}, since=since),
            lambda since: bob.group([maproom.actions.retag("n-1", {"a": "3"})], since=since),
        ]
        for change in changes:
            try:
                await change(1)
            except maproom.Changed as error:
                say(error.element, error.entry, error.author, error.action, error)
            say(compact(bob.elements["n-1"]["tags"]))
            await say_outcome(change(bob.seq))
            await room.retag("n-1", {"a": "1"})


async def guards_lost(url: str) -> None:
    """The connection breaks after a move that has a number."""
    async with connect(url) as room:
        await say_outcome(room.create_node(1, "2", el="n-1"))
        await say_outcome(room.move("n1", "0.000001", 0, since=room.seq))


async def words(_: str) -> None:
    """The words of each refusal on standard input."""
    for line in sys.stdin:
        error = error_of(json.loads(line), "bob")
        assert isinstance(error, maproom.Refused)
        say(error.why, "|", error, "|", short_words(error), "|", error.element, "|", error.entry)


async def messages(_: tuple[None, None, None]) -> None:
    """A message of each function."""
    make = maproom.actions
    for message in (
        make.create_node("n-1", 51.5, "-0.1", {"natural": "tree"}),
        make.create_node("n-1", -90, 1e-7),
        make.create_way("w-1", ["n-1", 2]),
        make.create_relation("r-1", [("n-1", "label")]),
        make.retag("n-1", {"ref": "7", "note": None}),
        make.move("n-1", 1, "-0.0000001"),
        make.move(["n-1", "w-1"], 0.1, -180.5),
        make.reverse("w-1"),
        make.set_nodes("w-1", [1, "n-2"]),
        make.set_members("r-1", []),
        make.delete("n-1"),
        make.purge("n-1"),
        make.split("w-1", 1, "w-2"),
        make.join("w-1", "w-2"),
        make.merge("n-1", "n-2"),
        make.unglue("w-1", 0, "n-3"),
        make.group([make.delete("n-1"), make.reverse("w-1")]),
        make.undo(),
        make.undo(7),
        make.redo(),
        make.get("n-1"),
        make.map_of_room(),
        make.undos(),
    ):
        say(compact(message))
    for wrong in (float("nan"), float("inf")):
        try:
            make.degrees(wrong)
        except ValueError:
            say("no coordinate")


asyncio.run(globals()[sys.argv[1]](sys.argv[2]))
