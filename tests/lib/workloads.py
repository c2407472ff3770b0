"""Makes the messages of workloads: maps with the proportions of a real map, and edits of them.

A message is the text of a line of `maproom replay` without the author and the id, or a pair of an author and such a
text. `measuring.write_script` completes the lines.
"""
from __future__ import annotations

from collections.abc import Callable, Iterator, Sequence
from typing import Any, Optional

from .measuring import Message

# What a workload measures, its messages that prepare a map of a size, and its measured messages.
Workload = tuple[str, Callable[[int], Sequence[Message]], Optional[Callable[[int], Sequence[Message]]]]

# In the map of a small country, nine of ten elements are nodes, of which one in fourteen has a tag. A way has ten nodes
# and two tags.
NODES_OF_A_WAY = 10
NODES_WITH_A_TAG = 14

# How many edits or gets of a map are measured, whatever its size. `measure_edits` changes it.
EDITS = 50_000

# The fewest edits with which each workload has a line to measure, and the fewest elements of a map.
FEWEST_EDITS = 500
FEWEST_ELEMENTS = 50

# How many nodes an author edits in one place.
PLACE = 500

# How many ways name the node whose purge changes them all.
WAYS_OF_A_HUB = 1_000

# How many authors undo old work, so that none of them has much of it.
AUTHORS = 500

# How many authors undo and redo concurrently.
PARTY = 8

# How many nodes the ways of `big_ways` have, the most that OpenStreetMap allows, and how many such ways there are.
NODES_OF_A_BIG_WAY = 2_000
BIG_WAYS = 5

# For how many of those one edit of a big way is measured.
EDITS_OF_A_BIG_EDIT = 50


def measure_edits(count: int) -> None:
    """Sets how many edits or gets of a map a workload has."""
    global EDITS
    EDITS = count


def create_node(number: int, tags: str = "{}") -> str:
    """The create of a node, by default without tags."""
    degrees = f"{number % 90}.{number % 10_000_000:07}"
    return f'"do":"create","el":"n{number}","lat":"{degrees}","lon":"{degrees}","tags":{tags}'


def create_way(number: int, last: int) -> str:
    """The create of a way with two tags, whose last node has the number `last`."""
    nodes = ",".join(str(it) for it in range(last - NODES_OF_A_WAY + 1, last + 1))
    return f'"do":"create","el":"w{number}","nodes":[{nodes}],"tags":{{"highway":"residential","name":"Way {number}"}}'


def nodes(size: int) -> list[str]:
    """Creates of nodes without tags."""
    return [create_node(number) for number in range(1, size + 1)]


def elements(size: int) -> list[str]:
    """Creates of nodes and ways, some with tags, in the proportions of a real map."""
    made = []
    for number in range(1, size + 1):
        if number % NODES_OF_A_WAY == 0 and number > 2 * NODES_OF_A_WAY:
            made.append(create_way(number, last=node_before(number)))
        else:
            made.append(create_node(node_at(number), '{"name":"Node"}' if number % NODES_WITH_A_TAG == 0 else "{}"))
    return made


def node_at(number: int) -> int:
    """The node that the line of this number makes, without counting lines of ways."""
    return number - ways_before(number)


def node_before(number: int) -> int:
    """The last node that an earlier line makes."""
    return node_at(number - 1)


def ways_before(number: int) -> int:
    """How many earlier lines make ways."""
    return max(0, (number - 1) // NODES_OF_A_WAY - 2)


def mapped(size: int) -> list[str]:
    """The elements of a map, each with a tag, and a relation for each hundred of them."""
    made = [line.replace('"tags":{}', '"tags":{"note":"made"}') for line in elements(size)]
    for number in range(1, size // 100 + 2):
        made.append(f'"do":"create","el":"r{number}","members":{members(1)}')
    return made


def members(count: int) -> str:
    """Some members that are in each map."""
    return "[" + ",".join(f'["n{number}","stop"]' for number in range(1, count + 1)) + "]"


def nodes_of(size: int) -> int:
    """The number of nodes of a map of this size."""
    return size - ways_before(size + 1)


def over(size: int, edit: Callable[..., Any]) -> list[str]:
    """The edits to measure, as many at any size: of each element in order, over and over."""
    return [edit(1 + i % size, i // size) for i in range(EDITS)]


def ways_over(size: int, edit: Callable[..., Any]) -> list[str]:
    """The same for ways."""
    numbers = [it for it in range(3 * NODES_OF_A_WAY, size + 1, NODES_OF_A_WAY)]
    return over(len(numbers), lambda at, turn: edit(numbers[at - 1], turn))


def retags(size: int) -> list[str]:
    """New tags of nodes."""
    return over(nodes_of(size), lambda number, turn: f'"do":"retag","el":"n{number}","tags":{{"note":"{turn}"}}')


def moves(size: int) -> list[str]:
    """Moves of nodes."""
    return over(nodes_of(size), lambda number, turn: f'"do":"move","els":["n{number}"],"dlat":0,"dlon":1')


def reverses(size: int) -> list[str]:
    """Reverses of ways."""
    return ways_over(size, lambda number, turn: f'"do":"reverse","el":"w{number}"')


def lists(size: int) -> list[str]:
    """The nodes of each way one node back along the map, and forth again."""
    return ways_over(size, lambda number, turn: f'"do":"nodes","el":"w{number}","nodes":{window(number, turn)}')


def window(number: int, turn: int) -> str:
    """The nodes of a way, one node back in each second turn."""
    last = node_before(number) - 1 + turn % 2
    return "[" + ",".join(str(it) for it in range(last - NODES_OF_A_WAY + 1, last + 1)) + "]"


def relists(size: int) -> list[str]:
    """Other members of relations."""
    relist = lambda number, turn: f'"do":"members","el":"r{number}","members":{members(2 + turn % 7)}'
    return over(size // 100 + 1, relist)


def comings_and_goings(size: int) -> list[str]:
    """Creates of new nodes, each deleted right after."""
    made = []
    for number in range(size + 1, size + 1 + EDITS // 2):
        made += [create_node(number), f'"do":"delete","el":"n{number}"']
    return made


def edits_and_undos(size: int) -> list[str]:
    """New tags of nodes, each undone right after."""
    return undone(retags(size))


def undone(edits: list[str]) -> list[str]:
    """Half as many edits, each undone right after."""
    return [line for edit in edits[: EDITS // 2] for line in (edit, '"do":"undo"')]


def purges(size: int) -> list[str]:
    """Purges of nodes that are in at most one way: the same few at any size, like the edits of one place."""
    return undone(over(min(nodes_of(size), PLACE), lambda number, turn: f'"do":"purge","el":"n{number}"'))


def hub(size: int) -> list[str]:
    """A map with one more node, and a thousand more ways that refer to it."""
    made = mapped(size) + [create_node(size + 1)]
    for number in range(2 * size, 2 * size + WAYS_OF_A_HUB):
        made.append(f'"do":"create","el":"w{number}","nodes":[1,{size + 1},2]')
    return made


def purges_of_a_hub(size: int) -> list[str]:
    """Purges of the node in a thousand ways, each undone right after."""
    return [f'"do":"purge","el":"n{size + 1}"', '"do":"undo"'] * (2 * EDITS // WAYS_OF_A_HUB)


def splits_and_joins(size: int) -> list[str]:
    """Splits of ways in their middle, the parts joined right after."""
    made = []
    for edit in ways_over(size, lambda number, turn: f'"el":"w{number}","%s":"w{2 * size}"')[: EDITS // 2]:
        made += [f'"do":"split","at":{NODES_OF_A_WAY // 2},' + edit % "into", '"do":"join",' + edit % "with"]
    return made


def merges(size: int) -> list[str]:
    """Merges of nodes with the next node."""
    merge = lambda number, turn: f'"do":"merge","el":"n{number}","with":"n{number + 1}"'
    return undone(over(nodes_of(size) - 1, merge))


def unglues(size: int) -> list[str]:
    """Unglues of ways from the node in their middle."""
    place = f'"at":{NODES_OF_A_WAY // 2},"into":"n{2 * size}"'
    return undone(ways_over(size, lambda number, turn: f'"do":"unglue","el":"w{number}",{place}'))


def mixed(size: int) -> list[str]:
    """Creates, moves, new tags, gets and deletes, with undos and redos of them, mixed."""
    made = []
    for turn in range(EDITS // 8):
        node, new = 1 + turn % nodes_of(size), size + 1 + turn
        move, get = f'"do":"move","els":["n{node}"],"dlat":0,"dlon":1', f'"do":"get","el":"n{node}"'
        retag = f'"do":"retag","el":"n{node}","tags":{{"note":"{turn}"}}'
        made += [create_node(new, '{"note":"new"}'), move, '"do":"undo"', '"do":"redo"']
        made += [retag, get, f'"do":"delete","el":"n{new}"', '"do":"undo"']
    return made


def big_ways(size: int) -> list[str]:
    """A map with a few ways of many nodes."""
    made = mapped(size) + [create_node(size + number) for number in range(1, NODES_OF_A_BIG_WAY + 1)]
    for number in range(2 * size, 2 * size + BIG_WAYS):
        made.append(f'"do":"create","el":"w{number}","nodes":{big_list(size, 0)}')
    return made


def big_list(size: int, turn: int) -> str:
    """The nodes of a big way, begun at another of them each turn."""
    numbers = [size + 1 + (turn * 7 + at) % NODES_OF_A_BIG_WAY for at in range(NODES_OF_A_BIG_WAY - turn % 2)]
    return f"[{','.join(map(str, numbers))}]"


def edits_of_big_ways(size: int) -> list[str]:
    """Reverses, new tags and other nodes of big ways, each undone right after."""
    made = []
    for turn in range(EDITS // EDITS_OF_A_BIG_EDIT // 6):
        way = 2 * size + turn % BIG_WAYS
        reverse, retag = f'"do":"reverse","el":"w{way}"', f'"do":"retag","el":"w{way}","tags":{{"note":"{turn}"}}'
        relist = f'"do":"nodes","el":"w{way}","nodes":{big_list(size, turn + 1)}'
        for edit in (reverse, retag, relist):
            made += [edit, '"do":"undo"']
    return made


def moves_of_big_ways(size: int) -> Any:
    """Moves, reverses, splits and joins of big ways, with undos of some."""
    made = []
    for turn in range(EDITS // EDITS_OF_A_BIG_EDIT // 8):
        way, other = 2 * size + turn % BIG_WAYS, 2 * size + BIG_WAYS + turn
        half = NODES_OF_A_BIG_WAY // 4 + turn * 7 % (NODES_OF_A_BIG_WAY // 2)
        made += [f'"do":"move","els":["w{way}"],"dlat":1,"dlon":1', '"do":"undo"', '"do":"redo"']
        split = f'"do":"split","el":"w{way}","at":{half},"into":"w{other}"'
        join = f'"do":"join","el":"w{way}","with":"w{other}"'
        made += [split, f'"do":"move","els":["w{other}"],"dlat":1,"dlon":0']
        made += [join, f'"do":"reverse","el":"w{way}"', f'"do":"get","el":"w{way}"']
    return made


def old_author(number: int) -> str:
    """The author of the old work of this number."""
    return f"old_{number % AUTHORS}"


def old_work(size: int) -> list[Message]:
    """Nodes of many authors, and then nodes of another author."""
    old = [(old_author(number), create_node(number)) for number in range(1, EDITS + 1)]
    return [*old, *(create_node(EDITS + number) for number in range(1, size + 1))]


def old_undos(size: int) -> list[tuple[str, str]]:
    """Undos of the old work, the oldest first."""
    return [(old_author(number), f'"do":"undo","seq":{number}') for number in range(1, EDITS + 1)]


def party(size: int) -> list[tuple[str, str]]:
    """Nodes of a few authors, who alternate."""
    return [(f"party_{number % PARTY}", create_node(number)) for number in range(1, size + 1)]


def undos_and_redos(size: int) -> list[tuple[str, str]]:
    """Each of the few authors undoes their last work, and then each redoes it, over and over."""
    all_do = {word: [(f"party_{it}", f'"do":"{word}"') for it in range(PARTY)] for word in ("undo", "redo")}
    return [*all_do["undo"], *all_do["redo"]] * (EDITS // (2 * PARTY))


def gets(size: int) -> list[str]:
    """Gets of nodes."""
    return over(size, lambda number, turn: f'"do":"get","el":"n{number}"')


# The workloads by their names: what each measures, its messages that prepare the map, and its measured messages. An
# opening has no measured messages: the measurement is that of a room on the map.
WORKLOADS: dict[str, Workload] = {
    "create": ("creates of nodes without tags", lambda size: [], nodes),
    "elements": ("creates of nodes, and of ways of ten nodes with tags, as in a real map", lambda size: [], elements),
    "open": ("openings on a map of such elements, of each element", elements, None),
    "get": ("gets of nodes", nodes, gets),
    "map": ("ten times the whole map", elements, lambda size: ['"do":"map"'] * 10),
    "retag": ("new tags of nodes of a map", mapped, retags),
    "move": ("moves of nodes of a map", mapped, moves),
    "reverse": ("reverses of ways of a map", mapped, reverses),
    "nodes": ("other nodes of ways of a map", mapped, lists),
    "members": ("other members of relations of a map", mapped, relists),
    "come_and_go": ("creates of nodes in a map, each deleted right after", mapped, comings_and_goings),
    "purge": ("purges of nodes of a map, in one way at most, each undone right after", mapped, purges),
    "purge_hub": ("purges of a node in a thousand ways of a map, each undone right after", hub, purges_of_a_hub),
    "split": ("splits of ways of a map, the parts joined right after", mapped, splits_and_joins),
    "merge": ("merges of a node of a map with the next, each undone right after", mapped, merges),
    "unglue": ("unglues of ways of a map from a node, each undone right after", mapped, unglues),
    "undo": ("edits of a map, each undone right after, in a journal as long as the map", mapped, edits_and_undos),
    "mixed": ("creates, moves, new tags, gets, a delete, undos and redos, mixed", mapped, mixed),
    "big_ways": (
        "reverses, new tags and other nodes of ways of 2,000 nodes, each undone right after",
        big_ways,
        edits_of_big_ways,
    ),
    "redo": (
        "undos and redos of eight authors of a map's nodes, all undoing and then all redoing",
        party,
        undos_and_redos,
    ),
    "old_undo": (
        "undos of the oldest work of many authors, with as many later entries of another author as the size",
        old_work,
        old_undos,
    ),
}


def entries(count: int) -> Iterator[tuple[str, list[str], list[str]]]:
    """For each kind of entry its name, the messages in front of the entries, and the entries: one for each of `count`
    nodes."""
    nodes = [f'"do":"create","el":"n{number}","lat":"47","lon":"9","tags":{{}}' for number in range(1, count + 1)]
    moves = [f'"do":"move","els":["n{number}"],"dlat":1,"dlon":0' for number in range(1, count + 1)]
    tags = [f'"do":"retag","el":"n{number}","tags":{{"highway":"crossing"}}' for number in range(1, count + 1)]
    tagged = [node.replace("{}", '{"highway":"crossing","name":"x"}') for node in nodes]
    yield "entries that create a node", [], nodes
    yield "entries that create a node with two tags", [], tagged
    yield "entries that move a node", nodes, moves
    yield "entries that tag a node", nodes, tags
    yield "entries that undo a create with two tags", tagged, ['"do":"undo"'] * count
    yield "gets of a node with two tags", tagged, [f'"do":"get","el":"n{number}"' for number in range(1, count + 1)]
    yield "entries that delete a node", nodes, [f'"do":"delete","el":"n{number}"' for number in range(1, count + 1)]
