"""The library osmapi."""
from __future__ import annotations

from lib.cases import case_if, want
from editor_cases.shared import HAS_ALL, Served, answered, by_name, has_osmapi, node, relation, way
from collections.abc import Callable
from typing import Any

if HAS_ALL:
    from maproom.osm_api import ids


FENCE = [
    {"type": "node", "action": "create", "data": {"id": -k, "lat": 40 + k / 1e4, "lon": -30 - k * k / 1e4}}
    for k in (1, 2, 3)
]


FENCE += [
    {"type": "way", "action": "create", "data": {"id": -1, "nd": [-1, -2, -3, -1], "tag": {"barrier": "fence"}}},
    {
        "type": "relation",
        "action": "create",
        "data": {
            "id": -1,
            "tag": {"type": "site"},
            "member": [
                {"type": "way", "ref": -1, "role": "perimeter"},
                {"type": "node", "ref": -2, "role": "entrance"},
            ],
        },
    },
]


def refused(error: type[Any], act: Callable[..., Any]) -> str:
    """Fails unless a call of osmapi is refused so. Gives the text."""
    try:
        act()
    except error as fault:
        return str(fault.payload.decode())
    raise AssertionError("it was not refused")


def rows_of(items: list[dict[str, Any]]) -> dict[str, Any]:
    """The rows of what osmapi gives as a map."""
    rows = {}
    for item in items:
        data, kinds = item["data"], {"node": ids.Kind.NODE, "way": ids.Kind.WAY, "relation": ids.Kind.RELATION}
        row = {"el": ids.room_name(kinds[item["type"]], data["id"]), "tags": data["tag"]}
        if item["type"] == "node":
            row |= {key: f"{data[key]:.7f}" for key in ("lat", "lon")}
        elif item["type"] == "way":
            row["nodes"] = [int(ids.room_name(ids.Kind.NODE, number)[1:]) for number in data["nd"]]
        else:
            row["members"] = [
                [ids.room_name(kinds[each["type"]], each["ref"]), each["role"]] for each in data["member"]
            ]
        rows[row["el"]] = row
    return rows


@case_if(has_osmapi)
def osmapi_has_its_story() -> None:
    """The library osmapi reads, creates, changes, deletes and uploads, is refused as by the API, and sees the same
    map."""
    import osmapi

    rows = [
        node("n101", 40, -30),
        node("n102", 40.001, -30),
        way("w11", 101, 102, highway="path"),
        node("n103", 40, -30.001),
    ]
    with Served(rows) as served:
        api = osmapi.OsmApi(api=f"http://127.0.0.1:{served.port}", username="lina", password="x", changesetauto=False)
        want(api.Capabilities()["version"], {"minimum": 0.6, "maximum": 0.6})
        box = (-30.02, 39.98, -29.98, 40.02)
        want(rows_of(api.Map(*box)), by_name(rows))
        changeset = api.ChangesetCreate({"comment": "a bench"})
        bench = api.NodeCreate({"lat": 40.0001, "lon": -30.0001, "tag": {"amenity": "bench"}})
        want((bench["id"], bench["version"]), (10**15 + 1, 1))
        want(served.room.elements["n-1"], node("n-1", 40.0001, -30.0001, amenity="bench"))
        bench = api.NodeUpdate(bench | {"lat": 40.00015, "tag": {"amenity": "bench", "backrest": "yes"}})
        want(served.room.elements["n-1"], node("n-1", 40.00015, -30.0001, amenity="bench", backrest="yes"))
        want(len(served.room.groups), 2)
        precondition, gone = osmapi.errors.PreconditionFailedApiError, osmapi.errors.ElementDeletedApiError
        path = api.WayGet(11)
        in_use = "Precondition failed: Node 101 is still used by ways 11."
        want(refused(precondition, lambda: api.NodeDelete(api.NodeGet(101))), in_use)
        want(
            refused(precondition, lambda: api.WayUpdate(path | {"nd": [101, 777777]})),
            "Precondition failed: Way 11 requires the nodes with id in 777777, which either do not exist, or are not "
            "visible.",
        )
        refused(osmapi.errors.ElementNotFoundApiError, lambda: api.NodeGet(777777))
        answered(served, 'bob {"do":"move","els":["n-1"],"dlat":10,"dlon":0}')
        try:  # osmapi 3.1 fails while it reads the text of a 409
            api.NodeUpdate(bench | {"tag": {}})
            raise AssertionError("it was not refused")
        except (osmapi.errors.VersionMismatchApiError, TypeError) as fault:
            reason: Any = fault.__context__ or fault
            want((reason.status, b"server had: %d of Node" % (bench["version"] + 1) in reason.payload), (409, True))
        bench = api.NodeGet(bench["id"])
        want((bench["user"], bench["lat"]), ("bob", 40.000151))
        version, deleted = bench["version"], api.NodeDelete(bench)
        want(("n-1" in served.room.elements, deleted["version"] > version), (False, True))
        refused(gone, lambda: api.NodeGet(bench["id"]))
        refused(gone, lambda: api.NodeDelete(deleted))
        both = api.NodesGet([bench["id"], 101])
        want({number: each["visible"] for number, each in both.items()}, {bench["id"]: False, 101: True})
        want([version for version in api.NodeHistory(bench["id"])], [deleted["version"]])
        track = {"type": "way", "action": "modify", "data": path | {"tag": {"highway": "track"}}}
        result = api.ChangesetUpload([*FENCE, track])
        want([each["data"]["id"] - 10**15 for each in result[:5]], [2, 3, 4, 5, 6])
        want(served.room.elements["r-6"], relation("r-6", ("w-5", "perimeter"), ("n-3", "entrance"), type="site"))
        want(served.room.elements["w11"]["tags"], {"highway": "track"})
        before = dict(served.room.elements)
        want(
            refused(
                osmapi.errors.ApiError,
                lambda: api.ChangesetUpload(
                    [
                        {"type": "node", "action": "create", "data": {"id": -9, "lat": 1, "lon": 1}},
                        {"type": "node", "action": "delete", "data": api.NodeGet(101)},
                    ]
                ),
            ),
            in_use,
        )
        want(served.room.elements, before)
        want(api.ChangesetGet(changeset)["changes_count"], "9")
        api.ChangesetClose()
        want({each["data"]["id"] - 10**15 for each in api.WayFull(10**15 + 5)}, {2, 3, 4, 5})
        want([each["id"] for each in api.NodeWays(101)], [11])
        want(rows_of(api.Map(*box)), served.room.elements)
        want(served.ask("POST", "/undo", "")[0], 200)
        want(set(served.room.elements), {"n101", "n102", "n103", "w11"})
