"""Knows the replies that docs/PROTOCOL.md allows: to a text that is no message, and to an author after earlier
replies."""
from __future__ import annotations

from collections.abc import Collection, Mapping
from typing import Any

# The fields of each refusal besides `why`.
MEMBERS = {
    **dict.fromkeys(("wrong_kind", "present", "same", "absent", "out_of_range", "too_few", "too_many"), {"el"}),
    **dict.fromkeys(("bad_position", "not_end_to_end", "nothing", "nothing_to_undo", "nothing_to_redo"), set()),
    **dict.fromkeys(("no_such", "not_yours", "not_standing"), set()),
    "tag_conflict": {"key"},
    "in_use": {"by", "el"},
    "conflict": {"at", "with"},
    "changed": {"el", "with"},
}

# The reasons for which an action may be refused, and a query.
ACTIONS = {
    "create": {"present", "too_few", "too_many", "absent"},
    "retag": {"absent", "too_many", "nothing"},
    "move": {"wrong_kind", "absent", "out_of_range", "nothing"},
    "reverse": {"wrong_kind", "absent", "nothing"},
    "nodes": {"wrong_kind", "absent", "too_few", "too_many", "nothing"},
    "members": {"wrong_kind", "absent", "too_many", "nothing"},
    "delete": {"absent", "in_use"},
    "purge": {"absent"},
    "split": {"wrong_kind", "absent", "present", "bad_position", "too_many"},
    "join": {"wrong_kind", "same", "absent", "not_end_to_end", "too_many", "tag_conflict"},
    "merge": {"wrong_kind", "same", "absent", "too_few", "tag_conflict", "too_many"},
    "unglue": {"wrong_kind", "absent", "present", "bad_position"},
}
QUERIES: dict[str, set[str]] = {"get": {"absent"}, "undos": set()}


def bad_field(field: str) -> tuple[int, dict[str, str]]:
    """The id and the refusal of a message under the id 1 whose field is bad."""
    return 1, {"field": field, "why": "bad_field"}


# Texts that are no messages in a session, each with the id and the refusal of the reply.
ODDITIES = {
    "hello": (0, {"why": "not_json"}),
    '{"id":2,"do":"cre': (0, {"why": "not_json"}),
    "[1]": (0, {"why": "not_object"}),
    '{"id":"1","do":"map"}': (0, {"why": "bad_id"}),
    '{"id":1,"do":"paint","el":"w1"}': (1, {"why": "unknown_do"}),
    '{"id":1,"do":"get","el":"n05"}': bad_field("el"),
    '{"id":1,"do":"create","el":"n1","lat":51.5,"lon":"0"}': bad_field("lat"),
    '{"id":1,"do":"create","el":"n1","lat":"90","lon":"180.1"}': bad_field("lon"),
    '{"id":1,"do":"create","el":"w1","nodes":[1,0]}': bad_field("nodes"),
    '{"id":1,"do":"create","el":"r1","members":["n1"]}': bad_field("members"),
    '{"id":1,"do":"retag","el":"w1","tags":{"lanes":2}}': bad_field("tags"),
    '{"id":1,"do":"move","els":["n0"],"dlat":0,"dlon":0}': bad_field("els"),
    '{"id":1,"do":"move","els":[],"dlat":1.0,"dlon":0}': bad_field("dlat"),
    '{"id":1,"do":"split","el":"w1","at":-1,"into":"w2"}': bad_field("at"),
    '{"id":1,"do":"split","el":"w1","at":1,"into":2}': bad_field("into"),
    '{"id":1,"do":"join","el":"w1"}': bad_field("with"),
    '{"id":1,"do":"undo","seq":0}': bad_field("seq"),
    '{"id":1,"do":"hello","room":"Paris","name":"anna"}': bad_field("room"),
    '{"id":1,"do":"hello","room":"paris","name":"anna"}': (1, {"why": "hello_twice"}),
}


class Undos:
    """The entries that an author can undo and redo, according to the replies so far, in their order. So it knows the
    possible replies to the author's next message."""

    def __init__(self) -> None:
        # The word of each active action, and of each action that can be redone, by the number of its entry. The last
        # active action has the greatest number; the last of the others was undone last.
        self.active: dict[int, str] = {}
        self.undone: dict[int, str] = {}

    def lists(self) -> dict[str, list[int]]:
        """The lists of both, as `undos` returns them."""
        return {"redo": list(self.undone), "undos": list(self.active)}

    def meant(self, message: Mapping[str, Any]) -> int | None:
        """The number of the entry that an undo is for, or None if no entry is active."""
        return message.get("seq") or next(reversed(self.active), None)

    def refusals(self, message: Mapping[str, Any]) -> Collection[str]:
        """The reasons for which a message may be refused."""
        word = message["do"]
        if word == "undo" and self.meant(message) in self.active:
            return {"conflict"}
        if word == "undo":
            return {"no_such", "not_yours", "not_standing"} if "seq" in message else {"nothing_to_undo"}
        if word == "redo":
            return ACTIONS[self.undone[next(reversed(self.undone))]] if self.undone else {"nothing_to_redo"}
        return ACTIONS.get(word) or QUERIES[word]

    def outcome(self, message: Mapping[str, Any], seq: int) -> dict[str, int] | None:
        """The reply to a change that is accepted as the entry of this number, or None if it cannot be accepted."""
        word = message["do"]
        if word == "undo":
            undid = self.meant(message)
            return None if undid is None or undid not in self.active else {"seq": seq, "undid": undid}
        if word == "redo":
            return {"redid": next(reversed(self.undone)), "seq": seq} if self.undone else None
        return {"seq": seq}

    def take(self, message: Mapping[str, Any], reply: Mapping[str, int]) -> None:
        """Notes that a change was accepted with this reply."""
        word = message["do"]
        if word == "undo":
            self.undone[reply["undid"]] = self.active.pop(reply["undid"])
        elif word == "redo":
            self.active[reply["seq"]] = self.undone.pop(reply["redid"])
        else:
            self.active[reply["seq"]] = word
            self.undone.clear()

    def may_be_reply(self, message: Mapping[str, Any], reply: Mapping[str, Any]) -> bool:
        """Whether this may be the reply to a message."""
        if set(reply) == {"id", "no"} and reply["id"] == message["id"]:
            why = reply["no"].get("why")
            return why in self.refusals(message) and set(reply["no"]) == {"why", *MEMBERS[why]}
        return set(reply) == {"id", "ok"} and reply["id"] == message["id"] and self.is_ok(message, reply["ok"])

    def is_ok(self, message: Mapping[str, Any], reply: Mapping[str, Any]) -> bool:
        """Whether this may be the reply to a message that is accepted."""
        if message["do"] == "get":
            return list(reply) == ["is"] and reply["is"]["el"] == message["el"]
        if message["do"] == "undos":
            return reply == self.lists()
        seq = reply and reply.get("seq")
        return isinstance(seq, int) and seq > 0 and reply == self.outcome(message, seq)
