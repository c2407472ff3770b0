"""Replication of a room: it is followed as a client, and its changes are published as OpenStreetMap's replication diffs
(`clients/replicate`).

The folder has these files, which any web server can serve. Sequence numbers rise by one.

- `base.osm.pbf`: the whole map, which says with which diff a follower goes on.
- `000/000/001.osc.gz`: the changes of sequence 1. `000/000/001.state.txt` has its number and its time.
- `state.txt`: the same of the last diff. It is written last, so each diff that it names is whole.

These files are not for followers:

- `ledger.sqlite`: what was published: the id, the version and the content of each element, and the last diff.
- `lock`: held by the replicator while it runs.
"""
from .following import Ending, Plan, Replicator
from .ledger import BadLedger, Ledger, OtherRoom

__all__ = ["BadLedger", "Ending", "Ledger", "OtherRoom", "Plan", "Replicator"]
