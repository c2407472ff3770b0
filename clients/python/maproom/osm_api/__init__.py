"""The OpenStreetMap API 0.6 over a room, so that JOSM, Merkaartor and osmapi can join it.

The modules build on each other in this order, and each can be tested without those after it:

- ``ids``, ``elements``, ``errors``: names and ids, rows and coordinates, the API's refusals
- ``documents``, ``osm_xml``, ``osm_json``: what editors send, and what they receive
- ``ledger``, ``grid``, ``room_map``: versions that never fall, bounding boxes, the map with both
- ``planner``: an upload as actions of the room, or the API's error
- ``connection``: what the rest needs of a room; ``memory_room`` is a room without a server
- ``changesets``, ``preferences``, ``uploads``, ``calls``, ``page``: the calls of the API
- ``measures``: figures for operators
- ``http``, ``bridge``: the application that listens, and the whole program over a connection
"""
