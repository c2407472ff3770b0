"""Plays a story over the package websockets.

Usage: story.py URL STORY, where STORY is a JSON list of steps, each a list of a word, the connection that it is about,
and perhaps a text. It prints what comes on each connection where the story waits for it.
"""
from __future__ import annotations

import asyncio
import json
import sys

from websockets.client import WebSocketClientProtocol, connect
from websockets.exceptions import ConnectionClosed


async def next_of(socket: WebSocketClientProtocol) -> str:
    """The next text, or how the connection ended: cleanly, where a close went both ways."""
    try:
        return str(await socket.recv())
    except ConnectionClosed as end:
        is_clean = end.rcvd is not None and end.sent is not None
        return f"close {end.rcvd and end.rcvd.code} {'clean' if is_clean else 'unclean'}"


async def tell(url: str, story: list[list[str]]) -> None:
    """Plays the story."""
    sockets = {}
    for word, who, *text in story:
        if word == "open":
            sockets[who] = await connect(url)
        elif word == "say":
            await sockets[who].send(*text)
        elif word == "binary":
            await sockets[who].send(b"\x00\xff")
        elif word == "close":
            await sockets[who].close(1000)
        elif word == "ping":
            await (await sockets[who].ping())
            print(who, "pong")
        else:
            print(who, await next_of(sockets[who]))


asyncio.run(tell(sys.argv[1], json.loads(sys.argv[2])))
