"""A WebSocket by aiohttp."""
from __future__ import annotations

import asyncio
import socket
import sys
from typing import AsyncIterator, Callable, Mapping, Optional

import aiohttp

from .addresses import address_of

# What can go wrong with a connection.
FAULTS = (OSError, asyncio.TimeoutError, aiohttp.ClientError)

# Where Linux has, in its `struct tcp_info`, how many milliseconds ago data came.
LAST_DATA = slice(52, 56)


def tracing(connected: Callable[[], object]) -> aiohttp.TraceConfig:
    """Has aiohttp call a function when there is a connection."""

    async def note(*_: object) -> None:
        connected()

    config = aiohttp.TraceConfig()
    config.on_connection_create_end.append(note)
    return config


class Socket:
    """A connection to a room."""

    def __init__(self, session: aiohttp.ClientSession, stream: aiohttp.ClientWebSocketResponse) -> None:
        self.session, self.stream = session, stream

    @classmethod
    async def open(
        cls,
        url: str,
        headers: Optional[Mapping[str, str]] = None,
        connected: Callable[[], object] = lambda: None,
    ) -> Socket:
        """Connects, with these headers in the handshake. As soon as there is a connection, before the server answers
        it, calls `connected`.

        It raises one of FAULTS, or ValueError for a bad address.
        """
        plain, login = address_of(url)
        auth = aiohttp.BasicAuth(*login, encoding="utf-8") if login else None
        session = aiohttp.ClientSession(
            timeout=aiohttp.ClientTimeout(total=None), trust_env=True, trace_configs=[tracing(connected)]
        )
        try:
            return cls(
                session, await session.ws_connect(plain, auth=auth, headers=headers, max_msg_size=0, autoclose=True)
            )
        except BaseException:
            await session.close()
            raise

    async def send(self, text: str) -> None:
        """Sends a text, once the system takes it."""
        await self.stream.send_str(text)

    async def texts(self) -> AsyncIterator[str]:
        """The texts that come, until the connection ends."""
        while True:
            message = await self.stream.receive()
            if message.type is not aiohttp.WSMsgType.TEXT:
                return
            yield message.data

    def silence(self) -> Optional[float]:
        """For how many seconds no byte came, if the system says so. A long text is no silence while its bytes come."""
        connection = self.stream.get_extra_info("socket")
        try:
            info = connection.getsockopt(socket.IPPROTO_TCP, socket.TCP_INFO, LAST_DATA.stop)
        except (AttributeError, OSError):
            return None
        return int.from_bytes(info[LAST_DATA], sys.byteorder) / 1000 if len(info) == LAST_DATA.stop else None

    async def close(self, seconds: float = 1) -> None:
        """Closes, and waits up to `seconds` for the answer."""
        try:
            await asyncio.wait_for(self.stream.close(), seconds)
        except FAULTS:
            pass
        self.drop()
        await self.session.close()

    def drop(self) -> None:
        """Drops the connection, also if the other side has stopped reading."""
        connection = self.stream.get_extra_info("socket")
        try:
            connection.shutdown(socket.SHUT_RDWR)
        except (AttributeError, OSError):
            pass
