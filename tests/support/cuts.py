"""A network that can be cut: what is on its way then comes later, or never."""

import asyncio
import contextlib


class Cut:
    """Forwards connections to a port of the loopback, but nothing while `is_cut`; used by `async with`."""

    def __init__(self, port):
        self.to, self.is_cut, self.tasks = port, False, set()

    async def __aenter__(self):
        self.server = await asyncio.start_server(self._both, "127.0.0.1", 0)
        self.port = self.server.sockets[0].getsockname()[1]
        return self

    async def __aexit__(self, *error):
        self.server.close()
        for task in self.tasks:
            task.cancel()
        await asyncio.gather(*self.tasks, return_exceptions=True)

    async def _both(self, reader, writer):
        self.tasks.add(asyncio.current_task())
        with contextlib.suppress(OSError):
            other, to_other = await asyncio.open_connection("127.0.0.1", self.to)
            await asyncio.gather(self._one(reader, to_other), self._one(other, writer))
        writer.close()

    async def _one(self, reader, writer):
        with contextlib.suppress(OSError):
            while data := await reader.read(65_536):
                await self._waits()
                writer.write(data)
                await writer.drain()
        await self._waits()
        writer.close()

    async def _waits(self):
        while self.is_cut:
            await asyncio.sleep(0.01)
