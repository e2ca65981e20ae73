"""The verbs for asyncio. Each request is asked by a thread that belongs to its coprocessor or socket, so that requests take turns.

A task that is cancelled while its request is under way stops waiting, but the request goes on to its reply, which is dropped; the
next request waits until then. So no reply can be taken for that to another request.
"""
import asyncio
import os
from collections.abc import Callable
from concurrent.futures import ThreadPoolExecutor
from functools import partial
from types import TracebackType
from typing import Any, Self, TypeVar

from .async_verbs import AsyncVerbs
from .client import PATIENCE
from .coprocessor import Coprocessor, Socket
from .verbs import Verbs

T = TypeVar("T")


class Waiting(AsyncVerbs):
    """Verbs that are waited for. The thread that asks is that of `worker`."""

    def __init__(self, verbs: Verbs, worker: ThreadPoolExecutor):
        self.verbs, self.worker = verbs, worker

    async def run(self, call: Callable[..., T], *given: Any, **named: Any) -> T:
        return await asyncio.get_running_loop().run_in_executor(self.worker, partial(call, *given, **named))

    async def ask(self, request: str) -> str:
        """The reply to a request line."""
        return await self.run(self.verbs.ask, request)

    def as_role(self, role: str) -> "Waiting":
        """The same coprocessor, asked under another role."""
        return Waiting(self.verbs.as_role(role), self.worker)


class AsyncCoprocessor(Waiting):
    """Coprocessor for asyncio, with the same arguments: `async with AsyncCoprocessor("folder") as cca:`."""

    def __init__(
        self,
        folder: str | os.PathLike[str],
        audit: bool = False,
        *,
        role: str = "DEFAULT",
        program: str | os.PathLike[str] | None = None,
        patience: float = PATIENCE,
    ):
        self.coprocessor = Coprocessor(folder, audit, role=role, program=program, patience=patience)
        super().__init__(self.coprocessor, ThreadPoolExecutor(1))

    async def close(self) -> int:
        """Ends the input, at which cca ends: its exit status."""
        return await self.run(self.coprocessor.close)

    async def __aenter__(self) -> Self:
        return self

    async def __aexit__(self, kind: type[BaseException] | None, error: BaseException | None, trace: TracebackType | None) -> None:
        await self.close()
        self.worker.shutdown(wait=False)


class AsyncSocket(Waiting):
    """Socket for asyncio, with the same arguments: `async with AsyncSocket("teller.socket") as cca:`."""

    def __init__(self, path: str | os.PathLike[str], patience: float = PATIENCE):
        self.socket = Socket(path, patience)
        super().__init__(self.socket, ThreadPoolExecutor(1))

    async def close(self) -> None:
        """Ends the connection."""
        await self.run(self.socket.close)

    async def __aenter__(self) -> Self:
        return self

    async def __aexit__(self, kind: type[BaseException] | None, error: BaseException | None, trace: TracebackType | None) -> None:
        await self.close()
        self.worker.shutdown(wait=False)
