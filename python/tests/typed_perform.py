"""Calls of what performs batches, for mypy --strict, as those of typed.py."""

from contextlib import asynccontextmanager, contextmanager, nullcontext
from typing import Any, AsyncIterator, Callable, Dict, Iterable, Iterator, List, Sequence, Tuple

from odb_batch import (
    Answer,
    JournalEvent,
    PreparedGroup,
    PreparedRequest,
    Refusal,
    Report,
    Start,
    asgi,
    perform,
    perform_async,
    wsgi,
)
from odb_batch.journals import Journals, Store, identity, store_of


def send(request: PreparedRequest) -> Tuple[int, Dict[str, str], bytes]:
    if request.group is not None:
        raise Refusal(503, "Busy", "try again", retry_after="1")
    return 200, request.headers, request.body


def answer(request: PreparedRequest) -> Answer:
    return Answer(200, body={"of": request.url}) if request.method == "GET" else Answer(204)


def status(request: PreparedRequest) -> Tuple[int]:
    return (200,)


async def send_async(request: PreparedRequest) -> Answer:
    return answer(request)


async def send_group(group: PreparedGroup) -> List[Answer]:
    return group.answers(Answer(200, {}, group.batch()))


class Kept:
    """A journal."""

    events: Sequence[JournalEvent] = (Start("a"), Report("a", 200))

    def write(self, event: JournalEvent) -> None:
        pass

    async def sync(self) -> None:
        pass


class NotKept:
    """No journal: its sync does not wait."""

    events: Sequence[JournalEvent] = ()

    def write(self, event: JournalEvent) -> None:
        pass

    def sync(self) -> None:
        pass


@contextmanager
def group(name: str) -> Iterator[None]:
    yield


@asynccontextmanager
async def group_async(name: str) -> AsyncIterator[None]:
    yield


def application(environ: Dict[str, Any], start_response: Callable[..., Any]) -> Iterable[bytes]:
    return [b""]


async def asynchronous(scope: Any, receive: Any, send: Any) -> None:
    return None


def check_perform() -> List[bytes]:
    one: bytes = perform("", send, mode="stop", width=2, transaction=group, base="https://h/", roots=["https://h/"])
    perform({}, send_async)  # type: ignore[arg-type]
    perform({}, send, mode="half")  # type: ignore[arg-type]
    perform({}, send, transaction=group_async)  # type: ignore[arg-type]
    return [one, perform(b"", answer, stop=lambda: False), perform(b"", status, transaction=lambda name: nullcontext())]


async def check_perform_async() -> bytes:
    await perform_async({}, send)  # type: ignore[arg-type]
    await perform_async({}, send_async, transaction=group, timeout=5)
    await perform_async({}, send_async, groups=send_group, journal=Kept())
    await perform_async({}, send_async, groups=send_async)  # type: ignore[arg-type]
    await perform_async({}, send_async, journal=NotKept())  # type: ignore[arg-type]
    return await perform_async({}, send_async, transaction=group_async, width=4)


answering: Callable[..., Iterable[bytes]] = wsgi.BatchMiddleware(application, "/$batch", transaction=group, width=4)
asgi.BatchMiddleware(asynchronous, "/$batch", transaction=group_async, allowed=["x-dry-run"])
asgi.BatchMiddleware(asynchronous, "/$batch", transaction=send)  # type: ignore[arg-type]
wsgi.BatchMiddleware(application, "/$batch", transaction=group_async)  # type: ignore[arg-type]
asgi.BatchMiddleware(asynchronous, "/$batch", on_request=lambda request: None)
wsgi.BatchMiddleware(application, "/$batch", on_request=lambda request: lambda answer: print(request.url, answer.status))
wsgi.BatchMiddleware(application, "/$batch", on_request=print, inspect=print)
wsgi.BatchMiddleware(application, "/$batch", on_request=lambda request: request.url)  # type: ignore[arg-type,return-value]


async def in_a_store(batch: bytes, store: Store) -> bytes:
    journals = Journals(store if batch else store_of("/var/lib/odb"), keep=60)
    await journals.open()
    async with journals.journal(b"x", identity(batch="1")) as journal:
        return await perform_async(batch, send_async, groups=send_group, journal=journal)
