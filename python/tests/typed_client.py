"""Calls of the client and of the test bench, for mypy --strict, as those of typed.py."""

from typing import Dict, List, Tuple

from odb_batch import Answer
from odb_batch.client import (
    AsyncBatchClient, Batch, BatchClient, BatchFailed, Group, Reference, RequestFailed, Result, Results, batch_headers,
)  # fmt: skip
from odb_batch.testing import Scripted, batches, events, faulty_batches, outcomes


def post(document: bytes) -> Tuple[int, Dict[str, str], bytes]:
    return 200, batch_headers("stop"), document


class Response:
    """A response of a client of HTTP."""

    status_code = 200
    content = b""

    @property
    def headers(self) -> Dict[str, str]:
        return {}


def post_response(document: bytes) -> Response:
    return Response()


async def post_async(document: bytes) -> Answer:
    return Answer(429)


def check_building() -> Batch:
    batch = Batch()
    order: Reference = batch.post("Orders", {"Customer": "ada"}, headers={"Prefer": "return=minimal"})
    with batch.group() as paid:
        group: Group = paid
        batch.patch(order, b"{}", headers={"If-Match": order}, after=[group, order, "3"])
    batch.get(f"{order}/Lines", after=paid, id="lines")
    batch.get("Orders", {})  # type: ignore[misc]
    batch.post("Orders", after=7)  # type: ignore[arg-type]
    batch.headers = {}  # type: ignore[attr-defined]
    return batch


def check_sending(batch: Batch) -> List[int]:
    results: Results = batch.send(post, limit=20, mode="stop")
    batch.send(post_response)
    batch.send(post_async)  # type: ignore[arg-type]
    batch.send(post, mode="half")  # type: ignore[arg-type]
    try:
        first: Result = results["1"].raise_for_status()
        text: bytes = first.body
    except RequestFailed as error:
        text = error.result.body
    wait: float = results.retry_after
    rest: Batch = results.rest()
    return [len(rest), int(wait), len(text), *(it.status for it in results.values())]


async def check_sending_async(batch: Batch) -> Results:
    await batch.send_async(post)  # type: ignore[arg-type]
    return await batch.send_async(Scripted({"1": [429, Answer(200)]}, limit=20, mode="stop", schedule=[503]).post_async)


class Order:
    def __init__(self, members: Dict[str, int]) -> None:
        self.id = members["Id"]


def check_client(batch: Batch) -> List[str]:
    with BatchClient(Response(), "https://host/odata/", headers={"X-Own": "1"}, attempts=5, deadline=60) as client:
        results: Results = client.send(batch, limit=20, mode="stop")
    client.send(batch, limits=20)  # type: ignore[call-arg]
    BatchClient(Response(), retries=5)  # type: ignore[call-arg]
    try:
        order: Order = results.raise_for_status()["1"].json(Order)
        plain = results["1"].json(parse_float=str)["Id"]
        return [results.reason, str(order.id), str(plain), *(it.operation for it in results.left + results.unknown)]
    except BatchFailed as failed:
        return [error.result.id for error in failed.errors] + [str(len(failed.results.failed))]


async def check_async_client(batch: Batch) -> int:
    async with AsyncBatchClient(Scripted(schedule=[429, "lose"], repeatable=True).post_async) as client:
        await client.send(batch, mode="half")  # type: ignore[arg-type]
        return len((await client.send(batch, limit=20)).done)


Scripted(schedule=["lost"])  # type: ignore[list-item]
Scripted({"a": "200"})  # type: ignore[dict-item]
drawn = batches(max_requests=20, groups=False).flatmap(lambda batch: events(batch, mode="stop"))
outcomes({"requests": []})
position: int = faulty_batches().example()[2]
