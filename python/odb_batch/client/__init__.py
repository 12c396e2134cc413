"""Makes batches by calls, sends them by any client of HTTP, and reads what each request was answered.

>>> from odb_batch.client import Batch
>>> batch = Batch()
>>> order = batch.post("Orders", {"Customer": "ada"})
>>> line = batch.post(f"{order}/Lines", {"Article": 7})
>>> batch.check()
Counts(requests=2, groups=0)
>>> def post(document):
...     return 200, {}, b'{"responses": [{"id": "1", "status": 201, "body": {"Id": 5}}, {"id": "2", "status": 409}]}'
>>> results = batch.send(post)
>>> results[order].json()["Id"], results[line].status
(5, 409)

What a service has not performed for now, as it had no capacity, is a batch again: :meth:`Results.rest`. A
:class:`BatchClient` over requests or httpx, or an :class:`AsyncBatchClient`, waits and sends it by itself.
"""

import warnings
from typing import Any

from ._batch import Batch, BatchFailed, Post, PostAsync, Results, batch_headers
from ._builder import Group, Reference
from ._client import AsyncBatchClient, BatchClient
from ._results import RequestFailed, Result
from ._transports import HttpResponse, Posted

__all__ = [
    "AsyncBatchClient", "Batch", "BatchClient", "BatchFailed", "Group", "HttpResponse", "Post", "PostAsync", "Posted",
    "Reference", "RequestFailed", "Result", "Results", "batch_headers",
]  # fmt: skip


def __getattr__(name: str) -> Any:
    """Returns what an old name stands for in this version."""
    if name == "headers":
        warnings.warn("odb_batch.client.headers is batch_headers now", DeprecationWarning, stacklevel=2)
        return batch_headers
    raise AttributeError(f"module {__name__!r} has no attribute {name!r}")
