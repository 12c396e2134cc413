"""For tests of what makes, sends or performs batches: random documents for hypothesis, and a service that is scripted.

>>> from odb_batch.client import Batch
>>> from odb_batch.testing import Scripted
>>> batch, service = Batch(), Scripted({"line": [429, 201]}, retry_after=7)
>>> order = batch.post("Orders", {"Customer": "ada"})
>>> line = batch.post(f"{order}/Lines", {"Article": 7}, id="line")
>>> results = batch.send(service.post)
>>> results[order].status, results[line].status, results.retry_after
(201, 429, 7.0)
>>> results.rest().send(service.post)[line].status
201

:func:`batches`, :func:`faulty_batches`, :func:`outcomes` and :func:`events` are strategies of hypothesis, which this
module needs: the extra ``testing`` of the package.
"""

from ._events import events
from ._faulty import faulty_batches
from ._scripted import Scripted
from ._strategies import batches, outcomes

__all__ = ["Scripted", "batches", "events", "faulty_batches", "outcomes"]
