"""Batches over HTTP: what a middleware or a gateway of your own has around :func:`odb_batch.perform_async`.

>>> from odb_batch.http import BatchRequest, BodyBudget, batch_response
>>> headers = {"content-type": "application/json", "prefer": "continue-on-error", "authorization": "Bearer x"}
>>> request = BatchRequest("POST", "https", "example.org", "/odata/", "/odata/", headers)
>>> request.mode, request.base, request.headers.for_request({"if-match": "*"})
('continue', 'https://example.org/odata/', {'authorization': 'Bearer x', 'if-match': '*'})
>>> batch_response(b'{"responses":[]}', request.mode).status
200

:class:`BodyBudget` bounds the bodies of the answers to one batch, and :class:`MemoryBudget` those of a process.
"""

from .batch_request import BatchRequest, HeaderPolicy, Preference, batch_folder, forwarded_hosts, preferences
from .budget import BodyBudget, BodyReader, MemoryBudget
from .observation import OnRequest
from .responses import batch_response, error_response, length_refusal, wire_message

__all__ = [
    "BatchRequest", "BodyBudget", "BodyReader", "HeaderPolicy", "MemoryBudget", "OnRequest", "Preference", "batch_folder",
    "batch_response", "error_response", "forwarded_hosts", "length_refusal", "preferences", "wire_message",
]  # fmt: skip
