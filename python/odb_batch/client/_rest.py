"""The rest of a batch: what failed for now or was skipped, and may be sent again."""

import json
from typing import Mapping

from .. import commands
from ..documents.requests import Request, requests
from ..driver.references import CONDITIONS
from ..errors.faults import Fault

# The headers that were recorded for each request, by its id; their names are in lower case.
_Recorded = Mapping[str, Mapping[str, str]]


def rest_document(batch: bytes, responses: bytes) -> bytes:
    """Returns the batch that :func:`odb_batch.rest` does.

    Args:
        batch: The batch.
        responses: The responses to it, which record the Location and the ETag of what others refer to, by names in lower
            case.

    Raises:
        Fault: A document is refused, or the responses do not fit the batch.
        ValueError: A request refers to one that was answered without an ETag, or without a Location that the URL of a
            request may have.
        MemoryError: An allocation failed.
    """
    try:
        return commands.rest(batch, responses)
    except Fault as fault:
        if fault.code not in ("F90", "F91"):
            raise
        request = requests(batch)[int(fault.place.rpartition("/")[2])]
        recorded = {response["id"]: response.get("headers", {}) for response in json.loads(responses)["responses"]}
        describe = _describe_missing_place if fault.code == "F90" else _describe_missing_tag
        raise ValueError(describe(request, recorded)) from None


def without_headers(batch: bytes) -> bytes:
    """Returns a batch without headers and bodies: its rest has the same ids, and needs no ETag."""
    found = json.loads(batch, parse_int=str, parse_float=str)["requests"]
    left = [{name: value for name, value in members.items() if name not in ("headers", "body")} for members in found]
    return json.dumps({"requests": left}).encode()


def _describe_missing_place(request: Request, recorded: _Recorded) -> str:
    """Why the URL of a request of the rest cannot be replaced."""
    place = recorded[str(request.reference)].get("location")
    if place is None:
        return f"{request.id} refers to {request.reference}, which was answered without a Location"
    return f"{request.id} refers to {request.reference}, whose Location cannot be used: {place}{request.rest}"


def _describe_missing_tag(request: Request, recorded: _Recorded) -> str:
    """Why a condition of a request of the rest cannot be replaced."""
    values = [request.headers.get(name, "") for name in CONDITIONS]
    referred = [value[1:] for value in values if value.startswith("$")]
    other = next(name for name in referred if name in recorded and "etag" not in recorded[name])
    return f"{request.id} refers to {other}, which was answered without an ETag"
