"""What a batch is answered as a whole: its response, or an error."""

import json

from .._native.calls import Mode
from ..errors.faults import Fault
from .messages import Answer, Refusal


def length_refusal(size: int) -> Refusal:
    """Returns the refusal of a batch that has more bytes than this."""
    return Refusal(413, "TooLong", f"A batch may have {size} bytes")


def error_response(error: Exception) -> Answer:
    """Returns the answer to a batch that is refused: that of a Refusal, or 400 with the message of a Fault."""
    if isinstance(error, Refusal):
        return error.answer
    if not isinstance(error, Fault):
        raise error
    return Refusal(400, error.code, error.message, error.place).answer


def batch_response(response: bytes, mode: Mode) -> Answer:
    """Returns the answer to a batch that was performed (OData Protocol 4.01, section 11.7.7)."""
    headers = {"content-type": "application/json", "odata-version": "4.01"}
    if mode == "continue":
        headers["preference-applied"] = "continue-on-error"
    return Answer(200, headers, response)


def wire_message(answer: Answer) -> tuple[dict[str, str], bytes]:
    """Returns the headers and the body of an answer as they go over the wire."""
    body = answer.body if isinstance(answer.body, bytes) else json.dumps(answer.body).encode()
    version = {"odata-version": "4.01"}
    return {**version, **answer.headers, "content-length": str(len(body))}, body
