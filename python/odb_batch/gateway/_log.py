"""The lines of the log on standard error: the time, the batch, and names with their values, as words or as JSON."""

import json
import logging
import re
import time
from contextvars import ContextVar
from typing import Mapping
from urllib.parse import quote

from ..http.messages import LOG

#: What each line says of the batch that is on its way: its number in this process, its client and its trace.
BATCH: "ContextVar[dict[str, object]]" = ContextVar("batch", default={})
#: Writes a line for each batch at INFO, and for each request at DEBUG.
LINES = LOG.getChild("gateway")
# What a value has as it is: printable ASCII but a space.
_LOGGED = "".join(map(chr, range(0x21, 0x7F)))
_TRACE = re.compile("[0-9a-f]{2}-([0-9a-f]{32})-[0-9a-f]{16}-[0-9a-f]{2}(-.*)?").fullmatch


def trace_id(headers: Mapping[str, str]) -> str:
    """Returns the id of the trace that a request belongs to (W3C Trace Context); empty if it names none."""
    match = _TRACE(headers.get("traceparent", ""))
    return match[1] if match else ""


def log_line(values: dict[str, object], level: int = logging.INFO) -> None:
    """Writes a line of names with their values; what is empty is left out. Lines about requests have the level DEBUG."""
    LINES.log(level, values)


class _Formatter(logging.Formatter):
    """Writes lines as JSON, or as words in which all that could end one is escaped as in a URL."""

    def __init__(self, is_json: bool, worker: object) -> None:
        super().__init__()
        self._is_json, self._worker = is_json, worker

    def format(self, record: logging.LogRecord) -> str:
        moment = time.strftime("%Y-%m-%dT%H:%M:%SZ", time.gmtime(record.created))
        given: object = record.msg
        own: dict[str, object] = given if isinstance(given, dict) else {"level": record.levelname.lower()}
        values = {**own, **BATCH.get(), "worker": self._worker, **own}
        values = {name: value for name, value in values.items() if value != ""}
        message = "" if own is given else super().format(record)
        if self._is_json:
            values = {"time": moment, **values, **({"message": message} if message else {})}
            return json.dumps(values, default=str)
        words = (f"{name}={quote(str(value), _LOGGED, errors='surrogateescape')}" for name, value in values.items())
        return " ".join(filter(None, (moment, *words, message)))


def log_to_stderr(lines: str, is_json: bool = False, worker: object = "") -> None:
    """Writes what this process logs to standard error from now on, in place of what an earlier call has said.

    Args:
        lines: The option --log.
        is_json: Whether lines are JSON.
        worker: The number of the process, if it is one of several.
    """
    handler = logging.StreamHandler()
    handler.setFormatter(_Formatter(is_json, worker))
    root = logging.getLogger()
    others = [other for other in root.handlers if not isinstance(other.formatter, _Formatter)]
    root.handlers = [*others, handler]
    LINES.setLevel({"none": logging.WARNING, "batches": logging.INFO, "requests": logging.DEBUG}[lines])
