"""The text of journals: the first line names the batch. Each other one has some events, after which the bodies of their
reports come as they are.
"""

import hashlib
import json
from itertools import groupby
from typing import Any, Sequence

from ..documents.encoding import Report, Start
from ..driver.journal import JournalEvent, ReportUnit, StartUnit, Stop
from ..http.messages import rejection
from ._stores import Part

_ENCODER = json.JSONEncoder(separators=(",", ":"))
#: A text with as many bytes goes on in the next part: a longer one is kept in pieces, between which others have their turn.
PIECE = 262_144
_DAMAGED = "the journal of the batch is damaged"


def identity(**parts: str) -> bytes:
    """Returns the first line of a journal: what a batch has to have in common with one that is sent again."""
    return json.dumps({"form": 4, **parts}, sort_keys=True).encode() + b"\n"


def digest(*texts: bytes) -> str:
    """Returns a name for some texts that others do not have."""
    return hashlib.sha256(b"".join(b"%d:%s" % (len(text), text) for text in texts)).hexdigest()


def join_texts(parts: Sequence[Part]) -> bytes:
    """Returns what parts keep, without what a writer has broken off; raises ValueError if one is missing."""
    if [part.number for part in parts] != [*range(len(parts))]:
        raise ValueError("a part of the batch is missing")
    whole: list[bytes] = []
    for _, written in groupby(parts, key=lambda part: part.mark):
        texts = [part.text for part in written]
        while texts and len(texts[-1]) == PIECE:
            texts.pop()
        whole += texts
    return b"".join(whole)


def encode_events(events: Sequence[JournalEvent]) -> list[bytes]:
    """Returns the text of some events: their line, and the bodies of their reports, which are not copied."""
    reports = [reports_of(event) for event in events]
    line = _ENCODER.encode([_members(event, its) for event, its in zip(events, reports)])
    bodies = [report.body for its in reports for report in its if report.body is not None]
    return [line.encode(), b"\n", *bodies]


def _members(event: JournalEvent, reports: Sequence[Report]) -> dict[str, Any]:
    """Returns what a line has of an event with these reports."""
    if isinstance(event, (Start, StartUnit)):
        return {"start": event.id if isinstance(event, Start) else event.ids}
    if isinstance(event, Stop):
        return {"stop": True}
    heads = [
        (report.id, report.status, dict(report.headers or {}), None if report.body is None else len(report.body))
        for report in reports
    ]
    return {"report" if isinstance(event, Report) else "unit": heads}


def reports_of(event: JournalEvent) -> Sequence[Report]:
    """Returns the reports that an event has."""
    return event.reports if isinstance(event, ReportUnit) else (event,) if isinstance(event, Report) else ()


def decode_batch(first: bytes, text: bytes) -> list[JournalEvent]:
    """Returns the events of a batch; raises Refusal if it has another first line (422), or ValueError if it is damaged."""
    if not text.startswith(first):
        if not text.startswith(b"{"):
            raise ValueError(_DAMAGED)
        raise rejection(422, "AnotherBatch", "The Repeatability-Request-ID is that of another batch")
    return decode_events(text, len(first))


def decode_events(text: bytes, at: int = 0) -> list[JournalEvent]:
    """Returns the events of a text from a place on; raises ValueError if it is damaged."""
    events: list[JournalEvent] = []
    try:
        while at < len(text):
            end = text.index(b"\n", at) + 1
            line, at = json.loads(text[at:end]), end
            if not line:
                raise ValueError
            for members in line:
                event, at = _decode_event(members, text, at)
                events.append(event)
    except (ValueError, KeyError, TypeError, RecursionError):
        raise ValueError(_DAMAGED) from None
    return events


def _decode_event(members: dict[str, Any], text: bytes, at: int) -> tuple[JournalEvent, int]:
    """Returns an event whose bodies begin at a place of the text, and the place after them."""
    if "start" in members:
        start = members["start"]
        return Start(start) if isinstance(start, str) else StartUnit(tuple(map(str, start))), at
    if "stop" in members:
        return Stop(), at
    reports: list[Report] = []
    is_unit = "unit" in members
    for request_id, status, headers, size in members["unit" if is_unit else "report"]:
        if size is not None and not 0 <= size <= len(text) - at:
            raise ValueError
        reports.append(Report(str(request_id), status, headers, None if size is None else text[at : at + size]))
        at += size or 0
    if is_unit:
        return ReportUnit(tuple(reports)), at
    [report] = reports
    return report, at
