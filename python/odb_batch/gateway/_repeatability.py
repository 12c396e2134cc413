"""Batches that may be sent again: the headers of OASIS Repeatable Requests Version 1.0."""

import time
from email.utils import format_datetime, parsedate_to_datetime
from typing import Callable, Mapping, Optional

from ..http.messages import rejection
from ._options import Options

ID, FIRST_SENT = "repeatability-request-id", "repeatability-first-sent"
#: By how many seconds the clock of a client may be ahead. Journals are kept so much longer.
AHEAD = 300.0


def http_date_seconds(date: str) -> Optional[float]:
    """Returns the seconds since 1970 of an IMF-fixdate (RFC 9110, section 5.6.7); None if it is not one."""
    try:
        moment = parsedate_to_datetime(date)
        return moment.timestamp() if format_datetime(moment, usegmt=True) == date else None
    except (IndexError, OverflowError, TypeError, ValueError):
        return None


class Repeatability:
    """Reads the headers by which a batch may be sent again.

    Args:
        options: Whether there is a journal, how long batches are kept, and what says who a client is.
        now: The seconds since 1970.
    """

    def __init__(self, options: Options, now: Callable[[], float] = time.time) -> None:
        self._options, self._now = options, now

    def read(self, headers: Mapping[str, str]) -> Optional[bytes]:
        """Returns by which name a batch may be sent again: who its client is, and the id; None if the headers do not ask
        for it.

        Raises:
            Refusal: There is no journal (501). The id, the date or the client is missing or none (400). The batch would
                not be kept any more, so it may have been performed (412).
        """
        request_id, date = headers.get(ID), headers.get(FIRST_SENT)
        if request_id is None and date is None:
            return None
        if not request_id:
            raise rejection(400, "BadRepeatability", "Repeatability-First-Sent needs a Repeatability-Request-ID")
        if not self._options.journal:
            raise rejection(501, "NotRepeatable", "There is no journal here, so a batch cannot be repeated")
        self._require_kept(date or "")
        client = self._client(headers).encode()
        return b"%d:%s%s" % (len(client), client, request_id.encode())

    def _require_kept(self, date: str) -> None:
        moment = http_date_seconds(date)
        if moment is None:
            message = "Repeatability-First-Sent must be a date of HTTP, as Sun, 06 Nov 1994 08:49:37 GMT"
            raise rejection(400, "BadFirstSent", message)
        age = self._now() - moment
        if age < -AHEAD:
            raise rejection(400, "BadFirstSent", "Repeatability-First-Sent is in the future")
        if age > self._options.keep:
            raise rejection(412, "TooLate", "The batch was first sent so long ago that it may have been forgotten")

    def _client(self, headers: Mapping[str, str]) -> str:
        """Returns who sends a batch; the same for all if there is one client."""
        name = self._options.client_header
        if not name:
            return ""
        value = headers.get(name, "")
        if not value:
            raise rejection(400, "NoClient", f"The header {name}, which says who the client is, is missing")
        if name == "authorization" and value.partition(" ")[0].lower() != "basic":
            raise rejection(400, "NoClient", "Authorization says who the client is only by Basic: a token is renewed")
        return value
