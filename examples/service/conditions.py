"""The conditions under which a client wants its request performed: preconditions, and what it can read."""

import re
from typing import Mapping, Optional

from odb_batch import Answer, Refusal

# An entity tag, and a list of them (RFC 9110, section 8.8.3).
TAG = re.compile(r'(W/)?("[!#-~\x80-\xff]*")')
TAGS = re.compile(rf"[ \t,]*(?:{TAG.pattern}[ \t,]*)*")


def unmet_precondition(method: str, headers: Mapping[str, str], tag: Optional[str]) -> Optional[Answer]:
    """What a request is answered whose If-Match or If-None-Match does not hold (RFC 9110, section 13.2.2), or None.

    Args:
        method: Of a request that nothing else forbids.
        headers: By their names in lower case.
        tag: The ETag of what its URL names, a strong one, or None for an entity set.
    """
    required, excluded = headers.get("if-match"), headers.get("if-none-match")
    if required is not None and not _has_tag("If-Match", required, tag, is_weak=False):
        return Refusal(412, "PreconditionFailed", "If-Match does not have the current ETag").answer
    if excluded is None or not _has_tag("If-None-Match", excluded, tag, is_weak=True):
        return None
    if method == "GET":
        return Answer(304, {"etag": tag} if tag else {})
    return Refusal(412, "PreconditionFailed", "If-None-Match has the current ETag, or is *").answer


def _has_tag(name: str, value: str, tag: Optional[str], is_weak: bool) -> bool:
    """Whether the value of a header is * or lists the tag. The weak comparison counts weak tags, too."""
    if value == "*":
        return True
    if not TAGS.fullmatch(value):
        raise Refusal(400, "BadETag", f"{name} must be * or a list of ETags in quotes, not {value[:80]!r}")
    return any(text == tag and (is_weak or not weak) for weak, text in TAG.findall(value))


def require_readable(headers: Mapping[str, str]) -> None:
    """Refuses a client that cannot read the one format of the answers, which is OData 4.01 in JSON.

    A client of OData 4.0 is not refused: it finds the version in the answer.
    """
    version = headers.get("odata-maxversion", "4.01")
    if not re.fullmatch(r"[0-9]{1,3}(\.[0-9]{1,3})?", version) or float(version) < 4:
        raise Refusal(400, "BadVersion", f"The service answers in OData 4.01, not in {version[:80]!r}")
    if not _accepts_json(headers.get("accept", "") or "*/*"):
        raise Refusal(406, "NotAcceptable", "The service answers in application/json")


def _accepts_json(accept: str) -> bool:
    """Whether the closest range of an Accept header that JSON is in has a weight (RFC 9110, section 12.5.1)."""
    weights = {"*/*": "0"}
    for part in accept.lower().split(","):
        kind, *parameters = (it.strip() for it in part.split(";"))
        weights[kind] = next((it[2:] for it in parameters if it.startswith("q=")), "1")
    closest = next(it for it in ("application/json", "application/*", "*/*") if it in weights)
    return weights[closest].strip("0.") != ""
