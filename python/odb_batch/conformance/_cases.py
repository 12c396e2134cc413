"""All cases: each writes one batch that shows whether a service keeps a promise."""

import fnmatch
from typing import Sequence

from . import _again, _conditions, _headers, _identifiers, _members, _references
from ._alone import alone
from ._failures import failing_beside, failing_groups, failing_long_groups, needing_each, one_failure
from ._flows import FLOWS, longest_batches
from ._promises import Case
from ._stops import stops
from ._values import values
from ._waits import waits

# How many requests the longest batch has if nobody says.
REQUESTS = 100


def all_cases(requests: int) -> list[Case]:
    """All cases, in the order in which they are run; `requests` is how many the longest batch has."""
    return [
        *FLOWS,
        *alone(),
        *values(),
        *_headers.CASES,
        *_members.CASES,
        *waits(),
        *_again.CASES,
        *_identifiers.CASES,
        *_references.CASES,
        *_conditions.CASES,
        *one_failure("missing"),
        *needing_each("missing"),
        *failing_groups(),
        *failing_beside(),
        *stops(),
        *longest_batches(requests),
        *failing_long_groups(requests),
    ]


def cases_like(globs: Sequence[str], requests: int) -> list[Case]:
    """The cases of which the name fits one of some globs, in the order in which they are run."""
    return [case for case in all_cases(requests) if any(fnmatch.fnmatchcase(case.name, glob) for glob in globs)]


def conformance_cases(glob: str = "*") -> list[str]:
    """Returns the names of the cases that fit a pattern, as ``"group-*"``, in the order in which the tool runs them.

    Raises:
        ValueError: No case has such a name.
    """
    found = [case.name for case in cases_like([glob], REQUESTS)]
    if not found:
        raise ValueError(f"no case has a name like {glob!r}")
    return found
