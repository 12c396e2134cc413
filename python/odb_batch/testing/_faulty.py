"""A strategy for batches that are refused."""

import copy
from typing import Any, Callable, Optional

from hypothesis import assume
from hypothesis import strategies as st
from hypothesis.strategies import DrawFn

from ._strategies import RESERVED, Json, batches

Requests = list[Json]

# What no batch has as a name.
_NOBODY = "nobody"


def _sets(**members: Any) -> Callable[[Requests, int], Optional[int]]:
    """A change that sets members of a request."""

    def change(requests: Requests, at: int) -> Optional[int]:
        requests[at].update(copy.deepcopy(members))
        return at

    return change


def _lists(name: Callable[[Json], Any]) -> Callable[[Requests, int], Optional[int]]:
    """A change that has a request depend on a name, if there is one."""

    def change(requests: Requests, at: int) -> Optional[int]:
        found = name(requests[at])
        if found is None:
            return None
        requests[at]["dependsOn"] = [*(requests[at].get("dependsOn") or []), found]
        return at

    return change


def _replaces(requests: Requests, at: int) -> Optional[int]:
    requests[at] = 7  # type: ignore[call-overload]
    return at


def _repeats(requests: Requests, at: int) -> Optional[int]:
    requests.append(copy.deepcopy(requests[at]))
    return len(requests) - 1


def _takes_name(requests: Requests, at: int) -> Optional[int]:
    """Gives a request the name of a group."""
    groups = [request["atomicityGroup"] for request in requests if request.get("atomicityGroup") is not None]
    if not groups:
        return None
    requests[at]["id"] = groups[0]
    return at


def _splits(requests: Requests, at: int) -> Optional[int]:
    """Lets a group come again after what follows it."""
    group = requests[at].get("atomicityGroup")
    if group is None:
        return None
    between = {"id": "between", "method": "get", "url": "Books"}
    again = {"id": "again", "method": "get", "url": "Books", "atomicityGroup": group}
    requests += [between, again]
    return len(requests) - 1


def _leaves_out(requests: Requests, at: int) -> Optional[int]:
    """Has a later request depend on a member of a group, and not on the group."""
    if requests[at].get("atomicityGroup") is None:
        return None
    requests.append({"id": "later", "method": "get", "url": "Books", "dependsOn": [requests[at]["id"]]})
    return len(requests) - 1


def _refers(requests: Requests, at: int, is_later: bool) -> Optional[int]:
    """Has a request refer to a later one, or to an earlier one that it does not depend on."""
    own = {"id": "refers", "method": "get", "url": f"${requests[at]['id']}/Pages"}
    if requests[at]["id"] in RESERVED:
        return None
    if not is_later:
        requests.append(own)
        return len(requests) - 1
    requests.insert(0, own)
    return 0


#: The changes that break a rule, by the code of the fault. Each takes the requests of a batch and the position of one,
#: and returns the position of the fault; None if the batch has not what the change needs.
CHANGES: dict[str, Callable[[Requests, int], Optional[int]]] = {
    "F10": _replaces,
    "F11": _sets(**{"if": "true"}),
    "F12": _sets(when=1),
    "F13": _sets(id="a b"),
    "F14": _sets(method="head"),
    "F15": _sets(url=7),
    "F16": _sets(atomicityGroup=""),
    "F17": _sets(dependsOn="a"),
    "F18": _sets(headers=[]),
    "F19": _sets(headers={"ETag": "1", "etag": "2"}, body=None),
    "F20": _sets(method="get", body={}),
    "F21": _sets(method="post", headers={"content-type": "text/plain"}, body=7),
    "F22": _sets(url="/odata/$batch"),
    "F23": _sets(url="$a(1)/Pages"),
    "F30": _repeats,
    "F31": _takes_name,
    "F32": _splits,
    "F40": _lists(lambda _: _NOBODY),
    "F41": _lists(lambda request: request["id"]),
    "F42": _lists(lambda request: request.get("atomicityGroup")),
    "F43": _leaves_out,
    "F44": _sets(url=f"${_NOBODY}/Pages"),
    "F45": lambda requests, at: _refers(requests, at, is_later=True),
    "F46": lambda requests, at: _refers(requests, at, is_later=False),
}


@st.composite
def faulty_batches(draw: DrawFn, *, max_requests: int = 8) -> tuple[Json, str, int]:
    """Returns a strategy for batches that are refused: with the code of the fault, F10 to F46, and the position of the
    request that has it.

    Args:
        max_requests: How many requests a batch has at most, before one or two are added that break a rule.
    """
    batch = draw(batches(min_requests=1, max_requests=max_requests))
    code = draw(st.sampled_from(sorted(CHANGES)))
    position = CHANGES[code](batch["requests"], draw(st.integers(0, len(batch["requests"]) - 1)))
    assume(position is not None)
    assert position is not None
    return batch, code, position
