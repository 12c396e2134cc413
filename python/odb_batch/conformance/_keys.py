"""The keys of entities: which a service may take, and how they are written in a URL."""

import itertools
import secrets
import uuid
from functools import partial
from typing import Any, Callable, Iterator
from urllib.parse import quote

# What ends a key with characters that a URL escapes; the second is for a service that takes the first.
ODD_ENDS = ("%4A \u00c4B", "%4A \u00c4B'c+d")
# Where keys are looked for that a service does not give: far above those that it counts.
FAR = (2_000_000_000, 30_000)
# Keys that a service may take, and None for one that makes its own: each is tried in turn.
KEYS: tuple[Callable[[], Any], ...] = (
    lambda: f"conformance-{secrets.token_hex(6)}",
    lambda: str(uuid.uuid4()),
    lambda: secrets.randbelow(2_000_000_000),
    lambda: None,
)


def keys_far_from(key: Any) -> Iterator[Callable[[], Any]]:
    """Ways to make keys of the kind of one that a service has given, and that it does not give next."""
    if isinstance(key, int):
        for far in FAR:
            yield partial(next, itertools.count(far - secrets.randbelow(1_000), -7))
    else:
        yield from (KEYS[1], KEYS[0])


def literals(value: Any) -> Iterator[str]:
    """How a value may be written in the path of a URL, where + is itself."""
    if isinstance(value, str):
        yield quote("'" + value.replace("'", "''") + "'", safe="'+")
    yield quote(str(value), safe="")
