"""What the library says of itself: limits, and names of headers and ids that are treated apart."""

import json
import sys
from typing import Any

from . import library

# A guess of how long the text is.
_LONG = 4096
# Without a library, as for the help of a command, there is nothing.
_CONSTANTS: Any = json.loads(library.call("odb_constants", (), (), _LONG)[1]) if library.MISSING is None else {}


def limit(name: str) -> int:
    """Returns a limit of the constants; without a library, a number above it."""
    found: int = _CONSTANTS.get("limits", {}).get(name, sys.maxsize)
    return found


def listed_names(*path: str) -> tuple[str, ...]:
    """Returns the names in a list of the constants, which is at a member, or at one of an object there."""
    found = _CONSTANTS
    for member in path:
        found = found.get(member, {})
    return tuple(found)
