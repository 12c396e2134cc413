"""The options that middlewares have in common, as they are checked."""

from typing import Iterable, Optional

from .batch_request import batch_folder, is_of_connection


def require_seconds(name: str, seconds: Optional[float]) -> Optional[float]:
    """Returns the value of an option that is a number of seconds, or None; raises ValueError if it is not above 0."""
    if seconds is not None and not seconds > 0:
        raise ValueError(f"{name} must be above 0, or None, not {seconds!r}")
    return seconds


def root_path(root: Optional[str], path: str) -> str:
    """Returns the path that each URL has to begin with; raises ValueError if it or the path of batches is not one."""
    if not path.startswith("/"):
        raise ValueError(f"the path must begin with /, not {path!r}")
    if root is not None and not (root.startswith("/") and root.endswith("/")):
        raise ValueError(f"the root must begin and end with /, not {root!r}")
    return batch_folder(path) if root is None else root


def allowed_names(names: Iterable[str]) -> tuple[str, ...]:
    """Returns the names of the headers that an option allows, in lower case; raises ValueError if no request may have one."""
    found = tuple(map(str.lower, names))
    for name in filter(is_of_connection, found):
        raise ValueError(f"allowed: no request of a batch may have the header {name}")
    return found
