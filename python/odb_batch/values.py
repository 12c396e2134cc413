"""What all public values have in common: they are frozen, and a later version may add attributes to them."""

import warnings
from dataclasses import fields, replace
from typing import Any, Iterator, TypeVar

_Self = TypeVar("_Self", bound="Value")


class Value:
    """The base of public values, each a frozen dataclass.

    They were tuples. In this version they can still be unpacked, and have ``_replace``; both warn of it.
    """

    def __iter__(self) -> Iterator[Any]:
        _warn(f"{type(self).__name__} is no tuple any more: read its attributes")
        return iter([getattr(self, field.name) for field in fields(self)])

    def _replace(self: _Self, **changes: Any) -> _Self:
        _warn("use dataclasses.replace in place of _replace")
        return replace(self, **changes)


def _warn(message: str) -> None:
    warnings.warn(message, DeprecationWarning, stacklevel=3)
