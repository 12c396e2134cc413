"""JSON whose numbers keep their digits, so that 9.990 is not taken for 9.99."""

import json
from decimal import Decimal
from typing import Any, Mapping


class Number(float):
    """A number with a fraction or an exponent. It equals each number of its value; `text` has its digits."""

    __slots__ = ("text",)
    text: str

    def __new__(cls, text: str) -> "Number":
        found = super().__new__(cls, text)
        found.text = text
        return found

    def __repr__(self) -> str:
        return self.text

    __str__ = __repr__


def value_of(text: Any) -> Any:
    """Returns the value of a document of JSON.

    Raises:
        ValueError, RecursionError: It is not JSON, or nests too deep.
    """
    return json.loads(text, parse_float=Number)


def text_of(value: Any, is_ascii: bool = True) -> str:
    """Returns the JSON of a value, with other characters than those of ASCII escaped or as they are."""
    if isinstance(value, (Number, Decimal)):
        return str(value)
    if isinstance(value, Mapping):
        members = (f"{text_of(str(name), is_ascii)}: {text_of(part, is_ascii)}" for name, part in value.items())
        return "{%s}" % ", ".join(members)
    if isinstance(value, (list, tuple)):
        return "[%s]" % ", ".join(text_of(part, is_ascii) for part in value)
    return json.dumps(value, ensure_ascii=is_ascii)
