"""Numbers on the command lines of the package, as argparse reads them."""

import argparse
import re
from typing import Callable, Optional


def require(is_right: object, text: str, what: str) -> None:
    """Raises what argparse takes if a text is not what it has to be."""
    if not is_right:
        raise argparse.ArgumentTypeError(f"{text!r} is not {what}")


def whole_number(most: int) -> Callable[[str], int]:
    """Returns what reads a whole number from 1 to another one."""

    def read(text: str) -> int:
        is_whole = re.fullmatch(r"[0-9]{1,10}", text) is not None and 1 <= int(text) <= most
        require(is_whole, text, f"a whole number from 1 to {most}")
        return int(text)

    return read


def seconds(most: Optional[int] = None) -> Callable[[str], float]:
    """Returns what reads a number of seconds above 0, and not above another one, if there is one."""

    def read(text: str) -> float:
        is_number = re.fullmatch(r"[0-9]{1,9}(\.[0-9]+)?", text) is not None and 0 < float(text) <= (most or float(text))
        require(is_number, text, f"a number of seconds {'above 0' if most is None else f'up to {most}'}")
        return float(text)

    return read
