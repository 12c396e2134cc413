"""Bodies of answers without their coding."""

import zlib
from typing import Any, Iterator

from ..http.messages import Refusal

# The formats of zlib: gzip, and deflate with its frame and without.
_GZIP, _ZLIB, _RAW = 31, 15, -15
# How many bytes are made of a part at once.
_MOST = 65_536


class Decoder:
    """Takes the coding off a body, part by part.

    Args:
        coding: The value of ``Content-Encoding``.

    Raises:
        Refusal: The coding is unknown: 502 ``Encoded``.
    """

    def __init__(self, coding: str) -> None:
        self._coding = coding.strip().lower()
        self._stream: Any = None
        if self._coding not in ("gzip", "x-gzip", "deflate"):
            raise self._refusal()

    def _refusal(self) -> Refusal:
        return Refusal(502, "Encoded", f"The service has compressed its answer by {self._coding}: it cannot be read")

    def decode(self, part: bytes) -> Iterator[bytes]:
        """Yields what a part of the body stands for, in parts that are not long, however long it is together.

        Raises:
            Refusal: It is not of the coding: 502 ``Encoded``.
        """
        while part:
            if self._stream is None or self._stream.eof:  # a body of gzip may have several members
                self._stream = zlib.decompressobj(self._format(part[0]))
            try:
                decoded = self._stream.decompress(part, _MOST)
            except zlib.error:
                raise self._refusal() from None
            part = self._stream.unconsumed_tail or self._stream.unused_data
            yield decoded

    def _format(self, first: int) -> int:
        """Returns the format of a body by its first byte: some servers send deflate without the frame of zlib."""
        if self._coding != "deflate":
            return _GZIP
        return _ZLIB if first % 16 == zlib.DEFLATED else _RAW

    def require_end(self) -> None:
        """Raises Refusal, as `decode` does, if the body was cut."""
        if self._stream is None or not self._stream.eof:
            raise self._refusal()
