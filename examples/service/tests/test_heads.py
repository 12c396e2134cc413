"""Heads by which a body could be read as a further request."""

import pytest

from common import BATCH_URL
from exchanges import ClientTest

INNER = b"DELETE /library/Books('emma') HTTP/1.1\r\nHost: here\r\n\r\n"
LENGTH = b"Content-Length: %d" % len(INNER)


class TestHeads(ClientTest):
    @pytest.mark.parametrize("lines", [
        b"no colon\r\n" + LENGTH,
        LENGTH.replace(b":", b" :"),
        LENGTH.replace(b":", b"\t:"),
        b": no name\r\n" + LENGTH,
        LENGTH + b"\r\nContent-Length: 0",
        LENGTH + b"\r\nTransfer-Encoding: chunked",
        LENGTH.replace(b": ", b": +"),
    ])  # fmt: skip
    def test_reads_no_body_as_a_request(self, lines):
        first = b"POST %s HTTP/1.1\r\nHost: here\r\nContent-Type: application/json\r\n" % BATCH_URL.encode()
        found = self.exchange(first + lines + b"\r\n\r\n" + INNER)
        self.assert_answers(found, 400)
        assert found.count(b"HTTP/1.1 ") == 1, found
        assert self.client.ask("GET", "/library/Books('emma')")[0] == 200
