"""Services that would hold the gateway up, or take its memory: heads and bodies without an end, slow ones, very many headers."""

import asyncio
import contextlib
import time

import pytest

from support.servers import SECONDS, until

# A defect has some of them wait for ever.
pytestmark = pytest.mark.seconds(150)

OK = b"HTTP/1.1 201 Created\r\n"
JSON_TYPE = b"Content-Type: application/json\r\n"


@pytest.fixture
def odd(loop):
    """Makes services that answer by a function of a writer."""

    def start(answer):
        seen = []

        async def serve(reader, writer):
            with contextlib.suppress(ConnectionError, asyncio.IncompleteReadError):
                seen.append(await reader.readuntil(b"\r\n\r\n"))
                await answer(writer)
            writer.close()

        return f"http://127.0.0.1:{loop.listen(serve)}", seen

    return start


def again(part, pause=0.0, before=b""):
    """Writes a part again and again, after what comes before."""

    async def answer(writer):
        writer.write(before)
        while True:
            writer.write(part)
            await writer.drain()
            await asyncio.sleep(pause)

    return answer


def once(text):
    async def answer(writer):
        writer.write(text)
        await writer.drain()

    return answer


CHUNKED = OK + b"Transfer-Encoding: chunked\r\n\r\n"


@pytest.mark.parametrize("answer", [
    again(b"X-Name: a value\r\n", 0.01, OK),
    again(b"HTTP/1.1 100 Continue\r\n\r\n", 0.01),
    again(b"H", 0.05),
    again(b"x", 0.05, OK + b"Content-Length: 1000000\r\n\r\n"),
    again(b"1\r\nx\r\n", 0.05, CHUNKED),
    again(b"X-Name: a value\r\n", 0.01, CHUNKED + b"0\r\n"),
], ids=["headers", "100 Continue", "a status", "a body", "chunks", "trailers"])  # fmt: skip
def test_an_answer_that_comes_slowly_ends_with_the_time(odd, front, answer):
    """However often something comes; other requests go on meanwhile."""
    it = front("--upstream", odd(answer)[0], "--timeout", "1")
    began = time.monotonic()
    assert {*it.statuses(*[{"method": "post", "url": "x"}] * 3)} <= {502, 504}
    assert time.monotonic() - began < SECONDS / 4
    until(lambda: "odb_gateway_memory_used 0\n" in it.metrics())


@pytest.mark.parametrize("line", [
    b"Location: /odata/" + b"a" * 1_000_000, b"X-Name: " + b"a" * 1_000_000, b"a" * 1_000_000 + b": x",
    b"Location: /odata/a\rb", b"Location: /odata/a\x00b", b"X-Name", b": x", b" folded: x",
], ids=lambda line: repr(line[:20]))  # fmt: skip
def test_a_head_that_no_service_has_is_no_answer(odd, front, line):
    """Or its headers lead nowhere: what refers to it is not sent."""
    url, seen = odd(once(OK + JSON_TYPE + line + b"\r\nContent-Length: 2\r\n\r\n{}"))
    first, second = front("--upstream", url).statuses(
        {"method": "post", "url": "x"}, {"method": "get", "url": "$r0/y", "dependsOn": ["r0"]}
    )
    assert (first, second) in [(502, 424), (201, 404), (201, 424)] and len(seen) == 1


def test_ten_thousand_cookies_take_no_time(odd, front):
    """They are refused, or joined at once: one after another that would take the time of their number in square."""
    cookies = b"Set-Cookie: name=" + b"x" * 1_000 + b"\r\n"
    url, _ = odd(once(OK + JSON_TYPE + cookies * 10_000 + b"Content-Length: 2\r\n\r\n{}"))
    it = front("--upstream", url)
    began = time.process_time()
    found = it.batch({"method": "post", "url": "x"})["r0"]
    assert found["status"] in (201, 502) and "set-cookie" not in found["headers"]
    assert time.process_time() - began < 5
