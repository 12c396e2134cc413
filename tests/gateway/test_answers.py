"""Answers of services that are odd, but can be read: bytes in headers, headers that come twice, codings, statuses; and
the reasons in the log for those that do not come.
"""

import gzip
import itertools
import json
import random
import re
import subprocess
import zlib

import pytest

from support.servers import CONTINUE, SECONDS, free_port

BODY = b'{"a":9.990}'


@pytest.fixture
def raw(loop):
    """Makes services that answer by bytes."""
    from support.gateways import Raw

    def start(*lines, status=201, body=BODY):
        head = [b"HTTP/1.1 %d x" % status, b"Content-Type: application/json", b"Content-Length: %d" % len(body), *lines]
        return Raw(loop, b"\r\n".join([*head, b"Connection: close", b"", body]))

    return start


def path_of(head):
    return head.split(b" ")[1]


def test_a_byte_of_latin_1_keeps_the_body_and_the_other_headers(raw, front):
    service = raw(b"Location: /u/Books(1)", b"X-Name: caf\xe9", "X-Text: ü".encode())
    it = front("--upstream", service.url)
    first, second = '{"id":"a","method":"post","url":"X"}', '{"id":"b","method":"get","url":"$a/L","dependsOn":["a"]}'
    document = f'{{"requests":[{first},{second}]}}'
    status, _, text = it.ask("POST", "/u/$batch", document, CONTINUE)
    assert status == 200 and b'"body":{"a":9.990}' in text
    headers = json.loads(text)["responses"][0]["headers"]
    assert (headers["location"], headers["x-name"], headers["x-text"]) == ("/u/Books(1)", "café", "ü")
    assert path_of(service.seen[1]) == b"/u/Books(1)/L"


def test_a_location_of_latin_1_can_be_referred_to(raw, front):
    service = raw(b"Location: /odata/caf\xe9")
    found = front("--upstream", service.url).statuses(
        {"method": "post", "url": "X"}, {"method": "get", "url": "$r0", "dependsOn": ["r0"]}
    )
    assert found == [201, 201] and path_of(service.seen[1]) == b"/odata/caf%C3%A9"


@pytest.mark.parametrize("status", [101, 99, 600, 999])
def test_a_status_that_is_not_final(raw, front, status):
    found = front("--upstream", raw(status=status).url).batch({"method": "post", "url": "x"})["r0"]
    assert (found["status"], found["body"]["error"]["code"]) == (502, "BadGateway")


@pytest.mark.parametrize("lines, statuses", [
    ([b"Location: /odata/a", b"Location: /odata/b"], [201, 424, 201]),
    ([b"Location: /odata/a", b"location: /odata/a"], [201, 201, 201]),
    ([b"Location: /odata/a", b'ETag: "1"', b'ETag: "2"'], [201, 201, 424]),
    ([b"Location: /odata/a", b'ETag: "1"', b'ETag: "1"'], [201, 201, 201]),
], ids=str)  # fmt: skip
def test_headers_that_come_twice_are_not_joined(raw, front, lines, statuses):
    """Two different ones are both dropped, so what refers to them is not sent."""
    usual = [] if any(b"ETag" in line for line in lines) else [b'ETag: "1"']
    service = raw(*lines, *usual)
    found = front("--upstream", service.url).batch(
        {"method": "post", "url": "X"},
        {"method": "get", "url": "$r0/n", "dependsOn": ["r0"]},
        {"method": "delete", "url": "x", "headers": {"If-Match": "$r0"}, "dependsOn": ["r0"]},
    )
    assert [it["status"] for it in found.values()] == statuses
    assert not any(b"," in path_of(head) or b'"1", "' in head for head in service.seen)


# Codings


def compressed(kind, text):
    if kind == "raw":
        stream = zlib.compressobj(wbits=-15)
        return stream.compress(text) + stream.flush()
    return {"gzip": gzip.compress, "x-gzip": gzip.compress, "deflate": zlib.compress}[kind](text)


LONG = json.dumps(random.Random(1).choices("abcdefgh", k=100_000)).encode()


@pytest.mark.parametrize("body", [BODY, LONG], ids=["short", "long"])
@pytest.mark.parametrize("kind", ["gzip", "x-gzip", "deflate", "raw"])
def test_an_answer_that_is_compressed_is_read(raw, front, kind, body):
    coding = "deflate" if kind == "raw" else kind
    service = raw(f"Content-Encoding: {coding}".encode(), body=compressed(kind, body))
    (found,) = front("--upstream", service.url).batch({"method": "post", "url": "x"}).values()
    assert (found["status"], found["body"]) == (201, json.loads(body))
    assert "content-encoding" not in found["headers"]


def test_several_members_of_gzip_are_one_body(raw, front):
    from odb_batch.gateway._decoding import Decoder

    body = gzip.compress(b'{"a":') + gzip.compress(b"1}")
    assert b"".join(itertools.islice(Decoder("gzip").decode(body), 9)) == b'{"a":1}'  # a gateway would stand still over a defect
    service = raw(b"Content-Encoding: gzip", body=body)
    assert front("--upstream", service.url).batch({"method": "post", "url": "x"})["r0"]["body"] == {"a": 1}


@pytest.mark.parametrize("coding, body", [
    ("gzip", b"no"), ("gzip", gzip.compress(LONG)[:-9]), ("gzip", gzip.compress(BODY) + b"x"), ("deflate", b"no"),
    ("br", BODY), ("gzip, gzip", gzip.compress(gzip.compress(BODY))),
], ids=range(6))  # fmt: skip
def test_an_answer_that_cannot_be_read(raw, front, coding, body):
    service = raw(f"Content-Encoding: {coding}".encode(), body=body)
    found = front("--upstream", service.url).batch({"method": "post", "url": "x"})["r0"]
    assert (found["status"], found["body"]["error"]["code"]) == (502, "Encoded")


@pytest.mark.parametrize("method, status", [("get", 507), ("post", 201)])
def test_a_short_answer_that_stands_for_a_long_one(raw, front, method, status):
    """It is not unpacked beyond what the answers to a batch may have."""
    service = raw(b"Content-Encoding: gzip", body=gzip.compress(b'"%s"' % (b"x" * 50_000_000)))
    found = front("--upstream", service.url, "--max-size", "100000").batch({"method": method, "url": "x"})["r0"]
    assert (found["status"], found.get("body", {}).get("error", {}).get("code")) == (
        (507, "TooLong") if method == "get" else (201, None)
    )


def test_a_decoder_makes_little_at_once():
    pytest.importorskip("aiohttp")
    from odb_batch.gateway._decoding import Decoder

    parts = Decoder("gzip").decode(gzip.compress(b"x" * 10_000_000))
    assert [len(next(parts)) for _ in range(9)] == [65_536] * 9
    assert len(b"".join(Decoder("deflate").decode(zlib.compress(b"x" * 10_000_000)))) == 10_000_000


# Reasons


def lines_with(text, word):
    return [line for line in text.splitlines() if word in line]


@pytest.mark.parametrize("kind, code, reason", [
    ("refused", "Unreachable", "refused"), ("dns", "Unreachable", "dns"), ("tls", "Unreachable", "tls"),
    ("hang", "Timeout", "timeout"), ("hang-up", "BadGateway", "cut"), ("gzip", "Encoded", "answer"),
])  # fmt: skip
def test_the_log_says_why_there_is_no_answer(upstream, running, kind, code, reason):
    service = upstream()
    urls = {"refused": f"http://127.0.0.1:{free_port()}", "dns": "http://name.invalid", "tls": service.url.replace("http:", "https:")}
    it = running("--upstream", urls.get(kind, service.url), "--timeout", "2" if kind == "hang" else "15")
    asked = [{"method": "post", "url": "x" if kind in urls else kind}] * 3
    assert set(it.statuses(*asked)) <= {502, 503, 504}
    _, text = it.stop(15)
    first, *more = lines_with(text, " reason=")
    service = urls.get(kind, service.url)
    assert re.match(rf"\S+Z service={re.escape(service)} code={code} reason={reason} error=\S+ number=1 from=127.0.0.1$", first), first
    assert len(more) < 3


@pytest.mark.needs("openssl")
def test_a_wrong_certificate_is_named(loop, running, tmp_path):
    """Nothing is sent to a service that cannot show who it is."""
    import ssl

    key, certificate, seen = str(tmp_path / "key"), str(tmp_path / "certificate"), []
    words = ["openssl", "req", "-x509", "-newkey", "rsa:2048", "-nodes", "-keyout", key, "-out", certificate]
    subprocess.run([*words, "-subj", "/CN=localhost"], check=True, capture_output=True, timeout=SECONDS)
    context = ssl.SSLContext(ssl.PROTOCOL_TLS_SERVER)
    context.load_cert_chain(certificate, key)

    async def note(reader, writer):
        seen.append(await reader.read())

    it = running("--upstream", f"https://localhost:{loop.listen(note, ssl=context)}")
    assert it.statuses({"method": "post", "url": "x"}) == [503]
    assert " code=Unreachable reason=certificate " in it.stop(15)[1] and seen == []


def test_reasons_that_have_a_word(aiohttp):
    from aiohttp import ClientConnectorError, ClientResponseError, ServerDisconnectedError

    from odb_batch.gateway._failures import failure_reason

    errors = ClientConnectorError(None, OSError(113, "No route to host")), ClientResponseError(None, ()), ServerDisconnectedError()
    assert [failure_reason(error) for error in errors] == ["unreachable", "not-http", "cut"]


def test_reasons_are_said_once_a_second(logged, monkeypatch):
    from odb_batch.gateway import _failures

    now, failures = [7.0], _failures.FailureLog()
    monkeypatch.setattr(_failures.time, "monotonic", lambda: now[0])
    for seconds in (0, 0.2, 0.9, 1.1):
        now[0] = 7.0 + seconds
        failures.write("http://a/x", "Timeout", "timeout")
    failures.write("http://b/x", "Timeout", "timeout")
    usual = "code=Timeout reason=timeout"
    assert logged() == [f"service=http://a {usual}", f"service=http://a {usual} more=2", f"service=http://b {usual}"]
