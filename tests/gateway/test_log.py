"""What each line of the log says of its batch: its number, its client and its trace; and lines as JSON."""

import json
import re
import signal

import pytest

from support.servers import CONTINUE, repeatable

IDS = "4bf92f3577b34da6a3ce929d0e0e4736", "0af7651916cd43dd8448eb211c80319c"
TRACES = [f"00-{id}-00f067aa0ba902b7-01" for id in IDS]


def lines_of(text):
    return [json.loads(line) for line in text.splitlines()]


def test_lines_as_json(upstream, running):
    """All of them, also the first one, and what other packages log."""
    service = upstream()
    it = running("--upstream", service.url, "--log", "requests", "--log-format", "json")
    it.statuses({"url": "x?secret=1"}, {"url": "y", "headers": {"X-Other": "1"}})
    lines = lines_of(it.stop(signal.SIGTERM)[1])
    assert all(re.fullmatch(r"[-\d]{10}T[:\d]{8}Z", line.pop("time")) for line in lines)
    request, warning, batch, *ends = sorted(lines, key=lambda line: ("batch" in line, "message" in line) if "number" in line else (2,))
    first = {"number": 1, "from": "127.0.0.1"}
    assert 0 <= float(request.pop("ms")) and 0 < batch.pop("bytes") and 0 <= float(batch.pop("ms"))
    assert request == {**first, "request": "r0", "method": "GET", "url": f"{service.url}/odata/x", "status": 200}
    assert warning.pop("message").startswith("requests of batches have the header x-other")
    assert warning == {"level": "warning", **first}
    assert batch == {**first, "batch": "/odata/$batch", "method": "POST", "status": 200, "sent": 1, "failed": 0}
    assert ends == [{"gateway": "stopping", "batches": 0, "requests": 0}, {"gateway": "stopped", "batches": 0, "requests": 0}]


def test_a_reason_as_json(upstream, running):
    it = running("--upstream", upstream().url, "--log-format", "json")
    assert it.statuses({"method": "post", "url": "gzip"}) == [502]
    (line,) = [line for line in lines_of(it.stop(signal.SIGTERM)[1]) if "reason" in line]
    assert (line["code"], line["reason"], line["number"]) == ("Encoded", "answer", 1) and "gzip" in line["error"]


def test_the_first_line_as_json_says_where_it_listens(upstream, running):
    it = running("--upstream", upstream().url, "--log", "none", "--log-format", "json")
    assert it.ask("GET", "/health")[0] == 200
    assert it.stop(signal.SIGTERM) == (0, "")


def test_a_trace_is_passed_on_and_is_in_each_line(upstream, running):
    service = upstream()
    it = running("--upstream", service.url, "--log", "requests")
    it.statuses({"url": "x"}, {"url": "y", "headers": {"traceparent": TRACES[1]}}, headers={**CONTINUE, "traceparent": TRACES[0]})
    it.statuses({"url": "z"}, headers={**CONTINUE, "traceparent": "no trace"})
    assert {seen.path[-1]: seen.headers["traceparent"] for seen in service.seen} == {"x": TRACES[0], "y": TRACES[1], "z": "no trace"}
    lines = [line.split() for line in it.stop(signal.SIGTERM)[1].splitlines() if " number=" in line]
    traces = {_name(line): _trace(line) for line in lines}
    assert traces == {("1", "r0"): IDS[0], ("1", "r1"): IDS[1], ("1", ""): IDS[0], ("2", "r0"): "", ("2", ""): ""}


def _words(line):
    return dict(word.partition("=")[::2] for word in line[1:])


def _name(line):
    return _words(line)["number"], _words(line).get("request", "")


def _trace(line):
    return _words(line).get("trace", "")


@pytest.mark.parametrize("name, value, shown", [("X-Client", "ada b", "ada%20b"), ("Authorization", "Basic c2VjcmV0", "")])
def test_a_client_is_named_unless_that_is_a_credential(upstream, running, tmp_path, name, value, shown):
    it = running("--upstream", upstream().url, "--log", "requests", "--journal", str(tmp_path), "--client-header", name)
    assert it.statuses({"url": "x"}, headers={**CONTINUE, **repeatable("x"), name: value}) == [200]
    text = it.stop(signal.SIGTERM)[1]
    lines = [_words(line.split()) for line in text.splitlines() if " number=" in line]
    assert [line.get("client", "") for line in lines] == [shown] * 2 and "c2VjcmV0" not in text


def test_the_reason_for_a_group_whose_answer_is_no_response(upstream, running):
    from aiohttp import web

    service = upstream(lambda seen: web.Response(body=b"{}", content_type="application/json"))
    it = running("--upstream", service.url, "--groups", "forward")
    post = {"method": "post", "url": "A", "atomicityGroup": "g"}
    assert it.statuses(post, post) == [502, 502]
    assert f"service={service.url} code=BadResponse reason=no-response" in it.stop(signal.SIGTERM)[1]
