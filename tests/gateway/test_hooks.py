"""The hook around each request to a service: what it sees, what it may change, and that its failures are its own."""

import re
import sys

import pytest

from odb_batch.gateway._options import options_of
from support.servers import CONTINUE

HOOKS = """
from odb_batch import Refusal

seen = []

def on_request(request):
    if "denied" in request.url:
        raise Refusal(403, "Denied", "not here")
    if "broken" in request.url:
        raise RuntimeError("no span")
    request.headers["x-span"] = request.id
    seen.append((request.id, request.method, request.url))
    return lambda answer: seen.append((request.id, answer.status))

def fails_after(request):
    return 1 / 0 if "post" in request.url else lambda answer: 1 / 0

constant = 7
"""


@pytest.fixture
def hooks(tmp_path, monkeypatch):
    """The module `hooks`, made anew."""
    (tmp_path / "hooks.py").write_text(HOOKS)
    monkeypatch.syspath_prepend(tmp_path)
    monkeypatch.delitem(sys.modules, "hooks", raising=False)
    import hooks

    yield hooks
    del sys.modules["hooks"]


def test_a_hook_is_called_with_what_is_sent_and_with_its_answer(upstream, front, hooks):
    service = upstream()
    it = front("--upstream", f"{service.url}/odata/", "--width", "1", "--on-request", "hooks:on_request")
    assert it.statuses({"url": "x?a=1"}, {"url": "missing"}, headers=CONTINUE) == [200, 404]
    url = f"{service.url}/odata"
    assert hooks.seen == [("r0", "GET", f"{url}/x?a=1"), ("r0", 200), ("r1", "GET", f"{url}/missing"), ("r1", 404)]
    assert [seen.headers["x-span"] for seen in service.seen] == ["r0", "r1"]


def test_a_hook_is_called_with_a_group_as_its_service_gets_it(upstream, front, hooks):
    it = front("--upstream", f"{upstream().url}/odata/", "--groups", "forward", "--on-request", "hooks:on_request")
    it.statuses({"method": "post", "url": "A", "atomicityGroup": "g"})
    assert hooks.seen[0][:2] == ("g", "POST") and hooks.seen[0][2].endswith("/odata/$batch") and len(hooks.seen) == 2


@pytest.mark.parametrize("url, words, status", [("hang", ["--timeout", "0.05"], 504), ("gzip", [], 502)])
def test_a_hook_is_called_with_what_the_gateway_answers_itself(upstream, front, hooks, url, words, status):
    it = front("--upstream", f"{upstream().url}/odata/", "--on-request", "hooks:on_request", *words)
    assert it.statuses({"url": url}) == [status] and hooks.seen[1:] == [("r0", status)]


def test_what_a_hook_raises_before_a_request_is_its_answer(upstream, front, hooks):
    service = upstream()
    it = front("--upstream", f"{service.url}/odata/", "--on-request", "hooks:on_request")
    assert it.statuses({"url": "denied"}, {"url": "broken"}, headers=CONTINUE) == [403, 500]
    assert service.seen == [] and hooks.seen == []


def test_what_a_hook_raises_after_a_request_changes_nothing(upstream, front, hooks, caplog):
    it = front("--upstream", f"{upstream().url}/odata/", "--on-request", "hooks:fails_after")
    assert it.statuses({"url": "x"}) == [200]
    assert "the hook after a request failed" in caplog.text


@pytest.mark.parametrize("text, line", [
    ("hooks", "'hooks': AttributeError"), ("nowhere:f", "'nowhere:f': ModuleNotFoundError"), ("hooks:f", "'hooks:f': AttributeError"),
    (":f", "':f': ValueError"), ("hooks:constant", "'hooks:constant' is not MODULE:NAME of a function, such as tracing:on_request"),
])  # fmt: skip
def test_what_is_no_hook(hooks, capsys, text, line):
    with pytest.raises(SystemExit, match="2"):
        options_of(["--upstream", "http://a/", "--on-request", text])
    assert re.search(f"error: argument --on-request: {line}", capsys.readouterr().err)
