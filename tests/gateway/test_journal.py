"""Batches with a Repeatability-Request-ID, over both stores: ended at any event, damaged, sent at once, without a disk."""

import asyncio
import email.utils
import json
import re
import secrets
import threading
from collections import Counter
from concurrent.futures import ThreadPoolExecutor

import pytest

from odb_batch.gateway._repeatability import http_date_seconds
from odb_batch.journals import _encoding
from support.journals import count_at, plant, stop_renewing, text_at
from support.servers import CONTINUE, FIRST_SENT, JSON, SECONDS, repeatable, until

REQUESTS = [
    {"id": "a", "method": "post", "url": "A", "body": 1},
    {"id": "b", "method": "get", "url": "$a/B", "dependsOn": ["a"]},
    {"id": "c", "method": "get", "url": "C"},
    {"id": "d", "method": "post", "url": "D", "atomicityGroup": "g", "body": 1},
    {"id": "e", "method": "get", "url": "E", "atomicityGroup": "g"},
    {"id": "f", "method": "delete", "url": "F", "dependsOn": ["g", "b"]},
]
BATCH = json.dumps({"requests": REQUESTS})
# What is kept of a batch of the client ada.
NAME = b"3:ada%s"


@pytest.mark.parametrize("line", [
    b"{}\n", b"[]\n", b"x\n", b"[" * 100_000 + b"\n", b'[{"report":[["a",200]]}]\n', b'[{"start":7}]\n', b'[{"start":[]}]\n',
    b'[{"start":[7]}]\n', b'[{"start":[[]]}]\n', b'[{"report":[["a","200",{},null]]}]\n', b'[{"report":[["a",200,7,null]]}]\n',
    b'[{"report":[["a",200,{},-5]]}]\n', b'[{"report":[["a",200,{},9999999]]}]\n', b'[{"report":[]}]\n', b"{", b"[{}]\n",
    b'{"start":"a"}\n', b"7\n",
], ids=range(18))  # fmt: skip
def test_a_damaged_batch_is_not_gone_on_with(pair, place, line):
    service, ask = pair
    assert ask("x")[0] == 200
    text = text_at(place, NAME % b"x")
    count, at = len(service.seen), text.index(b"\n") + 1
    plant(place, NAME % b"y", text[:at] + line + text[at:])
    plant(place, NAME % b"z", line)
    for id in "yz":
        status, _, answer = ask(id)
        found = json.loads(answer)["error"]["code"]
        assert (status, found, len(service.seen)) in ((500, "BadJournal", count), (422, "AnotherBatch", count))
        assert id == "z" or found == "BadJournal"


@pytest.fixture
def pair(upstream, front, place):
    """A service that performs groups, and a function that sends it a batch through a gateway with a journal."""
    from aiohttp import web

    from support.gateways import usual

    def answer(seen):
        if not seen.path.endswith("/$batch"):
            return usual(seen)
        members = [{"id": it["id"], "status": 200, "atomicityGroup": "g"} for it in json.loads(seen.body)["requests"]]
        return web.Response(text=json.dumps({"responses": members}), content_type="application/json")

    service = upstream(answer)
    it = front(
        "--upstream", service.url, "--journal", place, "--groups", "forward", "--client-header", "X-Client"
    )  # fmt: skip

    def ask(id, batch=BATCH, path="/odata/$batch", **headers):
        named = {name.replace("_", "-"): value for name, value in headers.items()}
        return it.ask("POST", path, batch, {**CONTINUE, **repeatable(id), "X-Client": "ada", **named})

    ask.front = it
    return service, ask


def statuses(text):
    return {it["id"]: it["status"] for it in json.loads(text)["responses"]}


def test_a_finished_batch_is_answered_the_same(pair):
    service, ask = pair
    first = ask("x")
    assert (first[0], first[1]["repeatability-result"]) == (200, "accepted")
    count = len(service.seen)
    again = ask("x")
    assert (again[0], again[2], len(service.seen)) == (200, first[2], count)
    assert ask("y")[0] == 200 and len(service.seen) == 2 * count


def test_a_batch_goes_on_wherever_its_journal_ends(pair, place):
    service, ask = pair
    whole = ask("x")[2]
    text = text_at(place, NAME % b"x")
    first = text.index(b"\n") + 1
    events = _encoding.decode_events(text[first:])
    assert len(events) == 10
    texts = [text[:first]]
    for event in events:  # each alone, as if it had been synced
        texts.append(b"".join([texts[-1], *_encoding.encode_events([event])]))
    assert _encoding.decode_events(texts[-1][first:]) == events
    for count, kept in enumerate(texts):
        id = f"after {count}"
        plant(place, NAME % id.encode(), kept)
        out = set()
        for event in events[:count]:
            reports = getattr(event, "reports", (event,) if hasattr(event, "status") else ())
            out |= set() if reports else {event.id} if hasattr(event, "id") else set(event.ids)
            out -= {it.id for it in reports}
        started = {it for event in events[:count] for it in getattr(event, "ids", [getattr(event, "id", None)])}
        del service.seen[:]
        status, _, again = ask(id)
        found = statuses(again)
        lost = {id for id, status in found.items() if status == 500}
        assert (status, lost) == (200, out - {"b", "c"})
        sent = Counter(it.path for it in service.seen)
        assert set(sent.values()) <= {1}
        done = started - out | lost
        names = {"a": "/odata/A", "b": "/odata/A(1)/B", "c": "/odata/C", "d": "/odata/$batch", "f": "/odata/F"}
        assert not {names[id] for id in done if id in names} & sent.keys()
        assert lost or again == whole
        assert ask(id)[2] == again


@pytest.mark.parametrize("change", [
    {"batch": BATCH + " "}, {"Prefer": ""}, {"Prefer": "continue-on-error, return=minimal"}, {"path": "/other/$batch"},
    {"Repeatability_First_Sent": email.utils.formatdate(http_date_seconds(FIRST_SENT) - 7, usegmt=True)},
], ids=["batch", "prefer", "minimal", "path", "date"])  # fmt: skip
def test_another_batch_under_the_same_id(pair, change):
    service, ask = pair
    assert ask("x")[0] == 200
    count = len(service.seen)
    status, headers, text = ask("x", **change)
    assert (status, json.loads(text)["error"]["code"], len(service.seen)) == (422, "AnotherBatch", count)
    assert headers["repeatability-result"] == "rejected"


def test_a_token_that_was_renewed_is_not_another_batch(pair):
    service, ask = pair
    first = ask("x", Authorization="Bearer 1", Cookie="a=1")
    count = len(service.seen)
    again = ask("x", Authorization="Bearer 2", Cookie="a=2")
    assert (again[0], again[2], len(service.seen)) == (200, first[2], count)


def test_another_client_has_the_id_for_itself(pair):
    service, ask = pair
    assert ask("x")[0] == 200
    count = len(service.seen)
    assert ask("x", X_Client="bob", batch=BATCH + " ")[0] == 200
    assert len(service.seen) == 2 * count


def test_a_second_client_at_once(upstream, front, place):
    from support.gateways import waiting

    event = threading.Event()
    service = upstream(waiting(event))
    words = ["--upstream", service.url, "--journal", place, "--one-client"]
    fronts = [front(*words), front(*words)]
    batch = json.dumps({"requests": [{"id": "a", "method": "post", "url": "slow"}]})
    headers = {**CONTINUE, **repeatable("x")}
    with ThreadPoolExecutor(4) as clients:
        asked = [clients.submit(fronts[k % 2].ask, "POST", "/odata/$batch", batch, headers) for k in range(4)]
        until(lambda: sum(it.done() for it in asked) == 3)
        event.set()
        found = [it.result(SECONDS)[0] for it in asked]
    assert (sorted(found), len(service.seen)) == ([200, 409, 409, 409], 1)


@pytest.mark.parametrize("batch, headers, status", [
    ('{"requests": 7}', CONTINUE, 400), ("{}", {**CONTINUE, "Content-Type": "text/plain"}, 415), (BATCH, JSON, 501),
])  # fmt: skip
def test_what_is_refused_leaves_nothing(upstream, front, tmp_path, batch, headers, status):
    it = front("--upstream", upstream().url, "--journal", str(tmp_path), "--one-client")
    assert it.ask("POST", "/odata/$batch", batch, {**headers, **repeatable("x")})[0] == status
    assert count_at(tmp_path) == 0


def store_of(pair):
    """The store of the gateway that a pair has."""
    return pair[1].front.gateway._journals.store


def test_a_start_is_kept_before_it_is_sent(pair, monkeypatch):
    service, ask = pair
    store = store_of(pair)
    append, seen = store.append, []

    async def slow(parts):
        for name, path in ((b'"a"', "/odata/A"), (b'["d"', "/odata/$batch"), (b'"f"', "/odata/F")):
            if any(b'{"start":' + name in it.text for it in parts):
                seen.append((path, path in service.paths))
        await asyncio.sleep(0.02)
        return await append(parts)

    monkeypatch.setattr(store, "append", slow)
    assert ask("x")[0] == 200
    assert sorted(seen) == [("/odata/$batch", False), ("/odata/A", False), ("/odata/F", False)]


@pytest.mark.parametrize("at", range(1, 4))
def test_a_store_that_fails(pair, monkeypatch, at):
    """As on a full disk: nothing comes after that, and sent again the batch goes on."""
    service, ask = pair
    store = store_of(pair)
    append, calls = store.append, []

    async def failing(parts):
        calls.append(parts)
        if len(calls) == at:
            raise OSError(28, "No space left on device")
        return await append(parts)

    with monkeypatch.context() as patched:
        patched.setattr(store, "append", failing)
        status, headers, text = ask("x")
        wanted = (503, "NoJournal", "1") if at == 1 else (500, "BadJournal", None)
        assert (status, json.loads(text)["error"]["code"], headers.get("retry-after")) == wanted
        assert at > 1 or {it.path for it in service.seen} <= {"/odata/C"}
        until(lambda: not pair[1].front.gateway._journals._releases)
    status, _, text = ask("x")
    assert status == 200
    posts = Counter(it.path for it in service.seen if it.method != "GET")
    assert set(posts.values()) <= {1}
    assert set(statuses(text).values()) <= {200, 201, 500, 424}


def test_a_store_that_is_away(pair, monkeypatch):
    """503 before anything is sent; other batches are answered."""
    service, ask = pair
    store = store_of(pair)

    async def away(*given):
        raise ConnectionError("it is away")

    with monkeypatch.context() as patched:
        patched.setattr(store, "read", away)
        status, headers, text = ask("x")
        assert (status, json.loads(text)["error"]["code"], headers["retry-after"]) == (503, "NoJournal", "1")
        assert service.seen == []
        front = pair[1].front
        assert front.ask("POST", "/odata/$batch", BATCH, CONTINUE)[0] == 200
        assert 'faults_total{code="NoJournal"} 1' in front.metrics()
    assert ask("x")[0] == 200


def test_what_is_kept_says_no_more_than_it_has_to(pair, place):
    _, ask = pair
    id = "../" + secrets.token_hex(4)
    assert ask(id, Authorization="Basic c2VjcmV0")[0] == 200
    text = text_at(place, NAME % id.encode())
    assert b"c2VjcmV0" not in text and id.encode() not in text and b"/odata/A(1)" in text


def test_metrics_of_a_journal(pair):
    _, ask = pair
    assert ask("x")[0] == 200
    text = pair[1].front.metrics()
    values = dict(re.findall(r"(?m)^odb_gateway_journal_(\w+) (\S+)$", text))
    assert {"appends_total", "parts_total", "bytes_total", "seconds_total", "breaks_total", "refused_total", "lost_total"} <= set(values)
    assert 1 <= float(values["parts_total"]) <= 10 and float(values["bytes_total"]) > 500 and values["breaks_total"] == "0"


# Leases


@pytest.fixture
def late(upstream, front, schema):
    """A service, a gateway whose lease ends unless it is renewed by hand, and the journals of that."""
    service = upstream()
    it = front("--upstream", service.url, "--journal", schema, "--one-client", "--lease", "2")
    journals = it.gateway._journals

    async def stop():
        stop_renewing(journals)

    yield service, it, journals, stop


def ask_soon(it, id="x"):
    requests = [{"id": "a", "method": "post", "url": "A", "body": 1}, {"id": "b", "method": "get", "url": "B"}]
    return it.ask("POST", "/odata/$batch", json.dumps({"requests": requests}), {**CONTINUE, **repeatable(id)})


def test_a_gateway_is_not_ready_without_a_lease(late, loop):
    _, it, journals, stop = late
    assert it.ask("GET", "/health/ready")[0] == 200
    assert float(re.search(r"(?m)^odb_gateway_journal_lease_seconds (\S+)", it.metrics())[1]) > 0
    loop.run(stop())
    until(lambda: it.ask("GET", "/health/ready")[0] == 503)
    assert it.ask("GET", "/health/ready")[2] == b"the journal cannot be reached\n"
    assert it.ask("GET", "/health")[0] == 200
    assert "journal_lease_seconds 0\n" in it.metrics()
    loop.run(journals.store.renew())
    assert it.ask("GET", "/health/ready")[0] == 200


@pytest.mark.parametrize("where", ["head", "body"])
def test_a_request_that_waited_for_its_connection_is_not_sent_after_its_lease(late, loop, monkeypatch, where):
    """Another gateway may have answered that it is lost. Once the lease is renewed it is sent, if not its head was."""
    from odb_batch.gateway import _upstream
    from odb_batch.journals import StoreJournal

    service, it, journals, stop = late
    held, calls, ended = StoreJournal.require_held, [], threading.Event()

    def require(journal):
        calls.append(journal)
        if len(calls) == (1 if where == "head" else 2):
            journals.store.lease.deadline = 0.0  # as after a pause
            ended.set()
        held(journal)

    loop.run(stop())
    monkeypatch.setattr(StoreJournal, "require_held", require)
    with ThreadPoolExecutor(1) as clients:
        asked = clients.submit(ask_soon, it)
        assert ended.wait(SECONDS)
        assert not [seen for seen in service.seen if seen.method == "POST"]
        loop.run(journals.store.renew())
        status, _, text = asked.result(SECONDS)
    found = {it["id"]: (it["status"], it.get("body", {}).get("error", {}).get("code")) for it in json.loads(text)["responses"]}
    assert status == 200 and _upstream
    posts = [seen for seen in service.seen if seen.method == "POST"]
    if where == "head":
        assert (found["a"], len(posts)) == ((201, None), 1)
    else:
        assert (found["a"], len(posts)) == ((502, "BadGateway"), 0)


def test_a_request_is_answered_503_if_its_batch_cannot_be_held(late, loop, monkeypatch):
    from odb_batch.journals import Late, StoreJournal

    service, it, journals, stop = late

    def require(journal):
        journals.store.lease.deadline = 0.0
        raise Late

    loop.run(stop())
    monkeypatch.setattr(StoreJournal, "require_held", require)
    status, _, text = ask_soon(it)
    assert not [seen for seen in service.seen if seen.method == "POST"]
    code = json.loads(text)["error"]["code"] if status != 200 else json.loads(text)["responses"][0]["body"]["error"]["code"]
    assert code in ("NoJournal", "BadJournal")
