"""Batches that are sent, whole and in parts: results, references between parts, errors of parts."""

import asyncio
import json
import time
from decimal import Decimal
from email.utils import formatdate

import pytest

from odb_batch import Answer, Fault, Refusal
from odb_batch.client import Batch, RequestFailed
from odb_batch.testing import Scripted


def ids_of(document):
    return [it["id"] for it in json.loads(document)["requests"]]


def parts_of(service):
    return [ids_of(document) for document in service.documents]


def statuses_of(results):
    return [it.status for it in results.values()]


def gets(*ids):
    batch = Batch()
    for id in ids:
        batch.get("Books", id=id)
    return batch


def answering(status, given=(), body=b""):
    return lambda document: (status, dict(given), body)


def raising(error):
    def post(document):
        raise error

    return post


def of_a_client(cause):
    """The exception that a client of HTTP raises for one of a socket, as requests does."""
    try:
        try:
            raise cause
        except OSError as error:
            raise KeyError("of the pool") from error
    except KeyError:
        try:
            raise OSError("of the client")
        except OSError as error:
            return error


def named(module, *names):
    """An exception of a client of HTTP: its class has such a name, and each base of it the next one."""
    kind = OSError
    for name in reversed(names):
        kind = type(name, (kind,), {"__module__": module})
    return kind("of the client")


class TestResults:
    def test_by_request_and_in_order(self):
        sold = {"error": {"code": "Sold", "message": "gone"}}
        batch, service = Batch(), Scripted({"b": Answer(409, {"X-A": "1"}, sold)})
        a, b = batch.post("A", {}), batch.post("B", {}, id="b")
        results = batch.send(service.post)
        assert [it.id for it in results.values()] == ["1", "b"] and len(results) == 2 and results.error is None
        assert results[a] == results["1"] and results[a].status == 201 and results[a].is_success
        assert results[a].raise_for_status() is results[a]
        assert results[b].headers["x-a"] == "1" and results[b].json() == sold
        assert repr(results) == "<Results: 1 201, b 409>" and repr(results[b]) == "<Result b 409>"
        with pytest.raises(RequestFailed, match=r"^b \(POST B\) 409 Sold: gone$") as raised:
            results[b].raise_for_status()
        assert raised.value.result is results[b]
        with pytest.raises(KeyError):
            results["c"]

    def test_no_requests(self):
        results = Batch().send(pytest.fail)
        assert list(results) == [] and results.retry_after == 0 and not results.rest()

    @pytest.mark.parametrize("response, body", [
        ('"body" : {"Price": 9.990, "a]}": "\\u00fc"} ', b'{"Price": 9.990, "a]}": "\\u00fc"}'),
        ('"body": null', b""),
        ('"headers": {}', b""),
        ('"body": "d\xfcn"', '"d\xfcn"'.encode()),
        ('"headers": {"Content-Type": "text/plain"}, "body": "d\xfcn"', "d\xfcn".encode()),
        ('"body": "d\xfcn", "headers": {"content-type": "text/plain; charset=latin-1"}', b"d\xfcn"),
        ('"headers": {"content-type": "image/png"}, "body": "__4="', b"\xff\xfe"),
        ('"headers": {"content-type": "image/png"}, "body": "//4="', b"\xff\xfe"),
        ('"headers": {"content-type": "image/png"}, "body": "A"', b"A"),
        ('"headers": {"content-type": "image/svg"}, "body": "<svg/>"', b"<svg/>"),
        ('"headers": {"content-type": "image/png"}, "body": {"a": 1}', b'{"a": 1}'),
        ('"headers": {"content-type": "text/plain; charset=none"}, "body": "a"', b"a"),
        ('"headers": {"content-type": null, "age": 7}, "body": 7', b"7"),
    ])  # fmt: skip
    def test_bodies(self, response, body):
        text = '\ufeff {"@a": [], "responses": [ {"id": "a", %s , "status": 200} ]}' % response
        result = gets("a").send(answering(200, body=text.encode()))["a"]
        assert (result.status, result.body) == (200, body)

    def test_headers(self):
        headers = b'{"A": true, "B": 7, "C": 1.5, "D": null, "E": ["x"], "F": "x", "f": "y"}'
        text = b'{"responses":[{"id":"a","status":200,"headers":%s}]}' % headers
        assert gets("a").send(answering(200, body=text))["a"].headers == {"b": "7", "c": "1.5", "f": "x, y"}

    def test_numbers(self):
        text = b'{"responses":[{"id":"a","status":200,"body":{"Price":9.990}}]}'
        assert gets("a").send(answering(200, body=text))["a"].json(parse_float=Decimal) == {"Price": Decimal("9.990")}

    @pytest.mark.parametrize("body", [b"", b"[]", b"{", b'{"error": 7}', b'{"error": {"code": "A"}}', b"[" * 100_000])
    def test_failures_without_an_error_object(self, body):
        result = gets("a").send(answering(500, body=body))["a"]
        assert str(RequestFailed(result)) == "a (GET Books) 500"


class TestParts:
    def test_as_many_as_the_limit_allows(self):
        batch = Batch()
        first = batch.post("A", {})
        for k in range(29):
            batch.get(f"{first}/B{k}")
        with batch.group("g"):
            for k in range(15):
                batch.post(f"{first}/C", k)
        batch.get("D", after="g")
        service = Scripted(limit=20)
        results = batch.send(service.post, limit=20)
        assert [len(it) for it in parts_of(service)] == [20, 10, 16]
        assert all(it.is_success for it in results.values())
        inner, outer = (json.loads(it)["requests"] for it in service.documents[:2])
        assert inner[1] == {"id": "2", "dependsOn": ["1"], "method": "get", "url": "$1/B0"}
        assert outer[0] == {"id": "21", "method": "get", "url": "/Made('1')/B19"}

    @pytest.mark.parametrize("answer, url", [
        (Answer(201, {"Location": "Books('a')/"}), "v1/Books('a')/Pages"),
        (Answer(201, {"Location": "/v2/Books(1)?x=1"}), "/v2/Books(1)/Pages"),
        (Answer(201, {"Location": "https://host/Books(1)"}), "https://host/Books(1)/Pages"),
        (Answer(204, {"OData-EntityId": "/v1/Books(1)"}), "/v1/Books(1)/Pages"),
        (Answer(204, {"Location": "", "OData-EntityId": "/v1/Books(1)"}), "/v1/Books(1)/Pages"),
        (Answer(201, {}, {"@id": "/v1/Books(1)", "Title": "\u00fc"}), "/v1/Books(1)/Pages"),
    ])  # fmt: skip
    def test_a_location_of_an_earlier_part(self, answer, url):
        batch, service = Batch(), Scripted({"1": answer})
        batch.get(f"{batch.post('v1/Books', {})}/Pages")
        assert statuses_of(batch.send(service.post, limit=1)) == [answer.status, 200]
        assert json.loads(service.documents[1])["requests"][0]["url"] == url

    @pytest.mark.parametrize("url", ["B\xfccher?x=\xfc#y", "http://[x", "/v1/Books%zz", ""])
    def test_other_urls_stay_as_they_are(self, url):
        batch, service = gets("a", "b"), Scripted()
        batch.get(url, after="a", id="c")
        batch.send(service.post, limit=2)
        assert json.loads(service.documents[1])["requests"] == [{"id": "c", "method": "get", "url": url}]

    def test_what_was_read_or_changed_has_its_own_url(self):
        batch, service = Batch(), Scripted()
        shelf = batch.get("Shelves(1)?$top=1")
        book = batch.put(f"{shelf}/Book", {})
        batch.get(f"{book}/Pages")
        batch.send(service.post, limit=2)
        assert json.loads(service.documents[1])["requests"][0]["url"] == "Shelves(1)/Book/Pages"

    def test_an_etag_of_an_earlier_part(self):
        batch, service = Batch(), Scripted({"2": Answer(200, {}, {"@odata.etag": "W/7"})})
        first, second = batch.post("A", {}), batch.get("B")
        batch.patch(first, {}, headers={"If-Match": first})
        batch.get(second, headers={"If-None-Match": second, "If-Match": "$other"}, after=first)
        batch.send(service.post, limit=2)
        third, fourth = json.loads(service.documents[1])["requests"]
        assert third["headers"]["if-match"] == '"1"' and "dependsOn" not in third
        assert fourth["headers"] == {"if-none-match": "W/7", "if-match": "$other"}

    @pytest.mark.parametrize("mode, parts, statuses", [
        ("continue", [["a", "x"], ["s"], ["h1", "h2"], ["e"]], [201, 200, 200, 424, 424, 424, 424, 201, 201, 200]),
        ("stop", [["a", "x"], ["s"]], [201, 200, 200, *[424] * 7]),
    ])  # fmt: skip
    def test_references_that_stand_for_nothing(self, mode, parts, statuses):
        """They do not hold up what comes before, though it is in the same part, and a group leaves room for no shorter one."""
        batch, service = Batch(), Scripted({"a": Answer(201)}, mode=mode)
        a = batch.post("A", {}, id="a")
        batch.get("X", id="x")
        s = batch.get("S", id="s")
        batch.get(f"{a}/B", after=s, id="q")
        with batch.group("g"):
            batch.post("G", {}, id="g1")
            batch.post(f"{a}/G", {}, id="g2", after=s)
        batch.get("C", after="g", id="c")
        with batch.group("h"):
            batch.post("H", {}, id="h1")
            batch.post("H", {}, id="h2")
        batch.get("E", id="e")
        results = batch.send(service.post, limit=2, mode=mode)
        assert parts_of(service) == parts and statuses_of(results) == statuses
        assert results["q"].json()["error"]["code"] == "NoLocation"
        assert results["g1"].body == results["g2"].body == (results["q"].body.replace(b"q may", b"g2 may") if mode == "continue" else b"")

    @pytest.mark.parametrize("mode, parts, statuses", [
        ("continue", [["a", "x"], ["y"], ["c"]], [201, 200, 200, 424, 424, 200]),
        ("stop", [["a", "x"], ["y"]], [201, 200, 200, 424, 424, 424]),
    ])  # fmt: skip
    @pytest.mark.parametrize("headers", [{}, {"Location": ""}])
    def test_a_reference_that_stands_for_nothing(self, headers, mode, parts, statuses):
        batch, service = Batch(), Scripted({"a": Answer(201, headers)})
        batch.post("A", {}, id="a")
        batch.get("X", id="x")
        batch.get("Y", id="y")
        batch.get("$a/B", id="b")
        batch.get("D", after="b", id="d")
        batch.get("C", id="c")
        results = batch.send(service.post, limit=2, mode=mode)
        assert parts_of(service) == parts and statuses_of(results) == statuses
        assert results["b"].json()["error"]["code"] == "NoLocation"
        with pytest.raises(ValueError, match="b refers to a, which was answered without a Location"):
            results.rest()

    @pytest.mark.parametrize("mode, parts, statuses", [
        ("continue", [["a", "x"], ["y"], ["c", "e"]], [201, 200, 200, 424, 424, 424, 424, 200, 200]),
        ("stop", [["a", "x"], ["y"]], [201, 200, 200, *[424] * 6]),
    ])  # fmt: skip
    def test_etags_that_are_not_there(self, mode, parts, statuses):
        batch, service = Batch(), Scripted({"a": Answer(201, {"Location": "A(1)"})}, mode=mode)
        a = batch.post("A", {}, id="a")
        batch.get("X", id="x")
        batch.get("Y", id="y")
        batch.patch("B", {}, headers={"If-Match": a}, id="b")
        batch.get("D", after="b", id="d")
        with batch.group("g"):
            batch.post("G", {}, id="g1")
            batch.get("G", headers={"If-None-Match": a}, id="g2")
        batch.get("C", id="c")
        batch.get("E", id="e")
        results = batch.send(service.post, limit=2, mode=mode)
        assert parts_of(service) == parts and statuses_of(results) == statuses
        assert results["b"].json()["error"]["code"] == "NoETag"
        assert results["g1"].body == results["g2"].body == (results["b"].body if mode == "continue" else b"")

    @pytest.mark.parametrize("location", ["$b", "%24b", "$batch", "/v1/$batch", "$root"])
    def test_a_location_that_no_url_may_have(self, location):
        batch, script = Batch(), {"a": Answer(201, {"Location": location, "ETag": "7"}), "b": [503, 200]}
        batch.post("A", {}, id="a")
        batch.get("B", id="b")
        batch.get("$a", after="b", id="c")
        results = batch.send(Scripted({**script, "b": 200}).post, limit=1)
        assert statuses_of(results) == [201, 200, 424] and results["c"].json()["error"]["code"] == "NoLocation"
        with pytest.raises(ValueError, match="c refers to a, whose Location cannot be used"):
            batch.send(Scripted(script).post).rest()

    @pytest.mark.parametrize("url", ["A", ""])
    def test_a_location_that_cannot_be_read(self, url):
        batch = Batch()
        batch.get(batch.put(url, {}))
        results = batch.send(Scripted({"1": Answer(200, {"Location": "http://["})}).post, limit=1)
        assert statuses_of(results) == [200, 424] and results["2"].json()["error"]["code"] == "NoLocation"
        with pytest.raises(ValueError, match="2 refers to 1, which was answered without a Location"):
            results.rest()

    def test_what_depends_on_a_failure_is_not_sent(self):
        batch, service = Batch(), Scripted({"a": 404})
        batch.get("A", id="a")
        batch.get("B", after="a", id="b")
        with batch.group("g"):
            batch.post("C", id="c")
            batch.post("D", after="b", id="d")
        batch.get("E", id="e")
        results = batch.send(service.post, limit=2)
        assert parts_of(service) == [["a", "b"], ["e"]] and statuses_of(results) == [404, 424, 424, 424, 200]

    @pytest.mark.parametrize("status", [400, 404, 424, 599])
    def test_nothing_after_an_error_in_mode_stop(self, status):
        service = Scripted({"b": 304, "c": status}, mode="stop")
        results = gets(*"abcdef").send(service.post, limit=2, mode="stop")
        assert parts_of(service) == [["a", "b"], ["c", "d"]]
        assert statuses_of(results) == [200, 304, status, 424, 424, 424]

    def test_a_424_that_is_no_error_in_mode_stop(self):
        batch, service = gets("a"), Scripted({"a": 304, "h": 304}, mode="stop")
        batch.get("B", after="a", id="b")
        with batch.group():
            batch.post("C", id="g")
            batch.post("D", id="h")
        batch.get("E", id="e")
        results = batch.send(service.post, limit=2, mode="stop")
        assert parts_of(service) == [["a", "b"], ["g", "h"], ["e"]]
        assert statuses_of(results) == [304, 424, 424, 304, 200]

    @pytest.mark.parametrize("options, message", [
        ({"limit": 1}, "the group g has 2 requests, and a batch may have 1"),
        ({"limit": 0}, "limit must be a whole number from 1 to 10000, not 0"),
        ({"limit": 10_001}, "limit must be .*, not 10001"),
        ({"limit": True}, "limit must be .*, not True"),
        ({"limit": 2.0}, "limit must be .*, not 2.0"),
        ({"mode": "half"}, "mode must be one of 'continue', 'stop', not 'half'"),
    ])  # fmt: skip
    def test_what_is_refused_before_anything_is_sent(self, options, message):
        batch = gets("a")
        with batch.group("g"):
            batch.post("B")
            batch.post("C")
        with pytest.raises(ValueError, match=message):
            batch.send(pytest.fail, **options)


class TestErrorsOfParts:
    @pytest.mark.parametrize("status", [302, 400, 413, 429, 500, 503])
    def test_an_answer_to_the_whole_is_that_of_each(self, status):
        answers = [Scripted().post, answering(status, {"Retry-After": "7", "Set-Cookie": "a"}, b"slow down")]
        sent = []

        def post(document):
            sent.append(ids_of(document))
            return answers.pop(0)(document)

        results = gets(*"abcde").send(post, limit=2)
        assert sent == [["a", "b"], ["c", "d"]] and statuses_of(results) == [200, 200, status, status, 424]
        assert results["d"].headers["retry-after"] == "7" and results["d"].body == b"slow down"
        assert results.retry_after == 7.0 and results.error is None
        assert [it.id for it in results.rest().send(Scripted().post).values()] == [*"cde"][0 if status in (429, 503) else 2 :]

    @pytest.mark.parametrize("many", [1, 1_000])
    def test_nothing_is_sent_after_it_by_longer_parts(self, many, monkeypatch):
        monkeypatch.setattr("odb_batch.client._parts._MANY", many)
        service, error = Scripted(), ConnectionError("gone")
        posts = [service.post, raising(error)]
        results = gets(*"abcdefghij").send(lambda document: posts.pop(0)(document), limit=1)
        assert statuses_of(results) == [200, 502, *[424] * 8] and results.error is error

    @pytest.mark.parametrize("status", [99, 202, 204, 600])
    def test_an_answer_that_says_nothing(self, status):
        assert statuses_of(gets("a", "b").send(answering(status))) == [502, 502]

    @pytest.mark.parametrize("body, code", [
        (b"<html>", "F02"), (b"", "F02"), (b"[]", "F70"), (b'{"responses":[]}', "F73"),
        (b'{"responses":[{"id":"a","status":404},{"id":"b","status":200}]}', "F75"),
    ])  # fmt: skip
    def test_what_is_not_the_response(self, body, code, caplog):
        caplog.set_level("DEBUG", "odb_batch")
        batch = gets("a")
        batch.get("B", after="a", id="b")
        results = batch.send(answering(200, body=body))
        assert statuses_of(results) == [502, 502] and isinstance(results.error, Fault) and results.error.code == code
        assert "a part of the batch was not answered" in caplog.text

    @pytest.mark.parametrize("error, status", [
        (ConnectionResetError("gone"), 502), (TimeoutError(), 504), (asyncio.TimeoutError(), 504), (KeyError("x"), 502),
        (of_a_client(TimeoutError()), 504), (of_a_client(ConnectionError()), 502), (StopIteration(), 502),
        (named("requests.exceptions", "ReadTimeout", "Timeout", "RequestException"), 504),
        (named("httpx", "ReadTimeout", "TimeoutException", "TransportError"), 504),
        (named("urllib3.exceptions", "ReadTimeoutError", "TimeoutError", "HTTPError"), 504),
        (named("urllib3.exceptions", "NewConnectionError", "ConnectTimeoutError", "TimeoutError"), 502),
        (named("requests.exceptions", "ConnectionError", "RequestException"), 502),
    ], ids=repr)  # fmt: skip
    def test_a_service_that_hangs_up(self, error, status):
        batch = gets("a")
        batch.post("B", {}, id="b")
        batch.get("C", id="c")
        results = batch.send(raising(error), limit=2)
        assert statuses_of(results) == [status, status, 424] and results.error is error
        assert [it.id for it in results.rest().send(Scripted().post).values()] == ["a", "c"]

    def test_a_refusal_is_an_answer(self):
        refusal = Refusal(429, "Busy", "later", retry_after="7")
        results = gets("a", "b").send(raising(refusal), limit=1)
        assert statuses_of(results) == [429, 424] and results.error is refusal and results.retry_after == 7
        assert str(RequestFailed(results["a"])) == "a (GET Books) 429 Busy: later" and len(results.rest()) == 2

    def test_an_interruption_is_raised(self):
        with pytest.raises(KeyboardInterrupt):
            gets("a").send(raising(KeyboardInterrupt()))

    @pytest.mark.parametrize("answered", [
        None, 200, ("200", {}, b""), (200, {"a": 1}, b""), (200, {}, 7), (200, None), (200, [("a", "b")]),
    ])  # fmt: skip
    def test_what_is_no_answer(self, answered):
        with pytest.raises(TypeError):
            gets("a").send(lambda document: answered)

    @pytest.mark.parametrize("answered", [None, 200, b"", {}, iter([200, {}, b""])], ids=["nothing", "number", "bytes", "object", "iterator"])
    def test_what_is_to_be_returned_is_said(self, answered):
        wanted = r"^post must return \(status, headers, body\), or a response of requests or httpx, not a \w+$"
        with pytest.raises(TypeError, match=wanted):
            gets("a").send(lambda document: answered)


@pytest.mark.parametrize("value", ["Mon, 01 Jan 99999999999 00:00:00 GMT", "", " ", "-1", "1e5", "inf"])
def test_a_retry_after_that_is_none(value):
    assert gets("a").send(answering(503, {"Retry-After": value})).retry_after == 0


def test_a_retry_after_that_is_too_great():
    assert gets("a").send(answering(503, {"Retry-After": "9" * 400})).retry_after == 2**31


def test_retry_after():
    answers = {"a": "5", "b": "7", "c": "soon", "d": formatdate(time.time() - 99), "e": "1.5", "f": "\u0663"}
    script = {id: Answer(503, {"Retry-After": value}) for id, value in answers.items()}
    assert gets(*answers).send(Scripted(script).post).retry_after == 7.0
    date = formatdate(time.time() + 100, usegmt=True)
    late = {"a": Answer(429, {"Retry-After": date}), "b": Answer(200, {"Retry-After": "999"})}
    assert 90 < gets("a", "b").send(Scripted(late).post).retry_after <= 100


def test_tasks():
    service = Scripted({"c": 404})
    results = asyncio.run(gets(*"abcde").send_async(service.post_async, limit=2))
    assert parts_of(service) == [["a", "b"], ["c", "d"], ["e"]] and statuses_of(results) == [200, 200, 404, 200, 200]

    async def post(document):
        raise asyncio.TimeoutError

    assert statuses_of(asyncio.run(gets("a", "b").send_async(post, limit=1))) == [504, 424]


def test_by_hand():
    service, parts = Scripted(), gets(*"abc").exchange(limit=2)
    answer = service.post(next(parts))
    parts.send(answer)
    with pytest.raises(StopIteration) as end:
        parts.throw(ConnectionError("gone"))
    assert statuses_of(end.value.value) == [200, 200, 502]
