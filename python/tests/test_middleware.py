"""`$batch` in front of small applications of WSGI and ASGI: what comes in, what the requests inherit, and what is
answered.
"""

import base64
import contextlib
import json
import threading
import time
from urllib.parse import unquote, urlsplit

import pytest

from odb_batch import Refusal, asgi, wsgi
from odb_batch.http import batch_request as policy
from odb_batch.http.messages import header_dict
from support import urls
from support.applications import CONTINUE, JSON, OverAsgi, OverWsgi, batch


class TestBatches:
    def test_another_path_is_for_the_application(self, service):
        status, _, text = service.ask("GET", "/odata/Books", {})
        assert (status, json.loads(text)["path"]) == (200, "/odata/Books")

    def test_the_answer(self, service):
        status, headers, text = service.ask("POST", "/odata/$batch", CONTINUE, b'{"requests":[]}')
        assert (status, json.loads(text), headers["content-length"]) == (200, {"responses": []}, str(len(text)))
        assert (headers["content-type"], headers["odata-version"]) == ("application/json", "4.01")
        assert headers["preference-applied"] == "continue-on-error"

    @pytest.mark.parametrize("prefix", ["", "/app", "/grün"])
    def test_urls_are_relative_to_the_folder(self, service, prefix):
        given = prefix.encode().decode("latin-1") if isinstance(service, OverWsgi) else prefix
        found = batch(
            service,
            {"url": "Books('ü a')?$top=1"},
            {"url": f"{prefix}/odata/Books"},
            {"url": f"http://host{prefix}/odata/A"},
            prefix=given,
        )
        paths = [it["body"]["path"] for it in found.values()]
        assert paths == [f"{prefix}/odata/{it}" for it in ("Books('ü a')", "Books", "A")]
        assert found["r0"]["body"]["query"] == "$top=1"

    @pytest.mark.parametrize("url", [
        "/other", "../admin", "/odata/../admin", "/odata/%2e%2e/admin", "//evil/odata/Books", "http://evil/odata/Books",
        "ftp://host/odata/Books", "/ODATA/Books", "/odata", "\\\\evil", "..\\admin", "a%0d%0ab",
    ])  # fmt: skip
    def test_urls_that_lead_out(self, service, url):
        assert batch(service, {"url": url})["r0"]["status"] == 404
        assert all(it.get("PATH_INFO", it.get("path")).startswith("/odata/") for it in service.seen)

    @pytest.mark.parametrize("is_sent", [True, False])
    def test_the_table_of_urls(self, service, is_sent):
        # A path that is not UTF-8 is not one of the application here.
        given = [url for url in urls.plain(is_sent) if not url.startswith("https:") and "\ufffd" not in unquote(url)]
        found = batch(service, *({"url": url} for url in given))
        assert {it["status"] for it in found.values()} == {200 if is_sent else 404}

    def test_a_root_above_the_folder(self, over):
        service = over("/odata/$batch", root="/")
        found = batch(service, {"url": "/other"}, {"url": "../admin"}, {"url": "//evil/"}, {"url": "a/%2e%2e/b"})
        assert [it["status"] for it in found.values()] == [200, 200, 404, 404]

    @pytest.mark.parametrize("headers", [
        {"X-Forwarded-Host": "public"}, {"X-Forwarded-Host": "a, public"}, {"Forwarded": 'for=1.2.3.4;proto=https;host="public"'},
    ])  # fmt: skip
    def test_urls_as_a_proxy_in_front_has_them(self, service, headers):
        """A proxy that ends TLS, or has another host: its clients and the application write such URLs."""
        urls = [
            "https://host/odata/a",
            "http://public/odata/a",
            "https://public/odata/a",
            "https://public/x",
            "https://evil/odata/a",
        ]
        found = batch(service, *({"url": url} for url in urls), headers={**CONTINUE, **headers})
        assert [it["status"] for it in found.values()] == [200, 200, 200, 404, 404]
        assert {it["body"]["path"] for it in list(found.values())[:3]} == {"/odata/a"}

    def test_no_more_hosts_count_than_there_are_proxies(self):
        """Each URL of a batch is compared with all of them."""
        many = [f"h{k}" for k in range(100_000)]
        headers = {"content-type": "application/json", "x-forwarded-host": ",".join(many)}
        headers["forwarded"] = ",".join(f"host=f{host}" for host in many)
        roots = policy.BatchRequest("POST", "http", "host", "/", "/", headers).roots
        assert (len(roots), roots[2], roots[-1]) == (2 * 33, "http://h0/", "https://fh15/")

    def test_a_batch_in_a_batch(self, over):
        service = over("/odata/batches", root="/")
        body = b'{"requests":[{"id":"a","method":"post","url":"/odata/batches"},{"id":"b","method":"post","url":"b%61tches"}]}'
        status, _, text = service.ask("POST", "/odata/batches", CONTINUE, body)
        assert [it["status"] for it in json.loads(text)["responses"]] == [400, 400] and service.seen == []

    @pytest.mark.parametrize("prefer, is_continued", [
        (None, False), ("continue-on-error=false", False), ("odata.continue-on-error", True), ("Continue-On-Error", True),
        ('respond-async, continue-on-error="true"', True), ("continue-on-error; x=1", True), ('a="continue-on-error, b"', False),
        ("continue-on-error=false, continue-on-error", False),
    ])  # fmt: skip
    def test_the_mode(self, over, prefer, is_continued):
        service = over("/odata/$batch", width=1)
        body = b'{"requests":[{"id":"a","method":"get","url":"missing"},{"id":"b","method":"get","url":"price"}]}'
        status, headers, text = service.ask(
            "POST", "/odata/$batch", {**JSON, **({"Prefer": prefer} if prefer else {})}, body
        )
        assert [it["status"] for it in json.loads(text)["responses"]] == [404, 200 if is_continued else 424]
        assert ("preference-applied" in headers) == is_continued


class TestRefused:
    @pytest.mark.parametrize("method, headers, body, status, code", [
        ("POST", JSON, b'{"requests": 7}', 400, "F04"), ("POST", JSON, b"", 400, "F02"), ("GET", JSON, b"", 405, "NotAllowed"),
        ("POST", {"Content-Type": "multipart/mixed; boundary=b"}, b"--b--", 415, "BadMediaType"), ("POST", {}, b"{}", 415, "BadMediaType"),
        ("POST", {**JSON, "Host": "a/b"}, b"{}", 400, "BadHost"), ("POST", {**JSON, "Host": "h@evil"}, b"{}", 400, "BadHost"),
        ("POST", JSON, b"{" + b" " * 500, 413, "TooLong"),
    ])  # fmt: skip
    def test_as_a_whole(self, over, method, headers, body, status, code):
        found, more, text = over("/odata/$batch", max_size=400).ask(method, "/odata/$batch", headers, body)
        assert (found, json.loads(text)["error"]["code"]) == (status, code)
        assert more["content-type"] == "application/json" and more["odata-version"] == "4.01"
        assert (more.get("allow"), more.get("accept")) == (
            "POST" if status == 405 else None,
            "application/json" if status == 415 else None,
        )

    @pytest.mark.parametrize("host", ["[:::::]", "[.]", "[...]:80"])
    def test_a_host_that_is_no_address(self, service, host):
        status, _, text = service.ask("POST", "/odata/$batch", {**JSON, "Host": host}, b'{"requests":[]}')
        assert (status, json.loads(text)["error"]["code"]) == (400, "BadHost")
        assert batch(service, {"url": "a"}, headers={**JSON, "X-Forwarded-Host": host})["r0"]["status"] == 200

    def test_says_where(self, service):
        _, _, text = service.ask(
            "POST", "/odata/$batch", JSON, b'{"requests":[{"id":"1","method":"post","url":"/odata/$batch"}]}'
        )
        error = json.loads(text)["error"]
        assert (error["code"], error["target"]) == ("F22", "/requests/0")
        assert error["message"].startswith("1: NestedBatch: ")

    def test_says_which_name_is_wrong(self, service):
        requests = [{"id": id, "method": "get", "url": url} for id, url in [("lines", "Lines"), ("order", "$lines/Order")]]
        _, _, text = service.ask("POST", "/odata/$batch", JSON, json.dumps({"requests": requests}).encode())
        message = json.loads(text)["error"]["message"]
        assert message.startswith('order: "lines" is not listed in dependsOn. ReferenceNotListed: The URL refers')

    def test_too_many_requests(self, over):
        requests = [{"id": str(k), "method": "get", "url": "price"} for k in range(4)]
        status, _, text = over("/odata/$batch", limit=3).ask(
            "POST", "/odata/$batch", JSON, json.dumps({"requests": requests}).encode()
        )
        assert (status, json.loads(text)["error"]["code"]) == (413, "BatchTooLong")

    def test_groups_without_transactions(self, service):
        requests = [{"id": "a", "method": "post", "url": "A", "atomicityGroup": "g"}]
        status, _, text = service.ask("POST", "/odata/$batch", JSON, json.dumps({"requests": requests}).encode())
        assert (status, json.loads(text)["error"]["code"], service.seen) == (501, "NoGroups", [])

    @pytest.mark.parametrize("options", [("batch",), ("/a/$batch", {"root": "/a"}), ("/$batch", {"root": "a/"})])
    def test_wrong_options(self, over, options):
        with pytest.raises(ValueError):
            over(options[0], **dict(*options[1:]))

    @pytest.mark.parametrize("middleware", [wsgi.BatchMiddleware, asgi.BatchMiddleware])
    @pytest.mark.parametrize("width", [0, 10_001, True])
    def test_a_wrong_width(self, middleware, width):
        with pytest.raises(ValueError):
            middleware(None, width=width)


OF_CONNECTION = ["Accept-Encoding", "Connection", "Content-Length", "Host"]
USUALLY_DROPPED = ["Cache-Control", "Date", "Pragma", "User-Agent"]


class TestHeaders:
    outer = {
        **CONTINUE, "Authorization": "Bearer 1", "Cookie": "session=2", "X-Forwarded-For": "9.9.9.9", "If-Match": '"batch"',
        "Idempotency-Key": "of the batch", "Accept": "application/json", "Accept-Language": "de", "Traceparent": "00-1",
        "Prefer": "continue-on-error, return=minimal", "Accept-Encoding": "gzip", "Transfer-Encoding": "chunked", "Range": "bytes=0-1",
        "X-HTTP-Method-Override": "DELETE", "Content-MD5": "1", "Signature": "1", "OData-MaxVersion": "4.0",
    }  # fmt: skip

    def test_are_inherited(self, service):
        found = batch(
            service,
            {"url": "a", "headers": {"Accept": "text/plain", "Host": "evil", "Prefer": "maxpagesize=5"}},
            {"url": "b"},
            headers=self.outer,
        )
        first, second = (found[id]["body"]["headers"] for id in ("r0", "r1"))
        same = {
            "authorization": "Bearer 1",
            "cookie": "session=2",
            "x-forwarded-for": "9.9.9.9",
            "traceparent": "00-1",
            "accept-language": "de",
            "odata-maxversion": "4.0",
            "host": "host",
        }
        second.pop("content-type", None)
        first.pop("content-type", None)
        assert second == {**same, "prefer": "return=minimal"}
        assert first == {**same, "accept": "text/plain", "prefer": "maxpagesize=5, return=minimal"}

    @pytest.mark.parametrize("name, value, status", [
        ("X-Forwarded-For", "127.0.0.1", 400), ("Authorization", "Basic root", 400), ("Cookie", "a=b", 400), ("X-Dry-Run", "true", 400),
        ("Accept", "a\r\nX-Evil: 1", 400), ("Accept", "€", 400), ("Accept", "\x00", 400), ("Accept", "a\tb", 200), ("Accept-Language", "ü", 200),
        ("OData-Version", "4.01", 200), ("Isolation", "snapshot", 200),
    ])  # fmt: skip
    def test_of_a_request(self, service, name, value, status):
        found = batch(service, {"url": "a", "headers": {name: value}})["r0"]
        assert found["status"] == status == (400 if not service.seen else 200)
        assert status == 200 or name.lower() in found["body"]["error"]["message"]

    def test_that_are_allowed(self, over):
        service = over("/odata/$batch", allowed=["X-Dry-Run"])
        assert (
            batch(service, {"url": "a", "headers": {"x-dry-run": "true"}})["r0"]["body"]["headers"]["x-dry-run"]
            == "true"
        )

    @pytest.mark.parametrize("name", [
        "traceparent", "tracestate", "X-Request-ID", "X-Correlation-ID", "client-request-id", "X-CSRF-Token", "X-Requested-With",
        "sap-contextid", "SAP-Language",
    ])  # fmt: skip
    def test_of_usual_clients_pass(self, service, name):
        found = batch(service, {"url": "a", "headers": {name: "1"}}, headers={**CONTINUE, name: "of the batch"})["r0"]
        assert (found["status"], found["body"]["headers"][name.lower()]) == (200, "1")

    @pytest.mark.parametrize("name", [*OF_CONNECTION, *USUALLY_DROPPED])
    def test_that_clients_set_by_themselves_are_dropped(self, service, caplog, name):
        outer = {**CONTINUE, "User-Agent": "of the batch"}
        plain, found = (batch(service, {"url": "a", **more}, headers=outer) for more in ({}, {"headers": {name: "7"}}))
        assert (found, found["r0"]["status"], caplog.text) == (plain, 200, "")

    @pytest.mark.parametrize("name", USUALLY_DROPPED)
    def test_that_clients_set_by_themselves_pass_if_they_are_allowed(self, over, name):
        found = batch(over("/odata/$batch", allowed=[name]), {"url": "a", "headers": {name: "7"}})["r0"]
        assert found["body"]["headers"][name.lower()] == "7"

    @pytest.mark.parametrize("name", OF_CONNECTION)
    def test_of_a_connection_cannot_be_allowed(self, over, name):
        with pytest.raises(ValueError, match=f"allowed: no request of a batch may have the header {name.lower()}$"):
            over("/odata/$batch", allowed=["X-Dry-Run", name])

    def test_that_are_not_allowed_are_logged_once(self, service, caplog, monkeypatch):
        monkeypatch.setattr(policy, "_WARNED", set())
        for _ in range(2):
            batch(service, *[{"url": "a", "headers": {name: "1"}} for name in ("X-Dry-Run", "X-Other", "X-Dry-Run")])
        lines = [it.getMessage() for it in caplog.records if it.name == "odb_batch"]
        assert [sum(f" {name}," in line for line in lines) for name in ("x-dry-run", "x-other")] == [1, 1]

    def test_that_are_not_allowed_are_logged_for_some_names_alone(self, service, caplog, monkeypatch):
        """Clients choose the names."""
        monkeypatch.setattr(policy, "_WARNED", set())
        monkeypatch.setattr(policy, "_MAX_WARNED", 2)
        batch(service, *[{"url": "a", "headers": {f"X-{k}": "1"}} for k in range(5)])
        assert len([it for it in caplog.records if it.name == "odb_batch"]) == 2

    def test_that_the_connection_names_are_inherited_all_the_same(self, service):
        """A client could else take away what a proxy has added."""
        named = {"Connection": "X-Forwarded-For, Authorization", "X-Forwarded-For": "9.9.9.9", "Authorization": "Bearer 1"}
        found = batch(service, {"url": "a"}, headers={**CONTINUE, **named})["r0"]["body"]["headers"]
        assert (found["x-forwarded-for"], found["authorization"]) == ("9.9.9.9", "Bearer 1")
        assert "connection" not in found

    def test_of_an_answer(self, service):
        headers = batch(service, {"url": "price"})["r0"]["headers"]
        assert headers == {"content-type": "application/json", "vary": "A, B"}

    def test_of_one_name_many_are_joined_at_once(self):
        """One after another would take the time of their number in square: here some minutes."""
        lines = [("Cookie", "x" * 4_000), ("Vary", "A")] * 10_000
        began = time.process_time()
        found = header_dict([*lines, ("VARY", "B")])
        assert time.process_time() - began < 5
        assert found == {"cookie": "; ".join(["x" * 4_000] * 10_000), "vary": ", ".join(["A"] * 10_000 + ["B"])}


class TestBodies:
    def test_in_both_directions(self, service):
        body = {"method": "post", "url": "a", "headers": {"Content-Type": "image/png"}, "body": "_-8"}
        found = batch(
            service,
            {"url": "text"},
            {"url": "binary"},
            {"url": "price"},
            {"url": "gone"},
            body,
            {"method": "put", "url": "b", "body": {"a": [1]}},
        )
        assert found["r0"]["body"] == "Grüße" and "body" not in found["r3"]
        assert found["r1"]["body"] == base64.urlsafe_b64encode(bytes(range(256))).rstrip(b"=").decode()
        assert found["r4"]["body"]["body"] == "\xff\xef" and json.loads(found["r5"]["body"]["body"]) == {"a": [1]}
        assert found["r5"]["body"]["headers"]["content-type"] == "application/json"

    def test_numbers_keep_their_text(self, service):
        _, _, text = service.ask(
            "POST", "/odata/$batch", JSON, b'{"requests":[{"id":"a","method":"get","url":"price"}]}'
        )
        assert b'"body":{"Price": 9.990}' in text

    def test_answers_that_are_too_long_together(self, over):
        """A GET is answered 507; what was performed keeps its status."""
        service = over("/odata/$batch", max_size=599, width=1)
        found = batch(service, {"url": "long"}, {"url": "long"}, {"url": "long", "method": "post"}, {"url": "price"})
        assert [it["status"] for it in found.values()] == [200, 507, 200, 200]
        assert "body" not in found["r2"] and found["r3"]["body"] == {"Price": 9.99}

    def test_an_application_that_fails(self, service):
        found = batch(service, {"url": "fail"}, {"url": "price"})
        assert [it["status"] for it in found.values()] == [500, 200]

    def test_an_application_that_exits(self, service):
        with pytest.raises(SystemExit):
            batch(service, {"url": "exit"})
        assert service.middleware.budget.used == 0


class TestInspections:
    def test_see_each_request_as_it_is_dispatched_and_may_refuse_it(self, over):
        seen = []

        def inspect(request):
            seen.append((request.method, request.url, request.headers["authorization"], request.body))
            if unquote(urlsplit(request.url).path).startswith("/odata/admin/"):
                raise Refusal(403, "Denied", "not in a batch")

        service = over("/odata/$batch", inspect=inspect, width=1)
        found = batch(
            service,
            {"url": "a", "method": "post", "body": {"n": 1}},
            {"url": "%61dmin/users"},
            headers={**CONTINUE, "Authorization": "Bearer 1"},
        )
        assert [it["status"] for it in found.values()] == [200, 403] and len(service.seen) == 1
        assert seen == [
            ("POST", "http://host/odata/a", "Bearer 1", b'{"n": 1}'),
            ("GET", "http://host/odata/%61dmin/users", "Bearer 1", b""),
        ]


class TestOptions:
    def test_nothing_more_starts_after_a_stop(self, over):
        service = over("/odata/$batch", width=1, stop=lambda: len(service.seen) > 0)
        assert [it["status"] for it in batch(service, {"url": "a"}, {"url": "b"}).values()] == [200, 424]

    @pytest.mark.parametrize("options, line", [
        ({"timeout": 0}, "timeout must be above 0, or None, not 0"), ({"deadline": -1}, "deadline must be above 0, or None, not -1"),
        ({"limit": 0}, "limit must be a whole number above 0, not 0"), ({"limit": True}, "limit must be a whole number above 0, not True"),
        ({"memory": 5}, "memory must be at least max_size, 16777216, not 5"),
    ])  # fmt: skip
    def test_that_are_wrong(self, over, options, line):
        with pytest.raises(ValueError, match=line):
            over("/odata/$batch", **options)


class TestCompressedBatches:
    @pytest.mark.parametrize("coding, status", [
        ("gzip", 415), ("identity, br", 415), ("Deflate", 415), ("identity", 200), ("", 200),
    ])  # fmt: skip
    def test_are_refused(self, service, coding, status):
        found, headers, text = service.ask(
            "POST", "/odata/$batch", {**CONTINUE, "Content-Encoding": coding}, b'{"requests":[]}'
        )
        assert found == status
        assert status == 200 or json.loads(text)["error"]["code"] == "BadEncoding" and headers["accept-encoding"] == "identity"


class TestRepeatableBatches:
    @pytest.mark.parametrize("name", ["Repeatability-Request-ID", "Repeatability-First-Sent"])
    def test_are_refused(self, service, name):
        status, headers, text = service.ask("POST", "/odata/$batch", {**CONTINUE, name: "a"}, b'{"requests":[]}')
        assert (status, json.loads(text)["error"]["code"]) == (501, "NotRepeatable")
        assert headers["repeatability-result"] == "rejected"


class TestGroups:
    def test_are_performed_in_their_transaction(self, over):
        steps = []

        @contextlib.contextmanager
        def transaction(name):
            steps.append(threading.get_ident())
            yield
            steps.append("commit")

        @contextlib.asynccontextmanager
        async def asynchronous(name):
            with transaction(name):
                yield

        # Under ASGI a transaction that may block the loop is refused.
        service = over("/odata/$batch", transaction=asynchronous if issubclass(over, OverAsgi) else transaction)
        group = {"method": "post", "url": "a", "atomicityGroup": "g"}
        assert {it["status"] for it in batch(service, group, group).values()} == {200}
        assert {it["status"] for it in batch(service, group, {**group, "url": "missing"}).values()} == {424, 404}
        assert steps[1::2][:1] == ["commit"] and steps.count("commit") == 1
