"""Answers of every kind, headers and timeouts, and transactions that views break, over HTTP."""

import base64
import json
import secrets
import socket

import pytest

from support.servers import CONTINUE, until


@pytest.fixture(scope="module", params=["odd_flask", "odd_fastapi", "odd_django"])
def echoing(request, serve):
    return serve(request.param)


@pytest.fixture(scope="module", params=["odd_flask", "odd_fastapi"])
def odd(request, serve):
    return serve(request.param)


def test_what_a_request_inherits(echoing):
    outer = {
        **CONTINUE, "Authorization": "Bearer 1", "Cookie": "session=2", "If-Match": '"batch"', "Accept": "application/json",
        "Idempotency-Key": "of the batch", "Traceparent": "00-1", "Prefer": "continue-on-error, return=minimal",
    }  # fmt: skip
    headers = {"Accept": "text/plain", "Host": "evil", "Prefer": "maxpagesize=5"}
    found = echoing.batch(
        {"url": "echo?x=1", "headers": headers}, {"method": "post", "url": "echo", "body": {"a": 1}}, headers=outer
    )
    first, second = ({name.lower(): it for name, it in found[id]["body"]["headers"].items()} for id in ("r0", "r1"))
    for seen in (first, second):
        assert (seen["authorization"], seen["cookie"], seen["traceparent"]) == ("Bearer 1", "session=2", "00-1")
        assert seen["host"] == f"127.0.0.1:{echoing.port}" and not {"if-match", "idempotency-key"} & seen.keys()
    assert (first["accept"], second.get("accept")) == ("text/plain", None)
    assert (first["prefer"], second["prefer"]) == ("maxpagesize=5, return=minimal", "return=minimal")
    assert found["r0"]["body"]["url"] == f"{echoing.url}echo?x=1"
    assert (second["content-type"], json.loads(found["r1"]["body"]["body"])) == ("application/json", {"a": 1})


def test_a_proxy_that_strips_a_header_is_not_passed(serve):
    flask = serve("odd_flask")
    assert flask.statuses({"url": "echo", "headers": {"X-Forwarded-For": "6.6.6.6"}}) == [400]
    found = flask.batch({"url": "echo"}, headers={**CONTINUE, "X-Forwarded-For": "9.9.9.9"})
    assert (found["r0"]["body"]["from"], found["r0"]["body"]["raw"]) == ("9.9.9.9", "/odata/echo")


def test_answers_of_every_kind(odd):
    found = odd.batch(*({"url": it} for it in ("text", "binary", "stream", "fail")))
    assert (found["r0"]["body"], found["r2"]["body"]) == ("Grüße", "part 0\npart 1\npart 2\n")
    assert found["r1"]["body"] == base64.urlsafe_b64encode(bytes(range(256))).rstrip(b"=").decode()
    assert [it["status"] for it in found.values()] == [200, 200, 200, 500]


def test_an_answer_that_does_not_end(odd):
    """It is ended, and the next request is answered."""
    for _ in range(4):
        assert odd.statuses({"url": "events"}, {"url": "text"}) == [507, 200]


class TestFastapi:
    @pytest.fixture(scope="class")
    def app(self, serve):
        return serve("odd_fastapi")

    def test_a_request_that_takes_too_long(self, app):
        assert app.statuses({"url": "slow"}, {"url": "echo"}, {"url": "echo", "dependsOn": ["r0"]}) == [504, 200, 424]

    def test_a_client_that_leaves(self, serve):
        """Nothing more of its batch starts; what runs comes to its end."""
        app = serve("odd_fastapi")
        chain = [{"id": str(k), "method": "delete", "url": f"held/{k}", "dependsOn": [str(k - 1)] if k else []} for k in range(4)]
        batch = json.dumps({"requests": chain}).encode()
        head = f"POST /odata/$batch HTTP/1.1\r\nHost: a\r\nContent-Type: application/json\r\nContent-Length: {len(batch)}\r\n\r\n"

        def seen(name):
            return json.loads(app.ask("GET", "/odata/held")[2])[name]

        with socket.create_connection(("127.0.0.1", app.port)) as client:
            client.sendall(head.encode() + batch)
            until(lambda: seen("held") == ["0"])
        until(lambda: any("has gone" in line for line in seen("lines")))
        app.ask("DELETE", "/odata/held/release")
        until(lambda: "0" in seen("done"))
        assert seen("held") == ["0", "release"]

    def test_a_file(self, app):
        assert app.batch({"url": "file"})["r0"]["body"].startswith('"""Answers of every kind in FastAPI')

    @pytest.mark.parametrize("name", ["work", "later"])
    def test_what_comes_after_the_answer_is_over_before_the_next_request(self, app, name):
        chain = [{"method": "post", "url": name, "dependsOn": [f"r{k - 1}"] if k else []} for k in range(4)]
        counts = [it["body"]["committed"] for it in app.batch(*chain).values()]
        assert counts == list(range(counts[0], counts[0] + 4))


class TestDjango:
    """`atomic()` alone is wrong twice, which the transaction of the package is not."""

    @pytest.fixture(scope="class")
    def app(self, serve):
        return serve("odd_django")

    def batch(self, app, name, *given):
        requests = [{"id": f"r{k}", "method": "post", "atomicityGroup": "g", **it} for k, it in enumerate(given)]
        status, _, text = app.ask("POST", f"/{name}/$batch", json.dumps({"requests": requests}), CONTINUE)
        assert status == 200, text
        return [it["status"] for it in json.loads(text)["responses"]]

    def kept(self, app):
        return json.loads(app.ask("GET", "/odata/notes")[2])["value"]

    def note(self, id, kind="notes"):
        return {"url": f"/odata/{kind}", "body": {"Id": id}}

    def test_the_connection_stays_open(self, app):
        """Each request of a group would close the connection of its transaction."""
        for name, is_kept in (("atomic", False), ("open", True), ("group", True)):
            ids = [secrets.token_hex(4) for _ in range(2)]
            statuses = self.batch(app, name, *map(self.note, ids))
            assert (statuses == [201, 201], set(ids) <= set(self.kept(app))) == (is_kept, is_kept), name

    def test_a_view_that_catches_an_error_of_the_database(self, app):
        """Its transaction is rolled back without an exception: the client would be answered 2xx, and nothing kept."""
        for name, wanted in (("open", [201, 200]), ("group", [424, 500])):
            there, new = secrets.token_hex(4), secrets.token_hex(4)
            assert app.ask("POST", "/odata/notes", json.dumps({"Id": there}))[0] == 201
            assert self.batch(app, name, self.note(new), self.note(there, "forgiving")) == wanted, name
            assert new not in self.kept(app)

    def test_a_hook_that_fails_after_the_commit(self, app):
        """The group is committed, so it must not be answered as undone."""
        for name, wanted in (("open", [424, 500]), ("group", [201, 201])):
            ids = [secrets.token_hex(4) for _ in range(2)]
            assert self.batch(app, name, self.note(ids[0]), self.note(ids[1], "hooked")) == wanted, name
            assert set(ids) <= set(self.kept(app))
