"""What WSGI and ASGI ask of a middleware in front of an application."""

import asyncio
import io
import json
import sys
from urllib.parse import unquote

import pytest

from odb_batch import asgi, wsgi
from odb_batch.driver import threads
from support.applications import JSON, OverAsgi, OverNewAsgi, OverWideWsgi, OverWsgi, batch

# Parts of an answer that stands for one without an end: a middleware that does not end it fails its test, and does not hang.
MANY = 10_000


def late(now):
    """An application of WSGI that takes a minute of a clock for its answer."""

    def app(environ, start_response):
        now[0] += 60
        start_response("200 OK", [("Content-Type", "text/plain")])
        return [b"late"]

    return app


class TestWsgi:
    def test_the_environment_of_a_request(self):
        service = OverWideWsgi("/odata/$batch")
        batch(service, {"url": "a%2Fb?x=%20"})
        environ = service.seen[0]
        assert (environ["RAW_URI"], environ["REQUEST_URI"], environ["PATH_INFO"]) == (
            "/odata/a%2Fb?x=%20",
            "/odata/a%2Fb?x=%20",
            "/odata/a/b",
        )
        assert "gunicorn.socket" not in environ and environ["wsgi.multithread"] is True

    @pytest.mark.parametrize("more, status", [
        ({"CONTENT_LENGTH": ""}, 411), ({"CONTENT_LENGTH": "", "wsgi.input_terminated": True}, 200), ({"CONTENT_LENGTH": "-1"}, 411),
        ({"CONTENT_LENGTH": "99"}, 400), ({"CONTENT_LENGTH": "99999999999"}, 413), ({"CONTENT_LENGTH": "9" * 5000}, 413),
        ({"CONTENT_LENGTH": "١"}, 411),
    ])  # fmt: skip
    def test_lengths(self, more, status):
        found, _, _ = OverWsgi("/odata/$batch").ask("POST", "/odata/$batch", JSON, b'{"requests":[]}', more=more)
        assert found == status

    def test_write_and_close(self):
        closed = []

        class Parts(list):
            def close(self):
                closed.append(True)

        def app(environ, start_response):
            write = start_response("200 OK", [("Content-Type", "text/plain")])
            write(b"first ")
            return Parts([b"second"])

        service = OverWsgi("/odata/$batch")
        service.middleware.app = app
        assert batch(service, {"url": "a"})["r0"]["body"] == "first second" and closed == [True]

    def test_a_request_that_changes_something_comes_to_its_end_however_long_its_answer_is(self):
        ended = []

        def app(environ, start_response):
            start_response("201 Created", [("Content-Type", "text/plain")])
            yield b"x" * 300
            yield b"x" * 300
            ended.append(environ["REQUEST_METHOD"])

        service = OverWsgi("/odata/$batch", max_size=400)
        service.middleware.app = app
        found = batch(service, {"url": "a"}, {"url": "b", "method": "post"})
        assert (found["r0"]["status"], found["r1"]["status"], ended) == (507, 201, ["POST"])
        assert "body" not in found["r1"]

    def test_an_answer_that_begins_anew_after_a_part_of_its_body_is_none(self):
        def app(environ, start_response):
            start_response("200 OK", [("Content-Type", "text/plain")])
            yield b"half"
            try:
                raise LookupError("as planned")
            except LookupError:
                start_response("503 Busy", [("Content-Type", "text/plain")], sys.exc_info())
            yield b"an error"

        service = OverWsgi("/odata/$batch")
        service.middleware.app = app
        found = batch(service, {"url": "a"})["r0"]
        assert (found["status"], found["body"]["error"]["code"]) == (500, "InternalError")

    @pytest.mark.parametrize(
        "app", [lambda environ, start_response: [b"nothing begun"], lambda environ, start_response: None]
    )
    def test_an_application_that_answers_nothing(self, app):
        service = OverWsgi("/odata/$batch")
        service.middleware.app = app
        assert batch(service, {"url": "a"})["r0"]["status"] == 500

    @pytest.mark.parametrize("method", ["get", "post"])
    @pytest.mark.parametrize("part", [b"x", b""])
    def test_an_answer_that_does_not_end_is_ended_by_the_timeout(self, method, part, monkeypatch):
        closed, now = [], [0.0]
        monkeypatch.setattr(wsgi, "monotonic", lambda: now[0])

        def app(environ, start_response):
            start_response("200 OK", [("Content-Type", "text/plain")])
            try:
                for _ in range(MANY):
                    now[0] += 20
                    yield part
            finally:
                closed.append(now[0])

        service = OverWsgi("/odata/$batch")
        service.middleware.app = app
        found = batch(service, {"url": "a", "method": method})["r0"]
        assert (found["status"], found["body"]["error"]["code"], closed) == (504, "Timeout", [40.0])

    def test_an_answer_that_comes_late_as_a_whole_is_taken(self, monkeypatch):
        now = [0.0]
        monkeypatch.setattr(wsgi, "monotonic", lambda: now[0])
        service = OverWsgi("/odata/$batch")
        service.middleware.app = late(now)
        assert batch(service, {"url": "a"})["r0"]["body"] == "late"

    @pytest.mark.parametrize("by_write", [True, False])
    def test_a_get_that_does_not_end_is_answered_507(self, by_write):
        ended = []

        def app(environ, start_response):
            write = start_response("200 OK", [("Content-Type", "text/plain")])
            try:
                for _ in range(MANY):
                    if by_write:
                        write(b"x" * 100)
                    yield b"" if by_write else b"x" * 100
            finally:
                ended.append(environ["PATH_INFO"])

        service = OverWsgi("/odata/$batch", max_size=400)
        service.middleware.app = app
        assert batch(service, {"url": "a"})["r0"]["status"] == 507 and ended == ["/odata/a"]

    def test_the_memory_of_a_batch_is_held_until_the_server_has_sent_its_answer(self):
        service = OverWsgi("/odata/$batch")
        budget, body = service.middleware.budget, b'{"requests":[{"id":"a","method":"get","url":"long"}]}'
        environ = {
            "REQUEST_METHOD": "POST", "PATH_INFO": "/odata/$batch", "CONTENT_TYPE": "application/json", "SCRIPT_NAME": "",
            "CONTENT_LENGTH": str(len(body)), "wsgi.input": io.BytesIO(body), "HTTP_HOST": "host",
        }  # fmt: skip
        parts = service.middleware(environ, lambda *_: None)
        assert b"".join(parts) and budget.used == len(body) + 300
        parts.close()
        assert budget.used == 0
        service.middleware({**environ, "wsgi.input": io.BytesIO(body)}, lambda *_: None)  # and dropped at once
        assert budget.used == 0

    def test_a_batch_without_memory_is_answered_503(self):
        service = OverWsgi("/odata/$batch", max_size=100, memory=100)
        service.middleware.budget.take(90)
        status, headers, text = service.ask("POST", "/odata/$batch", JSON, b'{"requests":[]}')
        assert (status, json.loads(text)["error"]["code"], headers["retry-after"]) == (503, "Busy", "1")
        assert service.middleware.budget.used == 90

    def test_a_deadline(self, monkeypatch):
        """What runs is waited for, and nothing more starts."""
        now = [0.0]
        monkeypatch.setattr(threads, "monotonic", lambda: now[0])
        service = OverWsgi("/odata/$batch", deadline=100)
        service.middleware.app = late(now)
        found = batch(service, *[{"url": "a"}] * 4)
        assert [it["status"] for it in found.values()] == [200, 200, 424, 424]

    def test_a_host_that_is_missing(self):
        service = OverWsgi("/odata/$batch")
        status, _, text = service.ask(
            "POST",
            "/odata/$batch",
            {**JSON, "Host": ""},
            b'{"requests":[{"id":"a","method":"get","url":"http://host/odata/price"}]}',
        )
        assert json.loads(text)["responses"][0]["status"] == 200


class TestAsgi:
    def over(self, app, **options):
        service = OverAsgi("/odata/$batch", **options)
        service.middleware.app = app
        return service

    def test_the_scope_of_a_request(self):
        for kind in (OverAsgi, OverNewAsgi):
            service = kind("/odata/$batch")
            batch(service, {"url": "a%2Fb?x=%20"}, prefix="/app")
            scope = service.seen[0]
            front = "/app" if kind.in_front else ""
            assert (scope["raw_path"], scope["query_string"]) == ((front + "/odata/a%2Fb").encode(), b"x=%20")
            assert (
                scope["path"] == front + "/odata/a/b" and "extensions" not in scope and scope["state"] == {"shared": []}
            )

    @pytest.mark.parametrize("prefix, url", [
        ("/a(b)", "x"), ("/a(b)", "/a(b)/odata/x"), ("/app", "/app/odata/x"), ("/ü", "x"), ("/ü", "/ü/odata/x"), ("/ü", "/%C3%BC/odata/x"),
        ("/app", "/%61pp/odata/x"), ("/app", "/app%2Fodata%2Fx"), ("/app", "/app/%6Fdata/x"), ("/ü", "/%c3%bc/odata/x"),
    ])  # fmt: skip
    def test_the_raw_path_is_that_of_the_path(self, prefix, url):
        for kind in (OverAsgi, OverNewAsgi):
            service = kind("/odata/$batch")
            assert batch(service, {"url": url}, prefix=prefix)["r0"]["status"] == 200
            assert unquote(service.seen[0]["raw_path"].decode()) == service.seen[0]["path"]

    def test_a_request_is_over_when_the_application_returns(self):
        """What comes after the answer may be the commit of a dependency."""
        steps = []

        async def app(scope, receive, send):
            await send({"type": "http.response.start", "status": 200})
            await send({"type": "http.response.body"})
            for _ in range(1000):
                await asyncio.sleep(0)
            steps.append(scope["path"])

        found = batch(self.over(app), {"url": "a"}, {"url": "b", "dependsOn": ["r0"]})
        assert steps == ["/odata/a", "/odata/b"] and found["r1"]["status"] == 200

    def test_receive_blocks_after_the_body(self):
        """A disconnect would end an answer that is streamed."""

        async def app(scope, receive, send):
            await receive()
            waiting = asyncio.ensure_future(receive())
            await asyncio.sleep(0.02)
            await send({"type": "http.response.start", "status": 418 if waiting.done() else 200})
            await send({"type": "http.response.body"})
            waiting.cancel()

        assert batch(self.over(app), {"url": "a"})["r0"]["status"] == 200

    @pytest.mark.parametrize("is_complete, status", [(True, 503), (False, 500)])
    def test_an_exception_after_the_answer_or_in_it(self, is_complete, status, caplog):
        """Starlette raises again what it has answered; an answer that is cut is none."""

        async def app(scope, receive, send):
            await send({"type": "http.response.start", "status": 503})
            await send({"type": "http.response.body", "body": b"a", "more_body": not is_complete})
            raise RuntimeError("as planned")

        assert batch(self.over(app), {"url": "a"})["r0"]["status"] == status
        assert ("as planned" in caplog.text) == (not is_complete)

    def test_an_exception_after_a_success_fails_the_request(self):
        """It may be that of a commit, so nothing that needs the request is sent."""

        async def app(scope, receive, send):
            await send({"type": "http.response.start", "status": 201})
            await send({"type": "http.response.body"})
            raise RuntimeError("as planned")

        found = batch(self.over(app), {"url": "a"}, {"url": "b", "dependsOn": ["r0"]})
        assert (found["r0"]["status"], found["r1"]["status"]) == (500, 424)

    def test_receive_says_after_the_answer_that_the_client_has_gone(self):
        async def app(scope, receive, send):
            await receive()
            await send({"type": "http.response.start", "status": 200})
            await send({"type": "http.response.body"})
            assert (await receive())["type"] == "http.disconnect"

        assert batch(self.over(app, timeout=5), {"url": "a"})["r0"]["status"] == 200

    def test_an_application_that_answers_half(self):
        async def app(scope, receive, send):
            await send({"type": "http.response.start", "status": 200})

        assert batch(self.over(app), {"url": "a"})["r0"]["status"] == 500

    def test_a_timeout(self):
        async def app(scope, receive, send):
            await asyncio.sleep(5)

        assert batch(self.over(app, timeout=0.05), {"url": "a"})["r0"]["status"] == 504

    def test_a_client_that_hangs_up(self):
        async def main():
            sent = []

            async def receive():
                return {"type": "http.disconnect"}

            async def send(message):
                sent.append(message)

            scope = {
                "type": "http",
                "method": "POST",
                "path": "/$batch",
                "headers": [(b"content-type", b"application/json")],
            }
            await asgi.BatchMiddleware(None)(scope, receive, send)
            return sent[0]["status"]

        assert asyncio.run(main()) == 400

    def test_other_protocols_are_for_the_application(self):
        async def app(scope, receive, send):
            seen.append(scope["type"])

        seen = []
        for kind in ("lifespan", "websocket"):
            asyncio.run(asgi.BatchMiddleware(app)({"type": kind, "path": "/$batch"}, None, None))
        assert seen == ["lifespan", "websocket"]

    def test_at_once_bounds_all_batches_of_a_loop(self):
        now, most = [0], [0]

        async def app(scope, receive, send):
            now[0] += 1
            most[0] = max(most[0], now[0])
            await asyncio.sleep(0.01)
            now[0] -= 1
            await send({"type": "http.response.start", "status": 200})
            await send({"type": "http.response.body"})

        service = self.over(app, at_once=3)
        for _ in range(2):  # each time in another loop
            assert {it["status"] for it in batch(service, *[{"url": "a"}] * 8).values()} == {200}
        assert most[0] == 3
