"""Small applications of WSGI and ASGI with `$batch` in front of them, for the tests of the middleware."""

import asyncio
import io
import json

from odb_batch import asgi, wsgi

JSON = {"Content-Type": "application/json"}
CONTINUE = {**JSON, "Prefer": "continue-on-error"}
# What the application answers at these paths: a status, a type and a body.
ANSWERS = {
    "/odata/binary": (200, "image/png", bytes(range(256))),
    "/odata/text": (200, "text/plain; charset=iso-8859-1", "Grüße".encode("latin-1")),
    "/odata/long": (200, "text/plain", b"x" * 300),
    "/odata/missing": (404, "application/json", b'{"error":{"code":"Bad","message":"no"}}'),
    "/odata/gone": (204, "text/plain", b""),
    "/odata/price": (200, "application/json", b'{"Price": 9.990}'),
}


def echoed(method, path, query, headers, body):
    """The answer to a request as the application sees it."""
    status, kind, data = ANSWERS.get(path, (200, "application/json", None))
    if path == "/odata/fail":
        raise RuntimeError("as planned")
    if path == "/odata/exit":
        raise SystemExit(7)
    seen = {"method": method, "path": path, "query": query, "headers": headers, "body": body.decode("latin-1")}
    return status, kind, json.dumps(seen).encode() if data is None else data


class OverWsgi:
    """An application of WSGI, and the middleware in front of it."""

    Middleware = wsgi.BatchMiddleware

    def __init__(self, *options, **more):
        self.seen = []
        self.middleware = self.Middleware(self.app, *options, **more)

    def app(self, environ, start_response):
        self.seen.append(environ)
        headers = {name[5:].replace("_", "-").lower(): it for name, it in environ.items() if name.startswith("HTTP_")}
        headers["content-type"] = environ.get("CONTENT_TYPE", "")
        path = environ["SCRIPT_NAME"] + environ["PATH_INFO"]
        body = environ["wsgi.input"].read(int(environ.get("CONTENT_LENGTH") or 0))
        path = path.encode("latin-1").decode()
        status, kind, data = echoed(environ["REQUEST_METHOD"], path, environ["QUERY_STRING"], headers, body)
        start_response(
            f"{status} As it is", [("Content-Type", kind), ("Set-Cookie", "a=b"), ("Vary", "A"), ("Vary", "B")]
        )
        return [data]

    def ask(self, method, path, headers, body=b"", prefix="", more=None):
        environ = {
            "REQUEST_METHOD": method, "SCRIPT_NAME": prefix, "PATH_INFO": path, "QUERY_STRING": "", "CONTENT_LENGTH": str(len(body)),
            "wsgi.input": io.BytesIO(body), "wsgi.url_scheme": "http", "SERVER_NAME": "host", "SERVER_PORT": "80",
            "REQUEST_URI": prefix + path, "RAW_URI": prefix + path, "gunicorn.socket": "a socket", "wsgi.multithread": False,
        }  # fmt: skip
        headers = {"Host": "host", **headers}
        environ["CONTENT_TYPE"] = headers.pop("Content-Type", "")
        environ.update({"HTTP_" + name.upper().replace("-", "_"): value for name, value in headers.items()})
        found = []
        text = b"".join(self.middleware({**environ, **(more or {})}, lambda *answer: found.append(answer)))
        (status, pairs) = found[0]
        return int(status[:3]), {name.lower(): value for name, value in pairs}, text


class OverAsgi:
    """An application of ASGI, and the middleware in front of it."""

    Middleware = asgi.BatchMiddleware
    in_front = False  # whether the path of a scope has its root_path in front

    def __init__(self, *options, **more):
        self.seen = []
        self.middleware = self.Middleware(self.app, *options, **more)

    async def app(self, scope, receive, send):
        self.seen.append(scope)
        headers = {name.decode(): value.decode("latin-1") for name, value in scope["headers"]}
        message = await receive()
        prefix = "" if self.in_front else scope["root_path"]
        query = scope["query_string"].decode()
        status, kind, data = echoed(scope["method"], prefix + scope["path"], query, headers, message["body"])
        pairs = [(b"content-type", kind.encode()), (b"set-cookie", b"a=b"), (b"vary", b"A"), (b"vary", b"B")]
        await send({"type": "http.response.start", "status": status, "headers": pairs})
        await send({"type": "http.response.body", "body": data[:10], "more_body": True})
        await send({"type": "http.response.body", "body": data[10:]})

    def ask(self, method, path, headers, body=b"", prefix=""):
        headers = {"Host": "host", **headers}
        scope = {
            "type": "http", "method": method, "root_path": prefix, "path": prefix + path if self.in_front else path, "scheme": "http",
            "query_string": b"", "headers": [(name.lower().encode(), value.encode("latin-1")) for name, value in headers.items()],
            "state": {"shared": []}, "extensions": {"http.response.pathsend": {}},
        }  # fmt: skip
        incoming = [{"type": "http.request", "body": part, "more_body": True} for part in (body[:7], body[7:])]
        incoming.append({"type": "http.request", "body": b""})
        sent = []

        async def receive():
            if not incoming:  # the client stays
                await asyncio.Event().wait()
            return incoming.pop(0)

        async def send(message):
            sent.append(message)

        asyncio.run(self.middleware(scope, receive, send))
        pairs = {name.decode(): value.decode() for name, value in sent[0]["headers"]}
        return sent[0]["status"], pairs, b"".join(it.get("body", b"") for it in sent[1:])


class OverNewAsgi(OverAsgi):
    in_front = True


class OverWideWsgi(OverWsgi):
    class Middleware(wsgi.BatchMiddleware):
        def __init__(self, app, *options, **more):
            super().__init__(app, *options, **{"width": 4, **more})


def batch(service, *given, headers=CONTINUE, prefix=""):
    """Sends a batch; returns its responses by their ids, r0, r1 and so on."""
    requests = [{"id": f"r{k}", "method": "get", **it} for k, it in enumerate(given)]
    status, _, text = service.ask("POST", "/odata/$batch", headers, json.dumps({"requests": requests}).encode(), prefix)
    assert status == 200, text
    return {it["id"]: it for it in json.loads(text)["responses"]}
