"""Applications that are served for their tests: by wsgiref, and by uvicorn where it is installed."""

import functools
import sys
import threading
import urllib.error
import urllib.request

import pytest

from common import SECONDS
from odb_batch.conformance import serving


def get(url, path="/here"):
    with urllib.request.urlopen(url + path, timeout=SECONDS) as answer:
        return answer.read().decode()


def wsgi(environ, start_response):
    start_response("200 OK", [("Content-Type", "text/plain")])
    return [environ["PATH_INFO"].encode()]


class Wsgi:
    def __call__(self, environ, start_response):
        return wsgi(environ, start_response)


async def asgi(scope, receive, send):
    assert scope["type"] == "http"
    await send({"type": "http.response.start", "status": 200, "headers": [(b"content-type", b"text/plain")]})
    await send({"type": "http.response.body", "body": scope["path"].encode()})


class Asgi:
    async def __call__(self, scope, receive, send):
        await asgi(scope, receive, send)


def returning(scope, receive, send):
    return asgi(scope, receive, send)


@pytest.mark.parametrize("app", [wsgi, Wsgi(), functools.partial(wsgi), lambda *of: wsgi(*of)])
def test_wsgi(app):
    with serving(app) as url:
        assert get(url) == "/here"
    with pytest.raises(urllib.error.URLError):
        get(url)


def test_requests_of_wsgi_are_answered_side_by_side():
    both = threading.Barrier(2, timeout=SECONDS)

    def app(environ, start_response):
        both.wait()
        return wsgi(environ, start_response)

    with serving(app) as url:
        other = threading.Thread(target=get, args=(url,))
        other.start()
        assert get(url) == "/here"
        other.join()


def test_what_an_application_raises_is_printed(capfd):
    def app(environ, start_response):
        raise KeyError("lost")

    with serving(app) as url, pytest.raises(urllib.error.HTTPError, match="500"):
        get(url)
    assert "KeyError: 'lost'" in capfd.readouterr().err


@pytest.mark.parametrize("app", [asgi, Asgi(), functools.partial(asgi), returning])
def test_asgi(app):
    pytest.importorskip("uvicorn")
    with serving(app) as url:
        assert get(url) == "/here"
    with pytest.raises(urllib.error.URLError):
        get(url)


def test_an_application_that_does_not_start(capfd):
    pytest.importorskip("uvicorn")

    async def app(scope, receive, send):
        await receive()
        await send({"type": "lifespan.startup.failed", "message": "no database"})

    with pytest.raises(RuntimeError, match="the application does not start; uvicorn has printed why"):
        with serving(app):
            pass
    assert "no database" in capfd.readouterr().err


def test_uvicorn_may_be_missing(monkeypatch):
    monkeypatch.setitem(sys.modules, "uvicorn", None)
    with pytest.raises(ImportError, match="an application of ASGI is served by uvicorn, which is not installed"):
        with serving(asgi):
            pass


def test_what_a_test_raises_ends_the_service():
    with pytest.raises(ZeroDivisionError):
        with serving(wsgi) as url:
            1 / 0
    with pytest.raises(urllib.error.URLError):
        get(url)
