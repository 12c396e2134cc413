"""Serves an application on a free port of the loopback, for its tests."""

import contextlib
import importlib
import inspect
import socket
import socketserver
import threading
import time
import wsgiref.simple_server
from typing import Any, Callable, Iterator

from ._testing import forget

# For how many seconds an application of ASGI may go on with its requests once it is not served any more.
GRACE = 5.0


@contextlib.contextmanager
def serving(app: Callable[..., Any]) -> Iterator[str]:
    """Serves an application while the block runs, as in tests of it; the value is its URL, without a slash at its end.

    An application of WSGI is served by ``wsgiref``, a thread for each request; one of ASGI by uvicorn. What
    an application raises is printed on standard error.

    Args:
        app: The application: of ASGI if it is a coroutine function or takes three arguments, else of WSGI.

    Raises:
        ImportError: The application is one of ASGI, and uvicorn is not installed.
        RuntimeError: An application of ASGI does not start.
    """
    with (_by_uvicorn if _is_asgi(app) else _by_wsgiref)(app) as url:
        forget()
        yield url


def _is_asgi(app: Callable[..., Any]) -> bool:
    """Whether an application is called as ASGI has it."""
    if inspect.iscoroutinefunction(app) or inspect.iscoroutinefunction(getattr(app, "__call__", None)):
        return True
    try:
        return len(inspect.signature(app).parameters) == 3
    except ValueError:
        return False


class _Threads(socketserver.ThreadingMixIn, wsgiref.simple_server.WSGIServer):
    """A server of WSGI that answers each request in a thread."""

    daemon_threads = True
    request_queue_size = 128


class _Silent(wsgiref.simple_server.WSGIRequestHandler):
    """Handles a request, and prints no line for it."""

    def log_message(self, *_: Any) -> None:
        pass


@contextlib.contextmanager
def _by_wsgiref(app: Callable[..., Any]) -> Iterator[str]:
    with wsgiref.simple_server.make_server("127.0.0.1", 0, app, _Threads, _Silent) as server:
        thread = threading.Thread(target=server.serve_forever, kwargs={"poll_interval": 0.02}, daemon=True)
        thread.start()
        try:
            yield f"http://127.0.0.1:{server.server_port}"
        finally:
            server.shutdown()
            thread.join()


@contextlib.contextmanager
def _by_uvicorn(app: Callable[..., Any]) -> Iterator[str]:
    try:
        uvicorn: Any = importlib.import_module("uvicorn")
    except ImportError:
        raise ImportError("an application of ASGI is served by uvicorn, which is not installed") from None
    with socket.socket() as bound:
        bound.bind(("127.0.0.1", 0))
        server = uvicorn.Server(uvicorn.Config(app, interface="asgi3", log_level="warning"))
        thread = threading.Thread(target=server.run, kwargs={"sockets": [bound]}, daemon=True)
        thread.start()
        try:
            while not server.started:
                if not thread.is_alive():
                    raise RuntimeError("the application does not start; uvicorn has printed why")
                time.sleep(0.01)
            yield f"http://127.0.0.1:{bound.getsockname()[1]}"
        finally:
            server.should_exit = True
            thread.join(GRACE)
            server.force_exit = True
            thread.join()
