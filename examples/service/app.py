"""The library as a WSGI application that answers $batch: any server for WSGI runs `make_app(FILE)`."""

import json
import logging
import socket
from decimal import Decimal
from http import HTTPStatus
from typing import Any, Dict, List, NoReturn
from urllib.parse import parse_qsl

from entities import ROOT, Request, perform
from odb_batch import Answer, Refusal
from odb_batch.wsgi import BatchMiddleware
from store import Store

LOG = logging.getLogger(__name__)
MAX_BODY = 1_048_576
FAILED = Refusal(500, "InternalError", "The service failed; its log says why").answer


def make_app(database: str, width: int = 1) -> BatchMiddleware:
    """The application.

    Args:
        database: The file of the database, which is made if it is missing.
        width: How many requests of a batch are performed at once.
    """
    store = Store(database)
    return BatchMiddleware(Library(store), f"{ROOT}$batch", transaction=store.group, width=width)


class Library:
    """Answers requests one by one: those that a client sends alone, and those of a batch."""

    def __init__(self, store: Store) -> None:
        self._store = store

    def __call__(self, environ: Dict[str, Any], start_response: Any) -> List[bytes]:
        try:
            answer = self._answer(environ)
        except Refusal as refusal:
            answer = refusal.answer
        except Exception:
            LOG.exception("%.200r failed", environ.get("PATH_INFO"))
            answer = FAILED
        headers = {"odata-version": "4.01", **answer.headers}
        body = b"" if answer.body is None else text_of(answer.body).encode()
        if body:
            headers.update({"content-type": "application/json", "content-length": str(len(body))})
        start_response(f"{answer.status} {HTTPStatus(answer.status).phrase}", list(headers.items()))
        return [b"" if environ["REQUEST_METHOD"] == "HEAD" else body]

    def _answer(self, environ: Dict[str, Any]) -> Answer:
        request = _request(environ)
        with self._store.session(is_writing=request.method != "GET") as database:
            try:
                answer = perform(database, request)
            except Refusal as refusal:
                _log(environ, request, refusal.answer)
                raise  # so that the transaction is rolled back
            _log(environ, request, answer)
            return answer


def _log(environ: Dict[str, Any], request: Request, answer: Answer) -> None:
    LOG.info("%s %.200r %.200r %d", request.method, request.path, environ.get("QUERY_STRING", ""), answer.status)


def _request(environ: Dict[str, Any]) -> Request:
    method = "GET" if environ["REQUEST_METHOD"] == "HEAD" else environ["REQUEST_METHOD"]
    path = environ.get("SCRIPT_NAME", "") + environ.get("PATH_INFO", "")
    headers = {name[5:].replace("_", "-").lower(): it for name, it in environ.items() if name.startswith("HTTP_")}
    options = dict(parse_qsl(environ.get("QUERY_STRING", ""), keep_blank_values=True))
    try:
        # WSGI has the bytes of a path as characters.
        path = path.encode("latin-1").decode()
    except UnicodeDecodeError:
        raise Refusal(400, "BadUrl", "The URL is not UTF-8") from None
    return Request(method, path, options, headers, _value(_body(environ), environ.get("CONTENT_TYPE", "")))


def _body(environ: Dict[str, Any]) -> bytes:
    """The body: as long as its head says, or up to its end if the server knows that."""
    given = environ.get("CONTENT_LENGTH", "")
    length = int(given) if given.isdecimal() else MAX_BODY if environ.get("wsgi.input_terminated") else 0
    if length > MAX_BODY:
        raise Refusal(413, "TooLong", f"A body may have {MAX_BODY} bytes")
    try:
        data: bytes = environ["wsgi.input"].read(length)
    except socket.timeout:
        raise Refusal(408, "TooSlow", "The body did not come in time") from None
    if given and len(data) < length:
        raise Refusal(400, "CutBody", f"The body has {len(data)} bytes of {length}")
    return data


def _value(data: bytes, content_type: str) -> Any:
    """The value of a body, or None if there is none. A number with a fraction is a Decimal, which keeps its digits."""
    if not data:
        return None
    if content_type.partition(";")[0].strip().lower() not in ("", "application/json"):
        raise Refusal(415, "BadMediaType", "An entity is in application/json")
    try:
        return json.loads(data, parse_float=Decimal, parse_constant=_refuse)
    except (ValueError, ArithmeticError, RecursionError) as error:
        raise Refusal(400, "NotJson", f"The body is not JSON: {error}") from None


def _refuse(constant: str) -> NoReturn:
    raise ValueError(f"{constant} is no number of JSON")


def text_of(value: Any) -> str:
    """The JSON of a value, with the digits of a Decimal, which json.dumps cannot write."""
    if isinstance(value, dict):
        return "{%s}" % ",".join(f"{json.dumps(name)}:{text_of(it)}" for name, it in value.items())
    if isinstance(value, list):
        return "[%s]" % ",".join(map(text_of, value))
    return str(value) if isinstance(value, Decimal) else json.dumps(value)
