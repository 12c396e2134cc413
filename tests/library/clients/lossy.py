"""A service that refuses a fifth of the batches, hangs up on some, and loses the answers to others: the scripted one, which
keeps batches by their ids, as an application of WSGI for gunicorn.
"""

import itertools
import json
import random
import socket
import threading

from odb_batch.testing import Scripted

TROUBLES, CHANCES = ("answer", 429, "lose", "hang up"), (65, 20, 10, 5)
happened, lock = [], threading.Lock()


def schedule():
    """Each trouble once, then any by its chance."""
    chance = random.Random(7)
    for trouble in itertools.chain(TROUBLES, iter(lambda: chance.choices(TROUBLES, CHANCES)[0], None)):
        happened.append(trouble)
        yield trouble


service = Scripted(limit=20, retry_after=0, schedule=schedule(), repeatable=True)


def app(environ, start_response):
    if environ["REQUEST_METHOD"] == "GET":
        start_response("200 OK", [("Content-Type", "application/json")])
        return [json.dumps({"performed": service.performed, "happened": happened}).encode()]
    names = ("Repeatability-Request-ID", "Repeatability-First-Sent")
    headers = {name: environ.get("HTTP_" + name.upper().replace("-", "_"), "") for name in names}
    with lock:
        try:
            status, given, body = service.post(environ["wsgi.input"].read(), headers)
        except ConnectionError:
            environ["gunicorn.socket"].shutdown(socket.SHUT_RDWR)
            status, given, body = 500, {}, b""
    start_response(f"{status} Answer", [*given.items(), ("Content-Length", str(len(body)))])
    return [body]
