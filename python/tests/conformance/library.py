"""The application of docs/conformance.md, by WSGI: it passes each request on to a service at a port of the loopback."""

import http.client
import os
from urllib.parse import quote

OF_A_CONNECTION = ("Connection", "Date", "Server")


def app(environ, start_response):
    body = environ["wsgi.input"].read(int(environ.get("CONTENT_LENGTH") or 0))
    headers = {name[5:].replace("_", "-"): it for name, it in environ.items() if name.startswith("HTTP_")}
    if body:
        headers["Content-Type"] = environ["CONTENT_TYPE"]
    target = quote(environ["PATH_INFO"], encoding="latin-1") + "?" * bool(environ["QUERY_STRING"]) + environ["QUERY_STRING"]
    connection = http.client.HTTPConnection("127.0.0.1", int(os.environ["LIBRARY_PORT"]))
    try:
        connection.request(environ["REQUEST_METHOD"], target, body or None, headers)
        answer = connection.getresponse()
        given = [(name, it) for name, it in answer.getheaders() if name.title() not in OF_A_CONNECTION]
        start_response(f"{answer.status} {answer.reason}", given)
        return [answer.read()]
    finally:
        connection.close()
