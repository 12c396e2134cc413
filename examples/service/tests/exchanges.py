"""Requests as bytes, for heads and bodies that no client library sends."""

import json
import socket

from common import BATCH_URL, SECONDS, ServiceTest


def head(*lines, method="POST", path=BATCH_URL):
    return "\r\n".join([f"{method} {path} HTTP/1.1", "Host: here", *lines, "", ""]).encode()


def post(body, *lines):
    return head("Content-Type: application/json", f"Content-Length: {len(body)}", *lines) + body


def everything(connection):
    """What the service sends until it closes the connection."""
    found = b""
    while part := connection.recv(65536):
        found += part
    return found


class ClientTest(ServiceTest):
    """Tests that send bytes, to a service with little patience."""

    options = {"patience": 1.5}

    def connect(self):
        return self.opened.enter_context(socket.create_connection(("127.0.0.1", self.service.port), timeout=SECONDS))

    def exchange(self, data, then_close_writing=True):
        """Sends bytes on a connection of their own; returns what comes back."""
        with self.connect() as connection:
            connection.sendall(data)
            if then_close_writing:
                connection.shutdown(socket.SHUT_WR)
            return everything(connection)

    def assert_answers(self, found, status, code=None):
        first, _, body = found.partition(b"\r\n\r\n")
        assert first.split(b" ")[1:2] == [str(status).encode()], found[:300]
        if code is not None:
            assert json.loads(body)["error"]["code"] == code
