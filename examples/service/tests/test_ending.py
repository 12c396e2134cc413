"""A service that is ended by a signal: what it has begun is answered first."""

import signal
import socket
import sqlite3
import threading
from contextlib import ExitStack, closing

import pytest

from common import SECONDS, Process, new_book, request, rows, until
from exchanges import everything, head, post

COUNT = 400


@pytest.mark.slow
class TestEnding:
    @pytest.fixture(autouse=True)
    def start(self, tmp_path):
        self.database = str(tmp_path / "library.sqlite")
        # What the service does not end by itself lasts longer than the tests wait.
        more = ["--graceful-timeout", str(4 * SECONDS)]
        with ExitStack() as self.opened, Process(self.database, patience=3, more=more) as self.service:
            yield

    def connect(self, data):
        connection = socket.create_connection(("127.0.0.1", self.service.port), timeout=SECONDS)
        self.opened.enter_context(connection).sendall(data)
        return connection

    def test_a_batch_is_answered_before_a_signal_ends_it(self):
        """Its client gets the whole answer, and what it says is there."""
        found = {}

        def ask():
            with self.service.client() as client:
                books = [new_book(f"r{k}", f"e{k}") for k in range(COUNT)]
                found.update(client.statuses(request("first", "get", "Books"), *books))

        asking = threading.Thread(target=ask)
        with closing(sqlite3.connect(self.database, isolation_level=None)) as database:
            database.execute("BEGIN IMMEDIATE")  # so that the batch waits with its first book
            asking.start()
            is_begun = lambda: any("GET '/library/Books' '' 200" in line for line in self.service.lines)
            assert until(is_begun, bool)
            self.service.process.send_signal(signal.SIGTERM)
            assert until(lambda: any("Handling signal: term" in line for line in self.service.lines), bool)
        status = self.service.process.wait(SECONDS)
        asking.join()
        assert found.pop("first") == 200
        assert found == {f"r{k}": 201 for k in range(COUNT)}
        assert len(rows(self.database)) == 2 + COUNT
        assert status == 0
        assert [line for line in self.service.lines if "Traceback" in line] == []

    def test_connections_without_a_whole_request_hold_it_up_for_a_while(self):
        idle = self.connect(head(method="HEAD", path="/library/Books"))
        assert idle.recv(65536).startswith(b"HTTP/1.1 200 ")
        in_body = self.connect(post(b"", "Expect: 100-continue").replace(b"h: 0", b"h: 2"))
        assert in_body.recv(65536).startswith(b"HTTP/1.1 100 ")
        in_body.sendall(b"{")
        self.connect(b"")
        self.connect(head()[:20])
        assert self.service.stop() == 0
        assert everything(idle) == b""
