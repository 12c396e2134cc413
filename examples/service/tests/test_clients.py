"""Clients that send bad requests, or do not wait for an answer: the service continues."""

import json
import os
import re
import socket

import pytest

from common import BATCH_URL, JSON, SECONDS, new_book, request, rows, states_of, until
from exchanges import ClientTest, everything, head, post

MAX_BODY = 16_777_216
BATCH = json.dumps({"requests": [request("a", "get", "Books")]}).encode()
# The states of a connection that the service has not closed: the client has not closed it, or it has.
OPEN, HALF_CLOSED = 1, 8
# A group that fails, in a document of some length.
GROUP = [new_book("a", "m", "g"), new_book("b", "dune", "g")]
UNDONE = json.dumps({"requests": GROUP, "note@here": "n" * 9999}).encode()


class TestRefusals(ClientTest):
    def test_refuses_other_media_types(self):
        for media in ("multipart/mixed; boundary=b", "text/plain", "application/jsonl", None):
            status, value = self.client.ask("POST", BATCH_URL, BATCH, {"Content-Type": media} if media else {})
            assert (status, set(value)) == (415, {"error"}), media
            assert self.client.headers["Accept"] == "application/json"
        for media in ("application/json;odata.metadata=none", "Application/JSON"):
            status, _ = self.client.ask("POST", BATCH_URL, BATCH, {"Content-Type": media})
            assert status == 200

    @pytest.mark.parametrize("document, code, name, place", [
        (b"", "F02", "NotJson", "batch"),
        (b"[]", "F03", "NotObject", "batch"),
        (b'{"requests":[7]}', "F10", "NotRequestObject", "/requests/0"),
        (b'{"requests":[{"id":"a","method":"get","url":"/$batch"}]}', "F22", "NestedBatch", "/requests/0"),
        pytest.param(b" " * MAX_BODY, "F02", "NotJson", "batch", id="blanks"),
    ])  # fmt: skip
    def test_refuses_a_batch_by_its_least_fault(self, document, code, name, place):
        status, value = self.client.ask("POST", BATCH_URL, document)
        error = value["error"]
        assert (status, error["code"], error["target"]) == (400, code, place)
        # It begins with the id of the request, if there is one.
        assert error["message"].startswith(f"{'a: ' if code == 'F22' else ''}{name}: ")

    @pytest.mark.parametrize("path, size", [(BATCH_URL, MAX_BODY), ("/library/Books", 2**20)], ids=["batch", "alone"])
    @pytest.mark.parametrize("sends_all", [False, True])
    def test_refuses_a_long_body(self, path, size, sends_all):
        lines = ["Content-Type: application/json", f"Content-Length: {size + 1}"]
        with self.connect() as connection:
            connection.sendall(head(*lines, path=path) + b" " * (size + 1 if sends_all else 1000))
            self.assert_answers(connection.recv(65536), 413)

    def test_takes_a_body_in_chunks(self):
        chunked = b"%x\r\n%s\r\n0\r\n\r\n" % (len(BATCH), BATCH)
        lines = "Content-Type: application/json", "Transfer-Encoding: chunked"
        self.assert_answers(self.exchange(head(*lines) + chunked), 200)

    def test_waits_for_a_body_that_is_announced(self):
        with self.connect() as connection:
            connection.sendall(post(BATCH, "Expect: 100-continue", "Connection: close")[: -len(BATCH)])
            assert connection.recv(65536) == b"HTTP/1.1 100 Continue\r\n\r\n"
            connection.sendall(BATCH)
            self.assert_answers(everything(connection), 200)

    def test_answers_the_next_request_of_a_connection(self):
        for method, path, headers, wanted in [
            ("POST", BATCH_URL, {"Content-Type": "text/plain"}, 415),
            ("POST", BATCH_URL, JSON, 400),
            ("HEAD", "/library/Books", {}, 200),
            ("POST", "/library/Nothing", JSON, 400),
            ("GET", "/library/Books", {}, 200),
        ]:
            status, _ = self.client.ask(method, path, b"{" if method == "POST" else None, headers)
            assert status == wanted

    def test_logs_a_line_for_each_request_it_performs(self):
        self.exchange("GET /library/logged%1b[2J%c3%bf HTTP/1.1\r\nHost: here\r\n\r\n".encode("latin-1"))
        self.client.ask("GET", "/library/logged")
        wanted = re.compile(r"GET '/library/logged.*' '' 404$")
        assert len(until(lambda: list(filter(wanted.search, self.service.lines)), lambda it: len(it) == 2)) == 2
        assert all(line.isprintable() for line in self.service.lines)


@pytest.mark.slow
class TestConnections(ClientTest):
    @pytest.mark.parametrize("path", [BATCH_URL, "/library/Books"])
    def test_answers_a_body_that_is_cut(self, path):
        self.assert_answers(self.exchange(post(BATCH).replace(BATCH_URL.encode(), path.encode())[:-5]), 400, "CutBody")

    @pytest.mark.parametrize("data", [b"", head()[:20], post(BATCH)[:-10]], ids=["nothing", "head", "body"])
    def test_cuts_off_a_client_that_stops_sending(self, data):
        with self.connect() as connection:
            connection.sendall(data)
            assert everything(connection).split(b" ")[1:2] in ([], [b"408"])

    @pytest.mark.skipif(not os.path.exists("/proc/net/tcp"), reason="there is no /proc")
    def test_cuts_off_a_client_that_takes_no_answer(self):
        book = {"Id": "long", "Title": "t" * 100_000}
        assert self.client.ask("POST", "/library/Books", book)[0] == 201
        document = json.dumps({"requests": [request(f"r{k}", "get", "Books('long')") for k in range(150)]})
        with self.connect() as connection:
            connection.sendall(post(document.encode()))
            assert connection.recv(1) == b"H"
            port = connection.getsockname()[1]
            assert until(lambda: states_of(self.service.port).get(port), lambda state: state != OPEN) != OPEN
            try:
                assert len(everything(connection)) < 100_000 * 150
            except ConnectionResetError:
                pass

    def test_more_idle_clients_than_threads_hold_others_up_for_a_while(self):
        idle = [self.connect() for _ in range(100)]
        assert self.client.ask("GET", "/library/Books")[0] == 200
        assert all(everything(it) == b"" for it in idle)

    def test_a_batch_whose_client_hangs_up_is_finished(self):
        requests = [new_book(f"r{k}", f"h{k}", group=f"g{k // 2}") for k in range(20)]
        with self.connect() as connection:
            connection.sendall(post(json.dumps({"requests": requests}).encode()))
        wanted = {f"h{k}" for k in range(20)}
        found = until(lambda: {id for id, *_ in rows(self.database)}, wanted.issubset)
        assert wanted <= found


def is_open(connection):
    """Whether the service has neither answered on a connection nor closed it."""
    connection.setblocking(False)
    try:
        connection.recv(1)
    except BlockingIOError:
        return True
    except OSError:
        pass
    return False


@pytest.mark.slow
class TestSlowClients(ClientTest):
    """Clients for which the service has much patience."""

    options = {"patience": SECONDS}

    @pytest.mark.parametrize("data", [b"", head()[:20], post(BATCH)[:-1]], ids=["nothing", "head", "body"])
    def test_hold_nobody_up(self, data):
        """A client without a request is cut off after five seconds, so a busy machine may try again."""
        assert any(self.is_answered_beside(data, f"quick{len(data)}-{turn}") for turn in range(10))

    def is_answered_beside(self, data, name):
        """Whether a batch is answered while twenty clients have sent a part of a request, and none is cut off."""
        slow = [self.connect() for _ in range(20)]
        for connection in slow:
            connection.sendall(data)
        assert self.client.statuses(new_book("a", name)) == {"a": 201}
        found = all(map(is_open, slow))
        for connection in slow:
            connection.close()
        return found


def held_by(process):
    """The kilobytes, threads and open files of a process."""
    with open(f"/proc/{process}/status", encoding="ascii") as file:
        found = dict(line.split(":", 1) for line in file)
    return int(found["VmRSS"].split()[0]), int(found["Threads"]), len(os.listdir(f"/proc/{process}/fd"))


@pytest.mark.slow
@pytest.mark.skipif(not os.path.isdir("/proc/self/fd"), reason="there is no /proc")
class TestMemory(ClientTest):
    """Requests of all kinds, and what the process holds before and after them."""

    KINDS = (
        post(BATCH),
        post(BATCH)[:-5],
        post(b'{"requests":[{"id":"a"}]}'),
        post(UNDONE),
        post(BATCH).replace(b"application/json", b"multipart/mixed"),
        post(b"{" * 100_000),
        head(f"Content-Length: {MAX_BODY + 1}"),
        head("Content-Type: application/json", "Transfer-Encoding: chunked") + b"0\r\n\r\n",
        head(method="GET", path="/library/Books"),
        b"hello\r\n\r\n",
    )

    def ask_all(self, count):
        for k in range(count):
            with self.connect() as connection:
                connection.sendall(self.KINDS[k % len(self.KINDS)])
                # Each third client hangs up before it is answered.
                if k % 3:
                    connection.shutdown(socket.SHUT_WR)
                    assert connection.recv(65536).startswith(b"HTTP/1.1 "), k

    def held(self):
        """The kilobytes, threads and open files of the processes that answer."""
        main = self.service.process.pid
        with open(f"/proc/{main}/task/{main}/children", encoding="ascii") as file:
            return tuple(map(sum, zip(*map(held_by, file.read().split()))))

    def held_at_rest(self):
        """What is held once the last connections are closed."""
        opened = lambda: [state for state in states_of(self.service.port).values() if state in (OPEN, HALF_CLOSED)]
        self.client.connection.close()
        assert until(opened, lambda found: not found) == []
        return self.held()

    def test_holds_no_more_after_2000_requests(self):
        """What leaks grows in each round; on a busy machine more threads answer at once in one, and each keeps some memory."""
        self.ask_all(1000)
        held = [self.held_at_rest()]
        grown = []
        while len(grown) < 3 and not any(kilobytes < 4096 for kilobytes in grown):
            self.ask_all(2000)
            held.append(self.held_at_rest())
            grown.append(held[-1][0] - held[-2][0])
        assert grown[-1] < 4096, "kilobytes"
        assert held[-1][1] <= held[0][1] + 4
        assert held[-1][2] <= held[0][2] + 8
        assert self.client.statuses(request("a", "get", "Books")) == {"a": 200}
