"""Batches that are sent over HTTP by requests and by httpx: to a service that is scripted, to the lending library, and
to one that hangs up."""

import asyncio
import contextlib
import socket
import threading
from decimal import Decimal

import pytest

from app import make_app
from odb_batch.client import AsyncBatchClient, Batch, BatchClient, RequestFailed, batch_headers
from odb_batch.conformance import serving
from odb_batch.testing import Scripted
from support.servers import free_port


def by_requests(url):
    """Sends a batch by requests, whose `Session` keeps the connection."""
    requests = pytest.importorskip("requests", reason="requests is not installed")

    def send(batch, **options):
        with requests.Session() as session:

            def post(document):
                return session.post(url, data=document, headers=batch_headers(), timeout=60)

            return batch.send(post, **options)

    return send


def by_httpx(url):
    """Sends a batch by httpx, in tasks."""
    httpx = pytest.importorskip("httpx", reason="httpx is not installed")

    async def send(batch, options):
        async with httpx.AsyncClient(timeout=60) as client:

            async def post(document):
                answer = await client.post(url, content=document, headers=batch_headers())
                return answer.status_code, answer.headers, answer.content

            return await batch.send_async(post, **options)

    return lambda batch, **options: asyncio.run(send(batch, options))


@pytest.fixture(params=[by_requests, by_httpx], ids=["requests", "httpx"])
def client(request):
    return request.param


def application(service, heard):
    """A scripted service as an application of WSGI."""

    def answer(environ, start_response):
        heard.append((environ["CONTENT_TYPE"], environ["HTTP_PREFER"], environ["HTTP_ACCEPT"]))
        status, given, body = service.post(environ["wsgi.input"].read(int(environ["CONTENT_LENGTH"])))
        start_response(f"{status} Answer", [*given.items(), ("Content-Length", str(len(body)))])
        return [body]

    return answer


def test_parts_of_twenty(client):
    service, heard, batch = Scripted({"r30": [429, 201]}, limit=20, retry_after=7, schedule=[503]), [], Batch()
    order = batch.post("Orders", {})
    lines = [batch.post(f"{order}/Lines", {"Price": 9.99}, id=f"r{k}") for k in range(46)]
    with serving(application(service, heard)) as url:
        send = client(url)
        refused = send(batch, limit=20)
        assert {it.status for it in refused.values()} == {503, 424} and refused.retry_after == 7
        results = send(refused.rest(), limit=20)
        assert [it.id for it in results.values() if not it.is_success] == ["r30"] and results.retry_after == 7
        assert send(results.rest())[lines[30]].is_success
    assert len(service.documents) == 5
    assert set(heard) == {("application/json", "continue-on-error", "application/json")}


def test_too_many_requests_in_a_batch(client):
    batch = Batch()
    for _ in range(3):
        batch.get("Books")
    with serving(application(Scripted(limit=2), [])) as url:
        assert {it.status for it in client(url)(batch).values()} == {413}


@pytest.mark.parametrize("limit", [2, 20])
def test_the_lending_library(client, limit, tmp_path):
    batch = Batch()
    book = batch.post("Books", {"Id": "solaris", "Title": "Solaris", "Price": Decimal("9.990")})
    read = batch.get(book)
    with batch.group():
        batch.patch(book, {"Shelf": "A1"}, headers={"If-Match": book})
        batch.post("Books", {"Id": "ubik", "Title": "Ubik"})
    late = batch.patch(book, {"Shelf": "A2"}, headers={"If-Match": book}, after="g1")
    with serving(make_app(str(tmp_path / "library.sqlite"))) as url:
        results = client(f"{url}/library/$batch")(batch, limit=limit)
    assert b'"Price":9.990' in results[read].body
    # What is in the group has changed the book, so its first ETag is an old one.
    assert [it.status for it in results.values()] == [201, 200, 204, 201, 412] and results.error is None
    assert str(RequestFailed(results[late])).startswith(f"{late.id} (PATCH $1) 412 ")


def posts_of_requests(url, timeout=60, **options):
    """Sends a batch by a function that returns the response of requests."""
    requests = pytest.importorskip("requests", reason="requests is not installed")

    def send(batch):
        with requests.Session() as session:

            def post(document):
                return session.post(url, data=document, headers=batch_headers(), timeout=timeout, **options)

            return batch.send(post)

    return send


def posts_of_httpx(url, timeout=60):
    """Sends a batch by a function that returns the response of httpx."""
    httpx = pytest.importorskip("httpx", reason="httpx is not installed")

    def send(batch):
        with httpx.Client(timeout=timeout) as client:
            return batch.send(lambda it: client.post(url, content=it, headers=batch_headers()))

    return send


def awaits_of_httpx(url, timeout=60):
    """Sends a batch by a function that returns a promise of the response of httpx."""
    httpx = pytest.importorskip("httpx", reason="httpx is not installed")

    async def send(batch):
        async with httpx.AsyncClient(timeout=timeout) as client:
            return await batch.send_async(lambda it: client.post(url, content=it, headers=batch_headers()))

    return lambda batch: asyncio.run(send(batch))


@pytest.fixture(params=[posts_of_requests, posts_of_httpx, awaits_of_httpx])
def posting(request):
    return request.param


def test_a_response_is_returned_as_it_is(posting):
    batch = Batch()
    order = batch.post("Orders", {"Price": Decimal("9.990")})
    with serving(application(Scripted(schedule=[503], retry_after=7), [])) as url:
        refused = posting(url)(batch)
        results = posting(url)(refused.rest())
    assert refused[order].status == 503 and refused.retry_after == 7
    assert results[order].status == 201 and results[order].headers["location"] == "/Made('1')"


@contextlib.contextmanager
def silent():
    """A server that reads, and answers nothing as long as it is open."""
    with socket.create_server(("127.0.0.1", 0)) as server:
        taken = []

        def serve():
            with contextlib.suppress(OSError):
                while True:
                    taken.append(server.accept()[0])

        threading.Thread(target=serve, daemon=True).start()
        yield f"http://127.0.0.1:{server.getsockname()[1]}/"
        server.shutdown(socket.SHUT_RDWR)
        for connection in taken:
            connection.close()


def test_a_timeout_of_the_client_of_http(posting):
    batch = Batch()
    batch.get("A")
    batch.post("B", {})
    with silent() as url:
        results = posting(url, timeout=0.2)(batch)
    assert [it.status for it in results.values()] == [504, 504] and type(results.error).__module__.partition(".")[0] in ("requests", "httpx")


def test_a_service_that_is_not_there(posting):
    batch = Batch()
    batch.get("A")
    assert posting(f"http://127.0.0.1:{free_port()}/")(batch)["1"].status == 502


@contextlib.contextmanager
def hanging_up():
    """A server that reads a little, and hangs up."""
    with socket.create_server(("127.0.0.1", 0)) as server:

        def serve():
            with contextlib.suppress(OSError):
                while True:
                    connection, _ = server.accept()
                    connection.recv(10)
                    connection.close()

        threading.Thread(target=serve, daemon=True).start()
        yield f"http://127.0.0.1:{server.getsockname()[1]}/"
        server.shutdown(socket.SHUT_RDWR)


def test_a_service_that_hangs_up(client):
    batch = Batch()
    batch.get("A")
    batch.post("B", {})
    batch.get("C")
    with hanging_up() as url:
        results = client(url)(batch, limit=2)
    assert [it.status for it in results.values()] == [502, 502, 424] and isinstance(results.error, Exception)
    assert len(results.rest()) == 2


@contextlib.contextmanager
def breaking_off():
    """A server that reads a batch, and breaks off in the body of its answer."""
    with socket.create_server(("127.0.0.1", 0)) as server:

        def serve():
            connection, _ = server.accept()
            read = b""
            while not read.endswith(b"]}"):
                read += connection.recv(1000)
            connection.sendall(b"HTTP/1.1 200 OK\r\nTransfer-Encoding: chunked\r\n\r\n64\r\n{")
            connection.close()

        threading.Thread(target=serve, daemon=True).start()
        yield f"http://127.0.0.1:{server.getsockname()[1]}/"


def test_a_body_that_is_read_late_and_breaks_off():
    requests = pytest.importorskip("requests", reason="requests is not installed")
    batch = Batch()
    batch.get("A")
    with breaking_off() as url:
        results = posts_of_requests(url, stream=True)(batch)
    assert results["1"].status == 502 and isinstance(results.error, requests.exceptions.ChunkedEncodingError)


def client_of_requests(url, credentials=None, **options):
    """Sends a batch by a client over requests; closes that."""
    requests = pytest.importorskip("requests", reason="requests is not installed")
    session = requests.Session()
    session.auth = credentials

    def send(batch):
        with BatchClient(session, url, backoff=0, **options) as client:
            return client.send(batch)

    return send


def client_of_httpx(url, credentials=None, **options):
    """The same over httpx, whose client has the URL."""
    httpx = pytest.importorskip("httpx", reason="httpx is not installed")

    def send(batch):
        with BatchClient(httpx.Client(base_url=url, auth=credentials), backoff=0, **options) as client:
            results = client.send(batch)
        with pytest.raises(RuntimeError, match="closed"):
            client._session.post("X")
        return results

    return send


def tasks_of_httpx(url, credentials=None, **options):
    """The same in tasks."""
    httpx = pytest.importorskip("httpx", reason="httpx is not installed")

    async def send(batch):
        async with AsyncBatchClient(httpx.AsyncClient(auth=credentials), url, backoff=0, **options) as client:
            results = await client.send(batch)
        assert client._session.is_closed
        return results

    return lambda batch: asyncio.run(send(batch))


@pytest.fixture(params=[client_of_requests, client_of_httpx, tasks_of_httpx])
def patient(request):
    return request.param


def gets(*ids):
    batch = Batch()
    for id in ids:
        batch.get("A", id=id)
    return batch


def test_a_client_has_the_session_authenticate(patient):
    seen = []

    def answer(environ, start_response):
        seen.append({name: environ.get(name) for name in ("PATH_INFO", "HTTP_AUTHORIZATION", "HTTP_PREFER", "HTTP_X_OWN")})
        return application(service, [])(environ, start_response)

    service = Scripted({"a": [503, 200]}, retry_after=0, schedule=[429])
    with serving(answer) as url:
        results = patient(f"{url}/odata/", credentials=("ada", "x"), headers={"X-Own": "1", "prefer": "own"})(gets("a", "b"))
    assert [it.status for it in results.values()] == [200, 200] and len(service.documents) == 3
    wanted = {"PATH_INFO": "/odata/$batch", "HTTP_AUTHORIZATION": "Basic YWRhOng=", "HTTP_PREFER": "own", "HTTP_X_OWN": "1"}
    assert seen == [wanted] * 3


def test_a_client_whose_session_times_out(patient):
    batch = gets("a")
    batch.post("B", {}, id="b")
    with silent() as url:
        results = patient(url, timeout=0.2, attempts=1)(batch)
    assert [it.status for it in results.values()] == [504, 504] and [it.id for it in results.unknown] == ["b"]


def test_a_client_that_has_no_connection(patient):
    """Nothing was sent, so all may be sent again."""
    batch = Batch()
    batch.post("B", {})
    results = patient(f"http://127.0.0.1:{free_port()}/", attempts=2)(batch)
    assert [it.status for it in results.left] == [503] and results.error.__cause__ is not None


def test_a_client_takes_sessions_of_its_own_kind():
    requests = pytest.importorskip("requests", reason="requests is not installed")
    httpx = pytest.importorskip("httpx", reason="httpx is not installed")
    for session in (requests.Session(), httpx.Client()):
        with pytest.raises(TypeError, match="an AsyncClient of httpx or a coroutine function, not a (Session|Client)$"):
            AsyncBatchClient(session)
    with pytest.raises(TypeError, match="of requests or httpx, or a function, not a AsyncClient$"):
        BatchClient(httpx.AsyncClient())


@pytest.mark.parametrize("url, wanted", [
    ("https://host/odata", "https://host/odata/$batch"), ("https://host/odata/", "https://host/odata/$batch"),
    ("https://host/odata/$batch", "https://host/odata/$batch"), ("https://host/?client=1", "https://host/$batch?client=1"),
    ("", "$batch"),
])  # fmt: skip
def test_where_a_client_posts_to(url, wanted):
    requests, found = pytest.importorskip("requests", reason="requests is not installed"), []

    class Session(requests.Session):
        def post(self, url, **options):
            found.append(url)
            raise OSError

    BatchClient(Session(), url, attempts=1).send(gets("a"))
    assert found == [wanted]
