"""Requests of batches through the gateway: routes, what services see, and services that break."""

import json
import re
import socket
import threading
from concurrent.futures import ThreadPoolExecutor

import pytest

from support import urls
from support.servers import CONTINUE, JSON, SECONDS, skip_without, until


ELEVEN = json.dumps({"requests": [{"id": str(k), "method": "get", "url": "x"} for k in range(11)]})


def code_of(response):
    return response["body"]["error"]["code"]


def test_a_batch_over_two_services(upstream, front):
    orders, main = upstream(), upstream()
    it = front("--route", f"/odata/Orders={orders.url}/v2/Orders", "--upstream", main.url)
    found = it.batch(
        {"method": "post", "url": "Orders", "body": {"n": 1}},
        {"url": "$r0/Lines?$top=1", "dependsOn": ["r0"]},
        {"method": "post", "url": "Books", "body": {"n": 1}},
        {"method": "patch", "url": "$r2", "dependsOn": ["r2", "r1"], "headers": {"If-Match": "$r1"}, "body": {}},
        {"url": "/odata/OrdersOld"},
        {"url": f"{it.url}Books?$filter=Price lt 9.5 and Title eq 'ä'"},
    )
    assert [it["status"] for it in found.values()] == [201, 200, 201, 200, 200, 200]
    assert (found["r0"]["headers"]["location"], found["r2"]["headers"]["location"]) == (
        "/odata/Orders(1)",
        "/odata/Books(1)",
    )
    assert orders.paths == ["/v2/Orders", "/v2/Orders(1)/Lines?$top=1"]
    assert sorted(main.paths) == [
        "/odata/Books", "/odata/Books(1)", "/odata/Books?$filter=Price%20lt%209.5%20and%20Title%20eq%20'%C3%A4'",
        "/odata/OrdersOld",
    ]  # fmt: skip
    (patched,) = [it for it in main.seen if it.method == "PATCH"]
    assert patched.headers["if-match"] == '"1"'


def test_bodies_keep_their_bytes(upstream, front):
    service = upstream()
    document = '{"requests":[{"id":"a","method":"post","url":"X","body": {"n": 1.50,  "m": 12345678901234567890123}}]}'
    status, _, text = front("--upstream", service.url).ask("POST", "/odata/$batch", document, CONTINUE)
    assert status == 200 and b'"price": 9.990}' in text
    assert service.seen[0].body == b'{"n": 1.50,  "m": 12345678901234567890123}'


URLS = [
    "../x", "%2e%2e/x", "..%2fx", "a/..;/x", "a\\..\\x", "/other", "//evil/odata/x", "http://evil/odata/x",
    "/odata%2f../x", "http://169.254.169.254/latest/", "http://127.0.0.1:1/odata/x", "file:///etc/passwd", "/ODATA/x",
    "a%00/x", "http://[", "ftp://127.0.0.1/odata/x", "//127.0.0.1:1/odata/x",
]  # fmt: skip


def test_nothing_outside_of_the_routes_is_sent(upstream, front):
    service = upstream()
    it = front("--upstream", service.url + "/odata/")
    users = it.url.replace("//", "//user@") + "x"
    *found, last = it.statuses(*({"url": url} for url in [*URLS, *urls.plain(False), users]), {"url": "Books"})
    assert (set(found), last, service.paths) == ({404}, 200, ["/odata/Books"])


@pytest.mark.parametrize("place, status", [
    ("http://169.254.169.254/latest", 404), ("http://127.0.0.1:1/odata/x", 404), ("/odata/../x", 404),
    ("/odata/$batch", 400),
    ("//evil/odata/x", 404), ("/other", 404), ("http://[", 404), ("/odata/x", 200),
])  # fmt: skip
def test_no_location_of_a_service_leads_out(upstream, front, place, status):
    from aiohttp import web

    service = upstream(
        lambda seen: web.Response(status=201, headers={"Location": place}) if seen.method == "POST" else web.Response()
    )
    it = front("--upstream", service.url + "/odata/")
    found = it.statuses(
        {"method": "post", "url": "X"}, {"url": "$r0", "dependsOn": ["r0"]}, {"url": "$r0/y", "dependsOn": ["r0"]}
    )
    assert found[:2] == [201, status]
    assert service.paths == [
        "/odata/X",
        *(["/odata/x", "/odata/x/y"] if status == 200 else ["/odata/$batch/y"] * (status == 400 and "$" in place)),
    ]


def test_a_host_of_the_client_is_not_that_of_the_service(upstream, front):
    service = upstream()
    headers = {
        **CONTINUE,
        "Host": "public",
        "X-Forwarded-Proto": "https",
        "Connection": "x-hop",
        "X-Hop": "1",
        "User-Agent": "u",
    }
    headers |= {"Authorization": "Bearer 1", "X-Forwarded-For": "1.2.3.4", "Accept-Encoding": "gzip", "Cookie": "a=b"}
    it = front("--upstream", service.url)
    found = it.batch({"url": "https://public/odata/Books"}, {"url": "http://evil/odata/Books"}, headers=headers)
    assert [it["status"] for it in found.values()] == [200, 404]
    (seen,) = service.seen
    wanted = {
        "host": f"127.0.0.1:{service.port}", "x-forwarded-host": "public", "x-forwarded-proto": "https",
        "x-forwarded-for": "1.2.3.4, 127.0.0.1", "authorization": "Bearer 1", "accept-encoding": "identity",
        "cookie": "a=b", "user-agent": "u",
    }  # fmt: skip
    assert {name: seen.headers.get(name) for name in wanted} == wanted
    assert not {"x-hop", "prefer", "content-type", "accept"} & seen.headers.keys()


@pytest.mark.parametrize("proto", ["https", "https, http"])
def test_a_service_that_writes_the_host_that_a_proxy_has_seen(upstream, front, proto):
    from aiohttp import web

    def answer(seen):
        place = f"{seen.headers['x-forwarded-proto']}://{seen.headers['x-forwarded-host'].partition(',')[0]}{seen.path}(1)"
        return web.Response(status=201, headers={"Location": place})

    service = upstream(answer)
    headers = {**CONTINUE, "Host": "inner:8090", "X-Forwarded-Host": "public, middle", "X-Forwarded-Proto": proto}
    it = front("--route", f"/odata/Orders={service.url}/v2/Orders")
    found = it.batch(
        {"method": "post", "url": "Orders"}, {"url": "$r0", "dependsOn": ["r0"]},
        {"url": "http://inner:8090/odata/Orders"}, headers=headers
    )  # fmt: skip
    assert found["r0"]["headers"]["location"] == "https://public/odata/Orders(1)"
    assert sorted(service.paths) == ["/v2/Orders", "/v2/Orders", "/v2/Orders(1)"]


BROKEN = {
    "hang-up": (502, "BadGateway"), "half": (502, "BadGateway"), "gzip": (502, "Encoded"), "hang": (504, "Timeout"),
    "big": (507, "TooLong"),
}  # fmt: skip


def test_services_that_break(upstream, front):
    service = upstream()
    with socket.socket() as closed:
        closed.bind(("127.0.0.1", 0))
        gone = f"/odata/gone=http://127.0.0.1:{closed.getsockname()[1]}/gone"
        it = front("--upstream", service.url, "--route", gone, "--timeout", "2", "--max-size", "200000")
        odd = [*BROKEN, "gone", "html", "no-json", "elsewhere", "missing", "cookie"]
        asked = [{"url": url} for url in odd]
        more = {"method": "post", "url": "big"}, {"url": "x", "dependsOn": ["r0"]}, {"url": "x"}
        found = dict(zip([*odd, "posted", "after", "last"], it.batch(*asked, *more).values()))
    for name, wanted in {**BROKEN, "gone": (503, "Unreachable")}.items():
        assert (found[name]["status"], code_of(found[name])) == wanted
    shown = {
        name: (found[name]["status"], found[name].get("body")) for name in ("html", "no-json", "missing", "posted")
    }
    assert shown == {"html": (200, "<p>no"), "no-json": (200, "<p>no"), "missing": (404, None), "posted": (201, None)}
    assert found["elsewhere"]["headers"]["location"] == "http://elsewhere/odata/Books(1)"
    assert "set-cookie" not in found["cookie"]["headers"]
    assert [found[name]["status"] for name in ("after", "last")] == [424, 200]
    counted = dict(re.findall('faults_total{code="(.*)"} (.*)', it.metrics()))
    assert counted == {"BadGateway": "2", "Encoded": "1", "Timeout": "1", "TooLong": "1", "Unreachable": "1"}


def test_a_service_that_speaks_no_http(loop, front):
    async def garbage(reader, writer):
        writer.write(b"SSH-2.0-OpenSSH\r\n\r\n")
        writer.close()

    it = front("--upstream", f"http://127.0.0.1:{loop.listen(garbage)}")
    assert it.statuses({"url": "x"}) == [502]


@pytest.mark.parametrize("status, coding, wanted", [
    (200, "gzip", 502), (200, "Identity", 200), (200, "identity, br", 502), (200, "", 200), (204, "gzip", 204),
])  # fmt: skip
def test_codings_of_answers(upstream, front, status, coding, wanted):
    from aiohttp import web

    service = upstream(lambda seen: web.Response(status=status, headers={"Content-Encoding": coding}))
    assert front("--upstream", service.url).statuses({"method": "delete", "url": "x"}) == [wanted]


@pytest.mark.parametrize("method", ["DELETE", "PUT"])
def test_no_request_is_sent_twice_by_a_library(upstream, loop, method):
    """Newer versions of aiohttp try again by themselves what an older one sends again for a redirect alone."""
    import aiohttp
    from aiohttp import web

    from odb_batch.gateway._metrics import Counts
    from odb_batch.gateway._options import options_of
    from odb_batch.gateway._upstream import UpstreamClient

    service = upstream(lambda seen: web.Response(status=307, headers={"Location": "/again"}))

    async def send():
        upstreams = UpstreamClient(options_of(["--upstream", service.url]), Counts())
        await upstreams.open()
        try:
            await upstreams.request(method, service.url + "/x")
        finally:
            await upstreams.close()

    with pytest.raises(aiohttp.ClientConnectionError):
        loop.run(send())
    assert service.paths == ["/x"]


@pytest.mark.parametrize("name", ["send", "write_bytes"])
def test_a_library_that_sends_in_another_way_is_refused(loop, monkeypatch, name):
    """Else nothing would see to it that a request is sent once."""
    import aiohttp

    from odb_batch.gateway._metrics import Counts
    from odb_batch.gateway._options import options_of
    from odb_batch.gateway._upstream import UpstreamClient

    async def start():
        await UpstreamClient(options_of(["--upstream", "http://a/"]), Counts()).open()

    monkeypatch.delattr(aiohttp.ClientRequest, name)
    with pytest.raises(OSError, match="aiohttp .* in a way that is not known here"):
        loop.run(start())


@pytest.mark.parametrize("method, path, body, headers, status, code", [
    ("POST", "/odata/$batch", '{"requests": 7}', JSON, 400, "F04"),
    ("POST", "/odata/$batch", "{}", {"Content-Type": "multipart/mixed; boundary=b"}, 415, "BadMediaType"),
    ("GET", "/odata/$batch", None, {}, 405, "NotAllowed"), ("POST", "/odata/Books", "{}", JSON, 404, "NotFound"),
    ("POST", "/odata/$batch", b" " * 100_001, JSON, 413, "TooLong"),
    ("POST", "/odata/$batch", b" " * 100_000, JSON, 400, "F02"),
    ("POST", "/odata/$batch", ELEVEN, JSON, 413, "BatchTooLong"),
    ("POST", "/odata/$batch", "{}", {**JSON, "Host": "a b"}, 400, "BadHost"),
    ("POST", "/odata/$batch", "{}", {**JSON, "X": b"\xff"}, 400, "BadHeader"),
], ids=range(9))  # fmt: skip
def test_what_is_refused(upstream, front, method, path, body, headers, status, code):
    service = upstream()
    it = front("--upstream", service.url, "--max-size", "100000", "--limit", "10")
    found, _, text = it.ask(method, path, body, headers)
    assert (found, json.loads(text)["error"]["code"], service.seen) == (status, code, [])


def test_a_request_without_a_host(upstream, front, monkeypatch):
    service, batch = upstream(), b'{"requests":[{"id":"a","method":"get","url":"x"}]}'
    it, asked = front("--upstream", service.url), []
    monkeypatch.setattr(socket, "getfqdn", lambda *name: asked.append(name) or "a")
    with socket.create_connection(("127.0.0.1", it.port), 10) as client:
        client.sendall(b"POST /$batch HTTP/1.0\r\nContent-Type: application/json\r\nContent-Length: 50\r\n\r\n" + batch)
        assert b'"status":200' in client.makefile("rb").read()
    assert (asked, service.seen[0].headers["x-forwarded-host"]) == ([], "localhost")


def test_a_path_that_is_not_utf_8(upstream, front):
    it = front("--upstream", upstream().url)
    with socket.create_connection(("127.0.0.1", it.port), 10) as client:
        client.sendall(b"POST /od\xff/$batch HTTP/1.1\r\nHost: a\r\nConnection: close\r\nContent-Length: 0\r\n\r\n")
        assert client.makefile("rb").readline().split()[1] == b"400"


def test_headers_that_a_proxy_would_set(upstream, front):
    service = upstream()
    found = front("--upstream", service.url).batch({"url": "Books", "headers": {"X-Forwarded-For": "127.0.0.1"}})
    assert (found["r0"]["status"], code_of(found["r0"]), service.seen) == (400, "HeaderNotAllowed", [])


USUAL = {"traceparent": "00-a-b-01", "x-csrf-token": "t", "client-request-id": "1", "sap-language": "DE"}


def test_headers_that_usual_clients_set(upstream, front):
    service = upstream()
    assert front("--upstream", service.url).statuses({"url": "Books", "headers": USUAL}) == [200]
    assert {name: service.seen[0].headers.get(name) for name in USUAL} == USUAL


def test_headers_that_an_option_allows(upstream, front, caplog):
    service = upstream()
    asked = [{"url": "Books", "headers": {"X-Own": "1"}}] * 2
    assert front("--upstream", service.url, "--allow", "x-own", "--allow", "X-Other").statuses(*asked) == [200, 200]
    assert [seen.headers["x-own"] for seen in service.seen] == ["1", "1"]
    found = front("--upstream", service.url).batch(*asked)
    assert {(response["status"], code_of(response)) for response in found.values()} == {(400, "HeaderNotAllowed")}


OF_CONNECTION = ["Accept-Encoding", "Connection", "Content-Length", "Host"]
USUALLY_DROPPED = ["Cache-Control", "Date", "Pragma", "User-Agent"]


def test_headers_that_clients_set_by_themselves_are_dropped_unless_an_option_allows_them(upstream, front):
    service = upstream()
    asked = [{"url": "x"}, {"url": "x", "headers": dict.fromkeys([*OF_CONNECTION, *USUALLY_DROPPED], "7")}]
    headers = {**CONTINUE, "User-Agent": "of the batch"}
    assert front("--upstream", service.url).statuses(*asked, headers=headers) == [200, 200]
    plain, dropped = (seen.headers for seen in service.seen)
    assert dropped == plain
    allowed = [word for name in USUALLY_DROPPED for word in ("--allow", name)]
    assert front("--upstream", service.url, *allowed).statuses(asked[1]) == [200]
    own = {name.lower(): "7" for name in USUALLY_DROPPED}
    assert service.seen[2].headers == {**plain, **own, "x-forwarded-host": service.seen[2].headers["x-forwarded-host"]}


def test_a_header_of_a_request_is_sent_in_utf_8(loop, front):
    """So an ETag of a service that writes UTF-8 comes back to it as it was."""
    from support.gateways import Raw

    head = b"HTTP/1.1 201 x\r\nLocation: /odata/a\r\nConnection: close\r\nContent-Length: 0\r\n"
    service = Raw(loop, head + 'ETag: "caf\xe9"\r\n\r\n'.encode())
    it = front("--upstream", service.url, "--width", "1")
    it.batch(
        {"method": "post", "url": "a"},
        {"method": "delete", "url": "b", "headers": {"If-Match": "$r0"}, "dependsOn": ["r0"]},
        {"method": "delete", "url": "c", "headers": {"If-Match": '"caf\xe9"'}},
    )
    assert ['If-Match: "caf\xe9"'.lower().encode() in head.lower() for head in service.seen] == [False, True, True]


def test_a_hundred_batches_at_once(upstream, front):
    service = upstream()
    it = front("--upstream", service.url, "--connections", "10")
    asked = [{"method": "post", "url": f"Books{k}"} for k in range(5)]
    with ThreadPoolExecutor(100) as clients:
        found = list(clients.map(lambda _: it.statuses(*asked), range(100)))
    assert found == [[201] * 5] * 100 and len(service.seen) == 500


def test_more_batches_than_may_be(upstream, front):
    from support.gateways import waiting

    event = threading.Event()
    it = front("--upstream", upstream(waiting(event)).url, "--batches", "2")
    one = json.dumps({"requests": [{"id": "a", "method": "get", "url": "slow"}]})
    with ThreadPoolExecutor(4) as clients:
        asked = [clients.submit(it.ask, "POST", "/odata/$batch", one, CONTINUE) for _ in range(4)]
        until(lambda: sum(it.done() for it in asked) == 2)
        event.set()
        found = [it.result(SECONDS) for it in asked]
    assert sorted(status for status, _, _ in found) == [200, 200, 503, 503]
    assert {headers["retry-after"] for status, headers, _ in found if status == 503} == {"1"}


def test_stops_at_the_first_error_without_the_preference(upstream, front):
    service = upstream()
    it = front("--upstream", service.url, "--width", "1")
    asked = [{"url": "missing"}, {"url": "x"}]
    assert (it.statuses(*asked, headers=JSON), it.statuses(*asked)) == ([404, 424], [404, 200])


def test_metrics_and_probes(upstream, front):
    skip_without("prometheus_client")
    it = front("--upstream", upstream().url, "--metrics", "/metrics", "--width", "3")
    it.statuses({"url": "x"}, {"method": "post", "url": "y"}, {"url": "missing"})
    it.ask("POST", "/odata/$batch", "{", CONTINUE)
    status, headers, text = it.ask("GET", "/metrics")
    lines = re.sub(r"(?m)\.0$", "", text.decode()).splitlines()
    assert (status, headers["content-type"].partition(";")[0]) == (200, "text/plain")
    wanted = [
        'batches_total{status="200"} 1',
        'batches_total{status="400"} 1',
        'faults_total{code="F02"} 1',
        "width_limit 3",
    ]
    wanted += [
        'requests_total{method="GET",route="/",status="404"} 1',
        'request_seconds_count{route="/"} 3',
        'batch_seconds_bucket{le="+Inf"} 2',
    ]
    wanted += ["requests_running 0", "batches_running 0"]
    assert {f"odb_gateway_{it}" for it in wanted} <= set(lines)
    assert any(line.startswith("process_resident_memory_bytes ") for line in lines)
    assert [it.ask("GET", path)[0] for path in ("/health", "/health/ready", "/")] == [200, 200, 404]
