"""Options in a file: how they are read, what wins, and routes with limits, credentials and certificates of their own."""

import dataclasses
import ssl
import subprocess
import sys
import threading
import types
from concurrent.futures import ThreadPoolExecutor

import pytest

from odb_batch.gateway import Route, _options
from odb_batch.gateway._options import options_of
from support.servers import CONTINUE, JSON, SECONDS, until

needs_tomllib = pytest.mark.skipif(sys.version_info < (3, 11), reason="tomllib is not installed")


@pytest.fixture
def file(tmp_path):
    """Writes a file; returns the words that name it."""

    def write(text):
        path = tmp_path / "gateway.toml"
        path.write_text(text)
        return ["--config", str(path)]

    return write


ALL = """
listen = ":8091"
upstream = ["http://a/a/", "http://b/b/"]
route = "/c=http://c/c"
groups = "forward"
allow = ["X-Own"]
send = ["Cookie=/a/", "X-Api-Key=/c"]
timeout = 2.5
width = 3
one-client = true
journal = "/var/lib/odb_batch"
metrics = 9100
log-format = "json"
"""
WORDS = [
    "--listen", ":8091", "--upstream", "http://a/a/", "--upstream", "http://b/b/", "--route", "/c=http://c/c", "--groups",
    "forward", "--allow", "X-Own", "--send", "Cookie=/a/", "--send", "X-Api-Key=/c", "--timeout", "2.5", "--width", "3",
    "--one-client", "--journal", "/var/lib/odb_batch", "--metrics", "9100", "--log-format", "json",
]  # fmt: skip


@needs_tomllib
def test_a_file_says_what_a_command_line_says(file):
    assert dataclasses.replace(options_of(file(ALL)), config="") == options_of(WORDS)


@needs_tomllib
def test_the_command_line_wins_and_adds(file):
    found = options_of([*file(ALL), "--width", "5", "--allow", "X-More", "--upstream", "http://d/d/"])
    assert (found.width, found.allow, found.timeout) == (5, ("x-own", "x-more"), 2.5)
    assert [it.prefix for it in found.upstream] == ["/a/", "/b/", "/d/"]


@needs_tomllib
def test_routes_as_tables(file):
    text = 'connections = 9\n[[route]]\nurl = "https://a/x/"\ntimeout = 1\nca = "ca.pem"\ncertificate = "c.pem"\nkey = "k.pem"\n'
    text += '[[route]]\nurl = "http://b/v2/B"\nprefix = "/x/B"\nconnections = 2\nsend = ["Authorization", "Cookie"]\n'
    found = options_of(file(text))
    first, second = found.route
    assert first == Route("/x/", "https://a/x/", 1.0, None, "ca.pem", "c.pem", "k.pem")
    assert second == Route("/x/B", "http://b/v2/B", None, 2, "", "", "")
    assert found.send == (("authorization", "/x/B"), ("cookie", "/x/B"))


@needs_tomllib
@pytest.mark.parametrize("text, message", [
    ("width = 0", "argument --width: '0' is not a whole number from 1 to 10000"),
    ("width = [1, 2]", "width has one value, not a list"), ("timeouts = 3", "timeouts is not an option"),
    ("one_client = true", "one_client is not an option"), ("config = 'x'", "config is not an option"),
    ("width = true", "argument --width: expected one argument"),
    ("one-client = 'yes'", "argument --one-client: ignored explicit argument 'yes'"),
    ("log = 'all'", "argument --log: invalid choice: 'all' (choose from 'none', 'batches', 'requests')"),
    ("width = x", "Invalid value (at line 1, column 9)"), ("[[route]]\nprefix = '/a'", "route: '/a=' is not PREFIX=URL, such as "
    "/odata/Orders=http://localhost:8101/v2/Orders"), ("[[route]]\nurl = 'a'", "route: 'a' is not a URL, such as "
    "http://localhost:8101/odata/"), ("[[route]]\nurls = 'a'", "route: urls is not a member of a route"),
    ("[[route]]\nurl = 'http://a/'\ntimeout = 0", "route: '0' is not a number of seconds above 0"),
    ("[[route]]\nurl = 'http://a/'\nca = 'x'", "route: /: ca: only for https"),
    ("[[route]]\nurl = 'https://a/'\nkey = 'x'", "route: /: key without certificate"),
    ("[[upstream]]\nurl = 'http://a/'", "argument --upstream: \"{'url': 'http://a/'}\" is not a URL, such as http://localhost:8101/odata/"),
], ids=lambda it: it[:20])  # fmt: skip
def test_wrong_files(file, capsys, text, message):
    words = file(text)
    with pytest.raises(SystemExit) as ended:
        options_of(["--upstream", "http://b/b/", *words])
    lines = capsys.readouterr().err.splitlines()
    assert (ended.value.code, lines[-1]) == (2, f"python3 -m odb_batch gateway --config {words[1]}: error: {message}")


@needs_tomllib
def test_a_file_that_is_not_there(capsys):
    with pytest.raises(SystemExit):
        options_of(["--config", "/no"])
    assert capsys.readouterr().err.endswith(" --config /no: error: No such file or directory\n")


def test_an_older_python(file, capsys, monkeypatch):
    monkeypatch.setattr(_options, "sys", types.SimpleNamespace(version_info=(3, 10, 1)))
    with pytest.raises(SystemExit) as ended:
        options_of(file("width = 3"))
    assert ended.value.code == 2
    assert capsys.readouterr().err.endswith(": error: it needs Python 3.11 or later, which has tomllib\n")


@needs_tomllib
def test_a_route_has_its_own_timeout(upstream, front, file):
    service = upstream()
    text = f'timeout = 60\n[[route]]\nurl = "{service.url}/odata/slow/"\ntimeout = 0.3\n[[route]]\nurl = "{service.url}/"\n'
    found = front(*file(text)).batch({"url": "slow/hang"}, {"url": "x"})
    assert [it["status"] for it in found.values()] == [504, 200]


@needs_tomllib
def test_a_route_has_its_own_connections(upstream, front, file):
    from support.gateways import waiting

    event = threading.Event()
    service = upstream(waiting(event))
    text = f'[[route]]\nurl = "{service.url}/odata/slow/"\nconnections = 1\n[[route]]\nurl = "{service.url}/"\n'
    it = front(*file(text))
    with ThreadPoolExecutor(1) as clients:
        asked = clients.submit(it.statuses, {"url": "slow/1"}, {"url": "slow/2"}, {"url": "x"})
        until(lambda: len(service.seen) == 2)
        assert sorted(it.rpartition("/")[0] for it in service.paths) == ["/odata", "/odata/slow"]
        assert 'requests_waiting{service="/odata/slow/"} 1' in it.metrics()
        event.set()
        assert asked.result(SECONDS) == [200] * 3


# Certificates


def openssl(folder, *words):
    subprocess.run(["openssl", *words], check=True, capture_output=True, timeout=SECONDS, cwd=folder)


@pytest.fixture
def certificates(tmp_path):
    """An authority, and a service and a gateway that it knows."""
    usual = ["req", "-x509", "-newkey", "rsa:2048", "-nodes", "-days", "2"]
    openssl(tmp_path, *usual, "-subj", "/CN=authority", "-keyout", "ca.key", "-out", "ca.pem")
    for name in ("localhost", "gateway"):
        more = ["-CA", "ca.pem", "-CAkey", "ca.key", "-addext", f"subjectAltName=DNS:{name}"]
        openssl(tmp_path, *usual, "-subj", f"/CN={name}", *more, "-keyout", f"{name}.key", "-out", f"{name}.pem")
    return tmp_path


@pytest.fixture
def secure(loop, certificates):
    """The URL of a service that asks who a client is, and what it has found."""
    seen = []
    context = ssl.SSLContext(ssl.PROTOCOL_TLS_SERVER)
    context.load_cert_chain(certificates / "localhost.pem", certificates / "localhost.key")
    context.load_verify_locations(certificates / "ca.pem")
    context.verify_mode = ssl.CERT_REQUIRED

    async def answer(reader, writer):
        await reader.readuntil(b"\r\n\r\n")
        seen.append(dict(pair[0] for pair in writer.get_extra_info("peercert")["subject"])["commonName"])
        writer.write(b"HTTP/1.1 204 No Content\r\nConnection: close\r\n\r\n")
        await writer.drain()
        writer.close()

    return f"https://localhost:{loop.listen(answer, ssl=context)}/", seen


@needs_tomllib
@pytest.mark.needs("openssl")
@pytest.mark.parametrize("files, status, found", [
    ({"ca": "ca.pem", "certificate": "gateway.pem", "key": "gateway.key"}, 204, ["gateway"]),
    ({"certificate": "gateway.pem", "key": "gateway.key"}, 503, []), ({"ca": "gateway.pem"}, 503, []),
])  # fmt: skip
def test_certificates_of_a_route(front, secure, certificates, file, files, status, found):
    """Of a service that nobody knows, or that does not know the gateway, there is no answer."""
    url, seen = secure
    members = "".join(f'{name} = "{certificates / path}"\n' for name, path in files.items())
    it = front(*file(f'[[route]]\nurl = "{url}"\n{members}'))
    assert (it.statuses({"url": "x"}, headers=CONTINUE), seen) == ([status], found)


@needs_tomllib
@pytest.mark.needs("openssl")
def test_a_service_that_needs_a_certificate(front, secure, certificates, file):
    url, seen = secure
    it = front(*file(f'[[route]]\nurl = "{url}"\nca = "{certificates / "ca.pem"}"\n'))
    (found,) = it.batch({"url": "x"}, headers=CONTINUE).values()
    assert found["status"] in (502, 503) and seen == []


@needs_tomllib
@pytest.mark.parametrize("files", [{"ca": "/no"}, {"certificate": "/no"}, {"ca": "{file}"}], ids=str)
def test_certificates_that_cannot_be_read(aiohttp, file, files):
    from support.commands import with_package

    words = file("")
    members = "".join(f'{name} = "{path.format(file=words[1])}"\n' for name, path in files.items())
    file(f'[[route]]\nurl = "https://a/"\n{members}')
    command = [sys.executable, "-m", "odb_batch", "gateway", *words]
    done = subprocess.run(command, env=with_package(), stderr=subprocess.PIPE, text=True, timeout=SECONDS)
    assert done.returncode == 3 and done.stderr.startswith("error: the certificates of /: "), done.stderr
    assert len(done.stderr.splitlines()) == 1 and JSON
