"""What docs/gateway.md shows: its commands and its code, run; its options, statuses and blocks for others, compared. And
the gateways of docs/scale.md.

`PYTHONPATH=tests:python python3 tests/gateway/test_page.py --write` puts into the page what its commands print, over
the library that ODB_BATCH_LIBRARY names.
"""

import asyncio
import contextlib
import json
import os
import re
import shlex
import signal
import subprocess
import sys
import tempfile

import pytest

from support.commands import with_package
from support.kubernetes import POD, faults
from support.markdown import blocks, text_of
from support.nginx import nginx
from support.program import ROOT
from support.servers import CONTINUE, SECONDS, free_port, repeatable, skip_without

PATH = os.path.join("docs", "gateway.md")
PAGE = text_of(PATH)


def example(name):
    with open(os.path.join(ROOT, "examples", "gateway", name), encoding="utf-8") as file:
        return file.read()


def code(kind):
    """The blocks of the page of one kind."""
    return blocks(PAGE, kind)


@contextlib.contextmanager
def started(*more):
    """The service and the gateway by the commands of the page, and the ports that stand for those of the page."""
    ports, running = {it: str(free_port()) for it in ("8080", "8090")}, []
    with contextlib.ExitStack() as ends:
        for line, options in zip(code("sh")[0].splitlines(), ((), more)):
            assert line.startswith("PYTHONPATH=python python3 ")
            words = [sys.executable, *shlex.split(replaced(line, ports))[2:], *options]
            process = subprocess.Popen(words, cwd=ROOT, env=with_package(), stderr=subprocess.PIPE, text=True)
            ends.callback(process.kill)
            running.append(process)
            assert any("listening" in line for line in process.stderr)
        yield ports
        for process in reversed(running):
            process.send_signal(signal.SIGTERM)
            process.communicate(timeout=SECONDS)
            assert process.returncode == 0


def replaced(text, ports):
    return re.sub("80[89]0", lambda it: ports[it[0]], text)


def printed(block, ports):
    """The commands of a block, each with what it prints; they run in one shell."""
    commands = [line[2:] for line in block.splitlines() if line.startswith("$ ")]
    words = replaced("\n".join(f"{it}\necho -e '\\n---'" for it in commands), ports)
    done = subprocess.run(["bash", "-c", words], cwd=ROOT, capture_output=True, text=True, timeout=SECONDS)
    shown = zip(commands, done.stdout.split("\n---\n"))
    return "".join(f"$ {command}\n" + (f"{text.strip()}\n" if text.strip() else "") for command, text in shown)


def page_as_printed():
    with tempfile.TemporaryDirectory() as folder:
        options = iter([(), ("--journal", folder, "--one-client")])

        def block(found):
            with started(*next(options)) as ports:
                return f"```console\n{printed(found[1], ports)}```"

        return re.sub("```console\n(.*?)```", block, PAGE, flags=re.DOTALL)


@pytest.mark.needs("curl")
def test_the_commands_print_what_the_page_shows(aiohttp):
    assert len(code("console")) == 2
    assert PAGE == page_as_printed()


@pytest.fixture
def own(aiohttp):
    """The gateway of one's own in examples/gateway."""
    names = {}
    exec(example("own.py"), names)
    return names


def test_a_gateway_of_ones_own_sends_a_group(own, loop, upstream):
    import aiohttp

    from support.gateways import usual

    service = upstream(lambda seen: grouped(seen) if seen.path.endswith("$batch") else usual(seen))
    group = {"method": "post", "atomicityGroup": "g"}
    batch = {
        "requests": [
            {"id": "a", "url": "A", **group},
            {"id": "b", "url": "B", **group},
            {"id": "c", "url": "C", "method": "get"},
        ]
    }

    async def run():
        async with aiohttp.ClientSession() as session:
            return await own["perform_over"](session, batch, f"http://127.0.0.1:{service.port}/odata/")

    assert [it["status"] for it in json.loads(asyncio.run(run()))["responses"]] == [204, 204, 200]
    assert sorted(service.paths) == ["/odata/$batch", "/odata/C"]


def test_a_gateway_of_ones_own_keeps_a_batch(own, upstream, place):
    """The second time it answers from what is kept."""
    service = upstream()
    batch = json.dumps({"requests": [{"id": "a", "method": "post", "url": "A"}]}).encode()
    base = f"http://127.0.0.1:{service.port}/odata/"
    first, again = (asyncio.run(own["perform_once"](place, b"ada, 5e1f", batch, base)) for _ in range(2))
    assert (first, service.paths) == (again, ["/odata/A"]) and b'"status":201' in first


def grouped(seen):
    from aiohttp import web

    answers = [{"id": it["id"], "status": 204, "atomicityGroup": "g"} for it in json.loads(seen.body)["requests"]]
    return web.json_response({"responses": answers})


def test_the_options_of_the_page_are_those_of_the_help():
    from odb_batch.gateway._options import parser

    section = re.search(r"(?s)\n## Options\n\n(.*?)\n\n", PAGE)[1]
    shown = dict(re.findall(r"`(--[\w-]+) ?([^`]*)`", section))
    known = {it.option_strings[0]: it.default for it in parser()._actions if it.option_strings[0] != "-h"}
    assert sorted(shown) == sorted([*known, "--help"])
    for name, usual in known.items():
        if not usual:
            assert shown[name] == "", name
        elif isinstance(usual, tuple):
            assert shown[name] == f"{usual.host}:{usual.port}", name
        else:
            assert shown[name] == (usual if isinstance(usual, str) else f"{usual:.0f}"), name


@pytest.mark.skipif(sys.version_info < (3, 11), reason="tomllib is not installed")
def test_the_file_of_the_page_is_read(tmp_path):
    from odb_batch.gateway._options import options_of

    (text,) = code("toml")
    (tmp_path / "gateway.toml").write_text(text)
    found = options_of(["--config", str(tmp_path / "gateway.toml")])
    assert [(it.prefix, it.timeout, it.connections) for it in found.routes] == [("/odata/Orders", 5, 20), ("/odata/", None, None)]
    assert found.send == (("authorization", "/odata/Orders"),) and found.metrics.port == 9100


TRACER = """
import types

spans = []

class Span:
    def __init__(self, *words, **more): self.words = [*words, more]
    def set_attribute(self, *words): self.words.append(words)
    def end(self): spans.append(self.words)

def inject(headers, span): headers["traceparent"] = "its own"

propagate = types.SimpleNamespace(extract=dict, inject=inject)
trace = types.SimpleNamespace(get_tracer=lambda name: types.SimpleNamespace(start_span=Span), set_span_in_context=str)
"""


def test_the_hook_of_the_page_makes_spans(upstream, front, tmp_path, monkeypatch):
    """Over something that takes the calls of OpenTelemetry which it makes."""
    (text,) = code("python")
    (tmp_path / "tracing.py").write_text(text)
    (tmp_path / "opentelemetry.py").write_text(TRACER)
    monkeypatch.syspath_prepend(tmp_path)
    service = upstream()
    it = front("--upstream", f"{service.url}/odata/", "--on-request", "tracing:on_request")
    assert it.statuses({"url": "missing"}) == [404]
    spans = sys.modules.pop("opentelemetry").spans
    del sys.modules["tracing"]
    assert spans == [["GET", spans[0][1], {"attributes": {"url.full": f"{service.url}/odata/missing"}}, ("http.response.status_code", 404)]]
    assert service.seen[0].headers["traceparent"] == "its own" and spans[0][1]["host"]


def test_the_codes_of_the_page_are_those_of_the_gateway():
    shown = re.findall(r"\d{3} `(\w+)`(?:, `(\w+)`)?", PAGE)
    names = {name for found in shown for name in found if name}
    made = set()
    for folder, _, files in os.walk(os.path.join(ROOT, "python", "odb_batch")):
        for name in files:
            if name.endswith(".py") and "conformance" not in folder:
                with open(os.path.join(folder, name), encoding="utf-8") as file:
                    made.update(re.findall(r'(?:Refusal|rejection)\(\d{3}, "(\w+)"', file.read()))
    assert names - {"F41"} <= made


def test_the_probes_of_the_page_are_answered(upstream, running):
    from odb_batch.gateway._options import options_of

    skip_without("yaml")
    import yaml

    (text,) = code("yaml")
    assert faults(yaml.safe_load(text), POD) == []
    words = re.search(r"command: \[python3, -m, odb_batch, gateway, (.*)\]", text)[1].replace('"', "").split(", ")
    assert options_of(words).listen == ("", 8090)
    it = running("--upstream", upstream().url)
    paths = re.findall("path: ([^,]+), port: 8090", text)
    assert [it.ask("GET", path)[0] for path in paths] == [200, 200]
    assert int(re.search("terminationGracePeriodSeconds: ([0-9]+)", text)[1]) > 25 + 5


def test_the_metrics_of_the_page_are_those_of_the_gateway(upstream, running, tmp_path):
    """All but the lease, which a folder has not."""
    skip_without("prometheus_client")
    it = running("--upstream", upstream().url, "--journal", str(tmp_path), "--one-client", "--metrics", "/metrics")
    found = set(re.findall("(?m)^# TYPE (odb_gateway_\\w+)", it.ask("GET", "/metrics")[2].decode()))
    found = {name for name in found if not name.endswith("_created")}
    shown = re.findall(r"`(odb_gateway_\w+)`", PAGE)
    assert sorted(shown) == sorted([*found, "odb_gateway_journal_lease_seconds"])


def test_the_lines_of_the_log_have_the_words_of_the_page(upstream, running, tmp_path):
    table = re.search(r"(?s)\| line \| its fields \|\n.*?\n\n", PAGE)[0]
    rows = [re.sub(r"\(.*?\)", "", row.split("|")[2]) for row in table.strip().splitlines()[2:]]
    shown = {words[0]: words for words in (re.findall("`([^`]+)`", row) for row in rows)}
    down = f"http://127.0.0.1:{free_port()}/down/"
    it = running("--upstream", upstream().url, "--upstream", down, "--log", "requests")
    it.statuses({"url": "x"}, {"url": "missing"}, {"url": "x", "headers": {"X-Other": "1"}})
    it.ask("POST", "/down/$batch", json.dumps({"requests": [{"id": "a", "method": "get", "url": "x"}]}))
    _, text = it.stop(signal.SIGTERM)
    lines = [re.findall(r"(\w+)=\S", line) for line in text.splitlines() if line[:1].isdigit()]
    of_all = set(re.findall("`([^`]+)`", re.search(r"(?s)\nEach line that is about a batch (.*?)\.", PAGE)[1]))
    assert {words[0] for words in lines} == set(shown)
    assert [words for words in lines if set(words) - of_all - set(shown[words[0]])] == []


@pytest.mark.needs("nginx")
def test_nginx_sends_batches_to_the_gateway(upstream, running, tmp_path):
    service = upstream()
    it, port = running("--upstream", service.url), free_port()
    server = code("nginx")[0].replace("8090", str(it.port))
    other = f"location / {{ proxy_pass {service.url}; }}"
    with nginx(f"server {{ listen 127.0.0.1:{port}; {server} {other} }}", tmp_path, port) as front:
        found = front.batch(
            {"method": "post", "url": "Books"},
            {"url": "$r0", "dependsOn": ["r0"]},
            {"url": f"http://127.0.0.1:{port}/odata/x"},
        )
        assert [it["status"] for it in found.values()] == [201, 200, 200]
        assert service.seen[-1].headers["x-forwarded-host"] == f"127.0.0.1:{port}"
        assert front.ask("GET", "/odata/plain")[0] == 200
    assert "/odata/plain" in service.paths


# docs/scale.md: gateways on several machines, by the files of examples/gateway


def unit():
    """The words of the unit that starts a gateway."""
    (line,) = re.findall(r"(?m)^ExecStart=/usr/bin/python3 -m odb_batch gateway (.*)$", example("odb-gateway@.service"))
    return shlex.split(line)


@pytest.fixture
def two_gateways(upstream, running, schema):
    """A service, and two gateways by the unit of the page; only names of machines are others."""
    service = upstream()
    changes = {"http://books:8080/odata/": f"{service.url}/odata/", "postgresql://gateway@db:5432/journal": schema}
    words = [changes.get(it, it) for it in unit()]
    assert set(changes) <= set(unit()) and words[:2] == ["--listen", ":%i"]
    return service, [running(*words[2:], "--lease", "2") for _ in range(2)]


def test_two_gateways_by_the_unit_of_the_page(two_gateways):
    """Each answers what the other one has performed, also after that was killed."""
    service, (one, other) = two_gateways
    batch = json.dumps({"requests": [{"id": "a", "method": "post", "url": "A", "body": 1}]})
    ask = lambda it, id: it.ask("POST", "/odata/$batch", batch, {**CONTINUE, **repeatable(id), "X-Client": "ada"})
    found = {id: ask(one, id) for id in "xyz"}
    assert all(ask(other, id)[2] == it[2] for id, it in found.items()) and len(service.seen) == 3
    one.stop(signal.SIGKILL)
    assert all(ask(other, id)[2] == it[2] for id, it in found.items()) and len(service.seen) == 3


@pytest.mark.needs("nginx")
def test_nginx_asks_another_gateway(two_gateways, tmp_path):
    service, gateways = two_gateways
    text, port = example("nginx.conf"), free_port()
    for name, it in zip(("gateway1:8090", "gateway2:8090"), gateways):
        text = text.replace(name, f"127.0.0.1:{it.port}")
    text = text.replace("listen 80;", f"listen 127.0.0.1:{port};").replace("$remote_user", "ada")
    with nginx(text, tmp_path, port) as front:
        for k in range(4):
            assert front.batch({"method": "post", "url": "A"})["r0"]["status"] == 201
        gateways[0].stop(signal.SIGKILL)
        for k in range(4):
            assert front.batch({"method": "post", "url": "A"})["r0"]["status"] == 201
    assert len(service.seen) == 8


if __name__ == "__main__" and sys.argv[1:] == ["--write"]:
    text = page_as_printed()
    with open(os.path.join(ROOT, PATH), "w", encoding="utf-8") as file:
        file.write(text)
