"""docs/deploy.md: each block is run, or checked by its own tool."""

import json
import os
import re
import shlex
import subprocess
import sys

import pytest

from support.commands import with_package
from support.kubernetes import DEPLOYMENT, faults
from support.markdown import blocks, text_of
from support.nginx import nginx
from support.program import EXAMPLES
from support.servers import Server, free_port, skip_without

# What the page calls orders: it answers anything below /odata/Books.
ORDERS = """\
from contextlib import contextmanager

from flask import Flask, request, url_for

from odb_batch.wsgi import BatchMiddleware

app = Flask(__name__)


@contextmanager
def transaction(name):
    yield


@app.route("/odata/Books", methods=["GET", "POST"])
def books():
    if request.method == "GET":
        return {}
    return {"Length": len(request.get_data())}, 201, {"Location": url_for("book", key=7)}


@app.get("/odata/Books(<int:key>)")
def book(key):
    return {"Url": request.url}


"""
LINE = 'app.wsgi_app = BatchMiddleware(app.wsgi_app, "/odata/$batch", transaction=transaction)\n'
CONFIG = "gunicorn.conf.py"
PAGE = text_of("docs", "deploy.md")


def code(kind):
    """The blocks of the page of one kind."""
    return blocks(PAGE, kind)


def test_each_kind_of_block_has_its_test():
    kinds = re.findall("(?m)^```(\\w+)$", PAGE)
    assert sorted(kinds) == ["ini", "nginx", "nginx", "python", "python", "sh", "yaml"]


@pytest.fixture
def orders(tmp_path, library):
    """Writes the module and its configuration; `line` puts the middleware around it."""
    skip_without("flask", "gunicorn")

    def write(line):
        (tmp_path / "orders.py").write_text(ORDERS + line)
        (tmp_path / CONFIG).write_text(code("python")[0])
        return tmp_path

    return write


@pytest.fixture
def served(tmp_path):
    """Serves a module by a command, with a port of its own."""
    started = []

    def start(words, folder, **variables):
        found = Server(words, folder, tmp_path / "log", **variables)
        started.append(found)
        return found

    yield start
    for it in started:
        it.stop()


def by_gunicorn():
    return ["gunicorn", "--config", CONFIG, "--bind", "fd://{fd}", "orders:app"]


def by_uvicorn(*more):
    """The command of the page, over a socket, for the service of examples/frameworks."""
    words = shlex.split(code("sh")[0])
    assert words[:5] == ["uvicorn", "--host", "127.0.0.1", "--port", "8000"] and words[-1] == "orders:app"
    return ["uvicorn", "--fd", "{fd}", *words[5:-1], *more, "fastapi_app:app"]


def in_front(server, port, prefixed=False):
    """The server of nginx that the page shows, before a service; with the prefix of the page its location is another."""
    text, other = code("nginx")
    if prefixed:
        text, count = re.subn(r" *location .*\n *proxy_pass .*\n", other, text)
        assert count == 1
    for old, new in (("listen 80;", f"listen 127.0.0.1:{port};"), ("127.0.0.1:8000", f"127.0.0.1:{server.port}")):
        assert old in text
        text = text.replace(old, new)
    return text


def test_gunicorn_takes_its_configuration(orders):
    words = [sys.executable, "-m", "gunicorn", "--check-config", "--config", CONFIG, "orders:app"]
    assert subprocess.run(words, cwd=orders(LINE), env=with_package()).returncode == 0


@pytest.mark.needs("nginx")
def test_a_service_behind_gunicorn_and_nginx(orders, served, tmp_path):
    """A long batch passes, and URLs lead to the service by the name that the client has asked for."""
    server, port = served(by_gunicorn(), orders(LINE)), free_port()
    with nginx(in_front(server, port), tmp_path, port) as front:
        found = front.batch(
            {"method": "post", "url": "Books", "body": "x" * 1_500_000},
            {"url": "$r0", "dependsOn": ["r0"]},
            {"url": f"http://127.0.0.1:{port}/odata/Books"},
        )
    assert [it["status"] for it in found.values()] == [201, 200, 200]
    assert found["r0"]["body"]["Length"] > 1_500_000
    assert found["r1"]["body"]["Url"] == f"http://127.0.0.1:{port}/odata/Books(7)"


@pytest.mark.needs("nginx")
def test_a_prefix_before_gunicorn(orders, served, tmp_path):
    server, port = served(by_gunicorn(), orders(code("python")[1])), free_port()
    with nginx(in_front(server, port, prefixed=True), tmp_path, port) as front:
        asked(front, "/shop")
        found = front.batch(
            {"method": "post", "url": "Books", "body": 1, "atomicityGroup": "g"},
            {"url": "$r0", "dependsOn": ["g"]},
            {"url": f"http://127.0.0.1:{port}/shop/odata/Books"},
            {"url": "/shop/odata/Books"},
            {"url": "/odata/Books"},
        )
    assert [it["status"] for it in found.values()] == [201, 200, 200, 200, 404]
    assert found["r1"]["body"]["Url"] == f"http://127.0.0.1:{port}/shop/odata/Books(7)"


def test_gunicorn_takes_its_own_prefix_off_once_more(orders, served):
    """So the page says that SCRIPT_NAME is not to be set where nginx has taken it off."""
    server = served(by_gunicorn(), orders(LINE), SCRIPT_NAME="/shop")
    assert [server.ask("GET", path)[0] for path in ("/odata/Books", "/shop/odata/Books")] == [500, 200]


def asked(front, prefix):
    """Has a client send its batches below a prefix."""
    ask = front.ask
    front.ask = lambda method, path, *more: ask(method, prefix + path, *more)


@pytest.mark.needs("nginx")
@pytest.mark.parametrize("prefix", ("", "/shop"))
def test_uvicorn_behind_nginx(served, tmp_path, library, prefix):
    skip_without("fastapi", "uvicorn")
    words = by_uvicorn(*(["--root-path", prefix] if prefix else []))
    server = served(words, os.path.join(EXAMPLES, "frameworks"), BOOKS=str(tmp_path / "books"))
    port = free_port()
    with nginx(in_front(server, port, prefixed=bool(prefix)), tmp_path, port) as front:
        asked(front, prefix)
        urls = "Books", f"{prefix}/odata/Books", f"http://127.0.0.1:{port}{prefix}/odata/Books"
        assert front.statuses(*({"url": url} for url in urls)) == [200, 200, 200]
        new = {"method": "post", "url": "Books", "body": {"Id": "a", "Title": "Emma"}, "atomicityGroup": "g"}
        assert front.statuses(new) == [201]


def verified(unit, program, folder):
    """Has systemd look at a unit, in which this Python stands for the program that it starts."""
    assert unit.count(program) == 1
    path = folder / "orders.service"
    path.write_text(unit.replace(program, sys.executable))
    done = subprocess.run(["systemd-analyze", "verify", path], capture_output=True, text=True)
    assert (done.returncode, path.name in done.stderr) == (0, False), done.stderr


@pytest.mark.needs("systemd-analyze")
def test_systemd_takes_the_unit_of_a_service(tmp_path):
    verified(code("ini")[0], "/opt/orders/venv/bin/gunicorn", tmp_path)


@pytest.mark.needs("systemd-analyze")
def test_systemd_takes_the_unit_of_a_gateway(tmp_path):
    verified(example("odb-gateway.service"), "/opt/odb-gateway/bin/python3", tmp_path)


def example(name):
    with open(os.path.join(EXAMPLES, "gateway", name), encoding="utf-8") as file:
        return file.read()


def gateway_options(words):
    """The options of a gateway that is started by these words."""
    from odb_batch.gateway._options import options_of

    assert words[1:4] == ["-m", "odb_batch", "gateway"]
    return options_of(words[4:])


def test_the_gateway_takes_the_words_of_its_unit():
    unit = example("odb-gateway.service")
    options = gateway_options(shlex.split(re.search("(?m)^ExecStart=(.*)$", unit)[1]))
    assert options.journal == "%S/" + re.search("StateDirectory=(.*)", unit)[1]
    assert int(re.search("TimeoutStopSec=(.*)", unit)[1]) > options.grace + 5


# The Containerfile is not built, which takes a minute and a network; tests/library/test_release.py has the wheel that
# it copies.


def instructions():
    """The instructions of the image, each with its words."""
    lines = example("Containerfile").replace("\\\n", "").splitlines()
    return [line.split(maxsplit=1) for line in lines if not line.startswith("#")]


def test_the_gateway_takes_the_words_of_its_image():
    found = dict(instructions())
    options = gateway_options([*json.loads(found["ENTRYPOINT"]), "--upstream", "http://books:8080/odata/"])
    assert (options.listen.host, str(options.listen.port)) == ("", found["EXPOSE"])
    assert [name for name, _ in instructions()] == ["FROM", "RUN", "COPY", "RUN", "USER", "EXPOSE", "ENTRYPOINT"]


def packages_of_image():
    """The packages of Debian that the image installs."""
    (words,) = [words for name, words in instructions() if name == "RUN" and words.startswith("apt-get update ")]
    install = re.search("apt-get install (.*?)&&", words)[1].split()
    return [word for word in install if not word.startswith("--")]


@pytest.mark.slow
@pytest.mark.needs("apt-cache")
def test_debian_has_the_packages_of_the_image():
    is_known = lambda name: subprocess.run(["apt-cache", "show", name], capture_output=True).returncode == 0
    if not is_known("nginx") or not is_known("python3-pip"):
        pytest.skip("the lists of apt are not installed")
    assert [name for name in packages_of_image() if not is_known(name)] == []


def test_the_image_has_what_the_options_of_the_gateway_need():
    found = re.findall(r'(?m)^(?:gateway|postgresql) = \[(.*)\]$', text_of("python", "pyproject.toml"))
    needed = {re.match(r'"([\w-]+)', it)[1].replace("_", "-") for line in found for it in line.split(", ")}
    assert {f"python3-{it}" for it in needed} | {"python3-pip"} == set(packages_of_image())


def test_kubernetes_waits_as_long_as_gunicorn():
    skip_without("yaml")
    import yaml

    found = yaml.safe_load(code("yaml")[0])
    assert faults(found, DEPLOYMENT) == []
    names = {}
    exec(code("python")[0], names)
    pod = found["spec"]["template"]
    (container,) = pod["spec"]["containers"]
    assert (found["apiVersion"], found["kind"]) == ("apps/v1", "Deployment")
    assert found["spec"]["selector"]["matchLabels"] == pod["metadata"]["labels"]
    assert pod["spec"]["terminationGracePeriodSeconds"] > names["graceful_timeout"]
    assert f":{container['ports'][0]['containerPort']}" in container["command"]
    assert container["resources"]["limits"]["memory"] == f"{names['workers']}Gi"


def test_each_limit_is_wider_than_the_one_behind_it():
    """The deadline, what gunicorn, systemd and Kubernetes wait for, and what nginx waits for."""
    deadline = int(re.search(r"`deadline`.*none \| (\d+):", PAGE)[1])
    graceful = int(re.search(r"graceful_timeout = (\d+)", PAGE)[1])
    stop = {int(it) for it in re.findall(r"(?:TimeoutStopSec=|terminationGracePeriodSeconds: )(\d+)", PAGE)}
    read = int(re.search(r"proxy_read_timeout (\d+)s;", PAGE)[1])
    assert len(stop) == 1 and deadline < graceful < stop.pop() < read
