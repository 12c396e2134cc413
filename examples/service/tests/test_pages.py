"""What docs/service.md shows of the example: its commands, run."""

import json
import shlex
import subprocess

import pytest

from common import ROOT, SECONDS
from support.commands import with_package
from support.markdown import blocks, text_of
from support.servers import free_port

# The commands by which a clone starts the service and asks it, and the one by which gunicorn serves it.
BY_HAND, BY_GUNICORN = (it.splitlines() for it in blocks(text_of("docs", "service.md"), "sh"))


def answers(words, until, ask, **variables):
    """The statuses of what a service answers to the batch that a command sends; it has to end with 0."""
    pipes = {"stdout": subprocess.DEVNULL, "stderr": subprocess.PIPE, "text": True}
    with subprocess.Popen(words, cwd=ROOT, env={**with_package(), **variables}, **pipes) as service:
        try:
            assert any(until in line for line in service.stderr)
            done = subprocess.run(
                ["bash", "-c", ask], cwd=ROOT, stdout=subprocess.PIPE, stderr=subprocess.DEVNULL, timeout=SECONDS
            )
        finally:
            service.terminate()
            try:
                service.communicate(timeout=SECONDS)
            finally:
                service.kill()
    assert service.returncode == 0
    return {it["id"]: it["status"] for it in json.loads(done.stdout)["responses"]}


GOOD = {"book": 200, "mark": 204, "loan": 201, "list": 200}


@pytest.mark.needs("curl")
def test_the_commands_of_the_page_answer_the_batch():
    build, start, ask = BY_HAND
    assert build == "bin/odb_library python/odb_batch"  # the library of the tests is in another folder
    assert start.startswith("PYTHONPATH=python ")
    port = str(free_port())
    words = [*shlex.split(start)[1:], "--port", port]
    assert answers(words, "listening", ask.replace("localhost:8080", f"127.0.0.1:{port}")) == GOOD


@pytest.mark.needs("curl", "gunicorn")
def test_gunicorn_by_the_command_of_the_page_answers_the_batch(tmp_path):
    (start,), port = BY_GUNICORN, free_port()
    assert start.startswith("PYTHONPATH=python gunicorn ")
    words = [*start.split()[1:], "--bind", f"127.0.0.1:{port}", "--workers", "1"]
    ask = BY_HAND[2].replace("localhost:8080", f"127.0.0.1:{port}")
    assert answers(words, " answers", ask, LIBRARY=str(tmp_path / "library.sqlite")) == GOOD
