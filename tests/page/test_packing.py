"""The page is one small file that names nothing outside of it; the package for Python opens and writes it."""

import base64
import hashlib
import importlib.util
import os
import re
import subprocess
import sys

import pytest

from support.program import ROOT

PACK = os.path.join(ROOT, "bin", "odb_page")
MOST_BYTES = 455_000


def test_the_file(page_file, wasm, tmp_path):
    data = page_file.read_bytes()
    print(f"{len(data):,} bytes")
    assert len(data) < MOST_BYTES
    again = tmp_path / "folder" / "again.html"
    subprocess.run([sys.executable, PACK, wasm, again], check=True)
    assert again.read_bytes() == data


def test_it_names_nothing_outside(page_file):
    text = page_file.read_text(encoding="utf-8")
    named = re.findall(r"""(?:src|href|action)="([^"]*)\"""", text) + re.findall(r"url\(([^)]*)\)|@import", text)
    assert set(named) == {"data:,", "#text", "#play"}
    assert not re.search(r"\b(?:fetch|XMLHttpRequest|sendBeacon|WebSocket|EventSource|importScripts)\(", text)


def test_the_policy_names_its_script_and_its_style(page_file):
    """So that the browser runs no script, and takes no style, that anything else puts into the page."""
    text = page_file.read_text(encoding="utf-8")
    policy = dict(it.strip().split(" ", 1) for it in re.search(r'Security-Policy" content="(.*?)"', text)[1].split(";"))
    for name, begin, end in [("script-src", '<script id="code">', "</script>"), ("style-src", "<style>", "</style>")]:
        own = text.partition(begin)[2].partition(end)[0]
        digest = base64.b64encode(hashlib.sha256(own.encode()).digest()).decode()
        assert policy[name].split()[0] == f"'sha256-{digest}'"
    assert "unsafe-inline" not in text.partition("<body>")[0]


@pytest.mark.parametrize("words, status, line", [
    ([], 2, "usage: bin/odb_page MODULES [FILE]"),
    (["--help"], 2, "usage: bin/odb_page MODULES [FILE]"),
    (["/nowhere"], 70, "odb_page: [Errno 2] No such file or directory: '/nowhere/odb_batch32.wasm'"),
])  # fmt: skip
def test_wrong_calls_end_with_a_line(words, status, line):
    done = subprocess.run([sys.executable, PACK, *words], capture_output=True, text=True)
    assert (done.returncode, done.stdout, done.stderr) == (status, "", line + "\n")


@pytest.fixture
def command(tmp_path, monkeypatch):
    """The command of the package, without the library, and with a page in a folder of its own."""
    path = os.path.join(ROOT, "python", "odb_batch", "_page.py")
    spec = importlib.util.spec_from_file_location("page_command", path)
    module = importlib.util.module_from_spec(spec)
    spec.loader.exec_module(module)
    folder = tmp_path / "a package" / "odb_batch"
    folder.mkdir(parents=True)
    monkeypatch.setattr(module, "HERE", str(folder))
    (folder / module.NAME).write_text("the page")
    return module


def test_the_command_writes_the_page(command, tmp_path, capsys):
    assert command.main([str(tmp_path / "copy.html")]) == 0
    assert (tmp_path / "copy.html").read_text() == "the page"
    assert command.main([str(tmp_path / "no" / "copy.html")]) == 3
    assert capsys.readouterr().err == f"error: {tmp_path}/no/copy.html: No such file or directory\n"


def test_the_command_opens_the_page(command, monkeypatch, capsys):
    opened = []
    monkeypatch.setattr(command.webbrowser, "open", lambda it: opened.append(it) or True)
    assert command.main([]) == 0
    assert opened[0].startswith("file:///") and opened[0].endswith("/a%20package/odb_batch/odb_batch.html")
    monkeypatch.setattr(command.webbrowser, "open", lambda it: False)
    assert command.main([]) == 3
    assert capsys.readouterr().err == f"error: no browser can be started: open {opened[0]}\n"


def test_a_package_without_a_page_says_so(command, capsys):
    os.remove(os.path.join(command.HERE, command.NAME))
    assert command.main([]) == 3
    assert capsys.readouterr().err == "error: this package has no page: bin/odb_page makes it\n"
