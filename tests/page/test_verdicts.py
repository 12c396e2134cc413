"""The page says of every document of the worked cases what the program says, and marks the elements of its faults."""

import contextlib
import json
import os
import subprocess

import pytest

from support import pages
from support.page import choose
from support.program import ROOT
from support.worked import CALLS

MOST_SHORT = 100_000  # bytes of documents that are not slow
SOME = 16  # one of so many short documents is not slow, either

OPEN = """const page = await window.page
while (page.count <= BEFORE) await new Promise((it) => setTimeout(it, 1))
return [page.count, page.SAID, document.getElementById('response-text')?.textContent]"""


class Reader:
    """Opens documents in the page, and returns what it says of them."""

    def __init__(self, page, folder):
        self.page, self.path = page, folder / "document.json"
        self.count = page.value("return (await page).count")
        self.batch = None

    def open(self, field, data, said):
        self.path.write_bytes(data)
        self.page.open_file(field, self.path)
        self.count, found, response = self.page.value(OPEN.replace("BEFORE", str(self.count)).replace("SAID", said))
        return found, response

    def check(self, data):
        """The verdict on a batch."""
        if data != self.batch:
            self.batch = data
            self.said, _ = self.open("file", data, "found.text")
        return self.said

    def read(self, data):
        return self.open("second-file", data, "second.text")


def output(program, folder, command, documents, *words):
    """What the program prints of documents."""
    names = []
    for at, data in enumerate(documents):
        names.append(folder / f"{at}.json")
        names[-1].write_bytes(data)
    done = subprocess.run([program, command, *names, *words], stdout=subprocess.PIPE, check=False)
    assert done.returncode in (0, 1)
    return done.stdout.decode().rstrip("\n")


def short(data):
    return len(data) <= MOST_SHORT


def share_of(listed, are_some):
    """Some of a list, or all the others."""
    return [it for at, it in enumerate(listed) if (at % SOME == 0) == are_some]


each_share = pytest.mark.parametrize("are_some", [True, pytest.param(False, marks=pytest.mark.slow)], ids=["some", "others"])


@each_share
def test_every_batch(page, program, tmp_path, are_some):
    documents = list({it.documents[0]: None for it in CALLS})
    some = share_of([it for it in documents if short(it)], True)
    batches = some if are_some else [it for it in documents if it not in some]
    reader = Reader(page, tmp_path)
    for data in batches:
        assert reader.check(data) == output(program, tmp_path, "check", [data]), data[:200]
    print(f"{len(batches)} batches")


@each_share
def test_every_second_document(page, program, tmp_path, are_some):
    reader, count = Reader(page, tmp_path), 0
    width_of = lambda call: call.options.get("width", 10_000)
    calls = [it for it in CALLS if it.command in ("match", "run", "replay") and isinstance(width_of(it), int)]
    for call in share_of(calls, are_some):
        width, (batch, second) = width_of(call), call.documents
        if not (short(batch) and short(second)) or not reader.check(batch).startswith("ok "):
            continue
        choose(page, "stop", call.options.get("mode") == "stop")
        choose(page, "order", call.options.get("order", "first"))
        page.value(f"document.getElementById('width').value = '{width}'")
        words = [*(["--stop"] if call.options.get("mode") == "stop" else []), *([] if call.command == "match" else ["--width", str(width)])]
        if call.command == "replay":
            words += ["--order", call.options.get("order", "first")]
        wanted = output(program, tmp_path, call.command, [batch, second], *words)
        found, response = reader.read(second)
        about = (call.case.name, wanted, found)
        if call.command == "match" or wanted.startswith("fault "):
            # The page reads a document by what it is: one that names no kind is read as events.
            assert found == wanted or not is_of(call.command, second), about
        else:
            assert response == wanted, about
        count += 1
    print(f"{count} second documents")
    assert count > 0


def is_of(command, data):
    """Whether a document is an object that names the kind that a command reads."""
    try:
        found = json.loads(data)
    except ValueError:
        return False
    return isinstance(found, dict) and {"match": "responses", "run": "events", "replay": "outcomes"}[command] in found


@pytest.mark.needs("node")
def test_the_elements_are_marked(wasm, tmp_path):
    """Of all batches that are JSON the element that a fault names is that of the JSON."""
    texts = []
    for data in {call.documents[0]: None for call in CALLS}:
        with contextlib.suppress(UnicodeDecodeError):
            texts += [data.decode()] if short(data) else []
    (tmp_path / "texts.json").write_text(json.dumps(texts))
    script = """
        const [root, module, texts] = process.argv.slice(1)
        const { readFileSync } = require('fs')
        const { openModule } = require(root + '/node/library/wasm.js')
        const exports = openModule(new WebAssembly.Module(readFileSync(module)), require('crypto').webcrypto)
        require.cache[require.resolve(root + '/node/library/index.js')] = { id: 'library', loaded: true, exports }
        const { faults } = require(root + '/node/calls/commands.js')
        const { Places } = require(root + '/page/places.js')
        const { isDeepStrictEqual } = require('node:util')
        let count = 0
        for (const text of JSON.parse(readFileSync(texts))) {
          const places = new Places(text, Buffer.from(text))
          for (const fault of faults(text)) {
            const [, at] = /^.requests.(\\d+)$/.exec(fault.place) ?? []
            if (at === undefined) continue
            const { start, end } = places.locate(fault).whole
            if (!isDeepStrictEqual(JSON.parse(text.slice(start, end)), JSON.parse(text).requests[at])) console.log('place', text)
            count++
          }
        }
        console.log(count > 200)"""
    words = ["node", "-e", script, ROOT, os.path.join(wasm, "odb_batch32.wasm"), tmp_path / "texts.json"]
    done = subprocess.run(words, capture_output=True, text=True)
    assert (done.stdout, done.stderr) == ("true\n", "")
