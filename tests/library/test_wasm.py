"""The WebAssembly modules: in Node and in browsers they answer as the library does, byte for byte, and give memory back; with
too little memory or stack a call ends, and the next one works."""

import gzip
import json
import os

import instructions
import pytest

from support.browsers import BROWSERS, page_of
from support.commands import run
from support.program import MODULE, MODULE32
from support.answers import RUNS
from support.contents import batch_of_a_megabyte
from support.worked import CALLS

HERE = os.path.join(os.path.dirname(os.path.abspath(__file__)), "wasm")
MOST_BYTES, MOST_PACKED_BYTES = 740_000, 250_000
LITTLE_STACK = 24_576
MORE_PAGES = 24  # of a module with too little memory
IMPORTS, GLOBALS, MEMORY = 2, 6, 5  # sections

# A test in each browser.
IN_BROWSERS = pytest.mark.parametrize("browser", [pytest.param(it, marks=pytest.mark.needs(it)) for it in BROWSERS])

WITH_LITTLE = """\
many objects 0
the next call 0
a start 0
instances more 1
a great batch 4
a batch of many objects 4
the next call 0
requests of a great batch 4
a run of a great batch 4
a start 0
a great report 4
a report 0
a response {"responses":[{"id":"a","status":200}]}
allocated 0
a flat batch 0
a deep batch RuntimeError
the run of the instance ERR_ODB_LOST
the next call 0
another run 0
a deep batch by itself RuntimeError
changed 0
"""


def read(*names):
    with open(os.path.join(*names), "rb") as file:
        return file.read()


@pytest.mark.slow
@pytest.mark.parametrize("form", ["module", "portable"])
def test_node_answers_the_same(form, wanted, calls, request):
    """By the addon, and by the WebAssembly module."""
    folder = request.getfixturevalue(form)
    found = run("node", os.path.join(HERE, "in_node.mjs"), folder, calls, str(RUNS)).splitlines()
    assert len(found) > 3 * len(CALLS) * 0.9 + RUNS
    assert found == wanted


def as_module(text, name):
    """A file of the package as an ES module with one export."""
    return b"const module = {}\n{\n" + text + f"}}\nexport const {{ {name} }} = module.exports\n".encode()


@pytest.mark.slow
@IN_BROWSERS
def test_a_browser_answers_the_same(browser, wanted, portable, wasm, calls, tmp_path):
    files = {
        "/module.mjs": as_module(read(portable, "library", "wasm.js"), "openModule"),
        "/bytes.mjs": as_module(read(portable, "library", "buffer.js"), "Bytes"),
        "/answers.mjs": read(HERE, "answers.mjs"),
        "/calls": calls.read_bytes(),
        **{f"/{name}": read(wasm, name) for name in (MODULE, MODULE32)},
    }
    with page_of(browser, files, tmp_path) as page:
        for name in (MODULE, MODULE32):
            found = page.value(f"""
                globalThis.Buffer = (await import('/bytes.mjs')).Bytes
                const [{{ openModule }}, {{ linesOf }}] = [await import('/module.mjs'), await import('/answers.mjs')]
                const get = async (path) => new Uint8Array(await (await fetch(path)).arrayBuffer())
                const module = await WebAssembly.compile(await get('/{name}'))
                return linesOf(openModule(module, crypto), await get('/calls'), {RUNS})""")
            assert found == wanted, name


IN_PAGE = """
const { Batch, Run, check, perform, version } = await import('/odb_batch.mjs')
const posted = { id: 'a', method: 'post', url: 'X', body: { it: 'ä' } }
const batch = { requests: [posted, { id: 'b', dependsOn: ['a'], method: 'get', url: '$a/Y' }] }
const live = new Run(batch)
live.start('a')
live.report('a', 201, new Headers({ Location: 'X(1)' }), new TextEncoder().encode('{"n":1.50}'))
live.start('b')
live.report('b', 404)
const sent = []
const send = async ({ method, url, body }) => {
  sent.push(`${method} ${url} ${body ?? ''}`)
  return { status: 200, headers: { Location: 'X(1)', 'Content-Type': 'image/png' }, body: new Uint8Array([1, 2, 255]) }
}
const performed = await perform(batch, send, { base: 'https://host/odata/' })
const worker = new Worker('/worker.mjs', { type: 'module' })
const counted = await new Promise((resolve, reject) => {
  Object.assign(worker, { onmessage: (it) => resolve(it.data), onerror: reject })
})
const made = new Batch()
const first = made.post('Orders', { Customer: 'ä' })
made.get(`${first}/Total`)
const answered = (it) => ({ id: it.id, status: 201, headers: { Location: 'https://host/Orders(5)' }, body: { Value: 7 } })
const post = async ({ body }) => ({ status: 200, body: { responses: JSON.parse(body).requests.map(answered) } })
const results = await made.send(post)
return [version, check(batch), String(live.response()), sent, String(performed), counted, results.get(first).json().Value]"""
WORKER = b"import { check } from '/odb_batch.mjs'\npostMessage(check('{\"requests\":[]}'))\n"
PNG = '{"body":"AQL_","headers":{"content-type":"image/png","location":"X(1)"},"id":'


@pytest.mark.slow
@IN_BROWSERS
def test_the_package_in_a_browser(browser, portable, tmp_path):
    files = {f"/{name}": read(portable, name) for name in ("odb_batch.mjs", MODULE32)}
    with page_of(browser, {**files, "/worker.mjs": WORKER}, tmp_path) as page:
        version, counts, response, sent, performed, counted, value = page.value(IN_PAGE)
    assert version == json.loads(read(portable, "package.json"))["version"]
    assert counts == {"requests": 2, "groups": 0} and counted == {"requests": 0, "groups": 0} and value == 7
    assert response == (
        '{"responses":[{"body":{"n":1.50},"headers":{"location":"X(1)"},"id":"a","status":201},{"id":"b","status":404}]}'
    )
    assert sent == ['POST https://host/odata/X {"it":"ä"}', "GET https://host/odata/X(1)/Y "]
    assert performed == f'{{"responses":[{PNG}"a","status":200}},{PNG}"b","status":200}}]}}'


@pytest.mark.slow
@pytest.mark.needs("chromium")
def test_a_great_batch_is_checked_in_a_browser_again_and_again(portable, tmp_path):
    """bench/browsers.py measures how long that takes beside the addon for Node."""
    batch = batch_of_a_megabyte()
    files = {f"/{name}": read(portable, name) for name in ("odb_batch.mjs", MODULE32)}
    with page_of("chromium", {**files, "/batch": batch}, tmp_path / "profile") as page:
        found = page.value("""
            const { check } = await import('/odb_batch.mjs')
            const batch = new Uint8Array(await (await fetch('/batch')).arrayBuffer())
            return Array.from({ length: 10 }, () => check(batch))""")
    assert found == [{"requests": len(json.loads(batch)["requests"]), "groups": 0}] * 10


def sections(data):
    """The kinds and the bodies of the sections of a module."""
    reader = instructions.Reader(data, 8)
    while reader.at < len(data):
        kind = reader.byte()
        yield kind, reader.bytes(reader.unsigned())


def with_section(data, kind, change):
    """A module with another body of a section."""
    parts = ((it, change(instructions.Reader(body)) if it == kind else body) for it, body in sections(data))
    return data[:8] + b"".join(bytes([it]) + instructions.sized(body) for it, body in parts)


def with_little_memory(reader):
    """The section of the memory: so many pages more than it starts with, and no further ones."""
    head, least = reader.bytes(2), reader.unsigned()
    return head + instructions.unsigned(least) + instructions.unsigned(least + MORE_PAGES)


def with_little_stack(reader):
    """The section of globals, of which the first is where the stack begins, as an i64 that changes."""
    head = reader.bytes(4)
    assert head[1:] == bytes([instructions.I64, 1, instructions.I64_CONST]) and reader.signed() == 1 << 20
    return head + instructions.signed(LITTLE_STACK) + reader.data[reader.at :]


def test_too_little_memory_and_stack(portable, wasm, tmp_path):
    data = read(wasm, MODULE32)
    for name, kind, change in [("memory", MEMORY, with_little_memory), ("stack", GLOBALS, with_little_stack)]:
        (tmp_path / name).write_bytes(with_section(data, kind, change))
    words = [portable, os.path.join(wasm, MODULE32), tmp_path / "memory", tmp_path / "stack", str(LITTLE_STACK)]
    run("node", os.path.join(HERE, "limits.mjs"), *words, wanted=WITH_LITTLE)


@pytest.mark.parametrize("name", [MODULE, MODULE32])
def test_the_files(name, wasm):
    data = read(wasm, name)
    packed = len(gzip.compress(data, 9))
    print(f"{name}: {len(data)} bytes, {packed} packed")
    assert len(data) < MOST_BYTES and packed < MOST_PACKED_BYTES
    assert IMPORTS not in dict(sections(data))
