"""All faults that the library lists are marked where it has them, and in them the member that each is about."""

import json
import subprocess

import pytest

from support.program import ROOT

BATCH = '{"requests": [\n  {"id": "a", "method": "got", "url": "\u00e4"},\n  {"id": "b", "method": "get", "url": "x", "body": 1}\n]}'
# A library of which each answer is these lines. A fault has its words in them, and one of these positions.
SCRIPT = """
const [root, text, lines, places] = process.argv.slice(1)
const positions = JSON.parse(places)
const words = Array.from(lines.matchAll(/[^ \\n]+/g)).filter(([word]) => word !== 'fault')
const numbersOf = ({ 0: word, index }, at) => [index, word.length, ...(at % 3 === 2 ? positions[(at - 2) / 3] : [])]
const constants = { forms: ['lines', 'json'], modes: ['continue', 'stop'], orders: ['first'], limits: { width: 1 } }
const exports = {
  constants: () => [0, Buffer.from(JSON.stringify(constants))],
  call: () => [1, Buffer.from(lines)],
  explain: (code) => [0, Buffer.from(code + ' Name\\nMeaning.\\nrefused: a case')],
  faults: () => [1, Buffer.from(lines), Float64Array.from(words.flatMap(numbersOf))],
}
require.cache[require.resolve(root + '/node/library/index.js')] = { id: 'stub', loaded: true, exports }
const { judge } = require(root + '/page/verdict.js')
const { Places } = require(root + '/page/places.js')
const { faults, text: first } = judge('check', [Buffer.from(text)], new Places(text, Buffer.from(text)))
if (first !== lines.trimEnd()) console.error(first)
console.log(JSON.stringify(faults.map(({ code, id, line, column, part }) => [code, id ?? null, line, column, text.slice(part.start, part.end)])))"""

METHOD, BODY = ("F14 BadMethod /requests/0", '"method": "got"'), ("F20 BodyNotAllowed /requests/1", '"body": 1')
OF_METHOD, OF_BODY = (2, 3, 17, 58), (3, 3, 62, 113)


@pytest.mark.needs("node")
@pytest.mark.parametrize("text, lines, positions, wanted", [
    (BATCH, [METHOD[0]], [OF_METHOD], [["F14", "a", 2, 3, METHOD[1]]]),
    (BATCH, [METHOD[0], BODY[0]], [OF_METHOD, OF_BODY], [["F14", "a", 2, 3, METHOD[1]], ["F20", "b", 3, 3, BODY[1]]]),
    ('{"\u00e4": tru}', ["F02 NotJson batch"], [(1, 10, 10, 10)], [["F02", None, 1, 10, "tru}"]]),
    ('{"\u00e4": \U0001f4da}', ["F02 NotJson batch"], [(1, 7, 7, 7)], [["F02", None, 1, 7, "\U0001f4da"]]),
    ("[", ["F02 NotJson batch"], [(1, 2, 1, 1)], [["F02", None, 1, 2, ""]]),
])  # fmt: skip
def test_faults(text, lines, positions, wanted):
    words = ["node", "-e", SCRIPT, ROOT, text, "".join(f"fault {line}\n" for line in lines), json.dumps(positions)]
    done = subprocess.run(words, capture_output=True, text=True)
    assert json.loads(done.stdout or "null") == wanted, done.stderr
