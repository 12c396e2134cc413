'use strict'

// What is sent, and what is answered: bodies, numbers, headers, exceptions and timeouts.

const assert = require('node:assert/strict')
const http = require('node:http')
const { once } = require('node:events')
const { test } = require('node:test')
const { Refusal, perform } = require('..')
const { SILENT, after, batch, responsesOf, statusesOf } = require('./performing.js')

const ONE = batch(['a'])
const NUMBERS = '{"p": 9.990,"n":12345678901234567890123.25,"i":9007199254740993,"e":[-1E3 ],"k\\"2":"1.50","p":1}'

function errorOf(name, code) {
  return Object.assign(new Error(code ?? name), { name, code })
}

const EXCEPTIONS = [
  [new Refusal(418, 'Teapot', 'short and stout'), 418],
  [errorOf('TimeoutError'), 504],
  [errorOf('AbortError'), 504],
  [errorOf('Error', 'ETIMEDOUT'), 504],
  [errorOf('Error', 'ECONNRESET'), 502],
  [Object.assign(new TypeError('fetch failed'), { cause: errorOf('Error', 'ECONNREFUSED') }), 502],
  [Object.assign(new TypeError('fetch failed'), { cause: errorOf('Error', 'UND_ERR_HEADERS_TIMEOUT') }), 504],
  [new Error('as planned'), 500],
  [undefined, 500],
]

for (const [error, status] of EXCEPTIONS) {
  test(`answers an exception: ${error} ${error?.cause?.code ?? ''}`, async () => {
    const logged = []
    const log = (it, what) => logged.push([it, what])
    const late = async () => { throw error }
    const early = () => { throw error }
    for (const send of [late, early]) assert.deepEqual(await statusesOf(ONE, send, { log }), { a: status })
    const expected = error instanceof Refusal ? [] : [[error, 'the request a'], [error, 'the request a']]
    assert.deepEqual(logged, expected)
  })
}

test('answers 500 for what is not an answer', async () => {
  for (const answer of [undefined, null, 200, 'OK', { status: 200, body: 1n }, { status: 200, body: () => {} }]) {
    assert.deepEqual(await statusesOf(ONE, () => answer), { a: 500 })
  }
})

test('shows a status that may not be reported as 502', async () => {
  for (const status of [0, 100, 199, 600]) {
    assert.deepEqual(await statusesOf(ONE, () => ({ status })), { a: 502 })
  }
})

test('answers 500 for a status that is not a whole number', async () => {
  for (const status of [undefined, null, '200', 200.5, NaN, 200n]) {
    const errors = []
    assert.deepEqual(await statusesOf(ONE, () => ({ status }), { log: (error) => errors.push(error.message) }), { a: 500 })
    assert.deepEqual(errors, [`the status of an answer must be a whole number, not the ${typeof status} ${String(status)}`])
  }
})

test('answers 504 when the time is over, and says so to who sends', async () => {
  let reason
  const send = async ({ signal }) => {
    signal.addEventListener('abort', () => (reason = signal.reason.name))
    return after(200, { status: 200 })
  }
  const document = batch(['a'], ['b', 'get', 'B', { dependsOn: ['a'] }])
  assert.deepEqual(await statusesOf(document, send, { timeout: 10 }), { a: 504, b: 424 })
  assert.equal(reason, 'TimeoutError')
})

test('ends a batch at its deadline, and says so to who sends', async () => {
  let signal
  const send = ({ id, signal: given }) => {
    if (id === 'b') signal = given
    return id === 'a' ? { status: 200 } : new Promise(() => {})
  }
  const document = batch(['a'], ['b'], ['c'], ['d', 'get', 'D', { dependsOn: ['a'] }])
  for (const options of [{ deadline: 500 }, { deadline: 500, timeout: 60000 }]) {
    assert.deepEqual(await statusesOf(document, send, options), { a: 200, b: 504, c: 424, d: 424 })
    assert.equal(signal.reason.name, 'TimeoutError')
  }
})

test('passes the signal on, also in a copy of the request, and makes it when it is asked for', async () => {
  const seen = []
  const send = (request) => {
    const { signal } = { ...request }
    seen.push(signal instanceof AbortSignal, signal === request.signal, Object.keys(request).includes('signal'))
    return { status: 200 }
  }
  await statusesOf(ONE, send, { timeout: 60000 })
  await perform(ONE, ({ signal }) => seen.push(signal) && { status: 200 })
  assert.deepEqual(seen, [true, true, true, undefined])
})

test('passes on bodies of JSON byte for byte', async () => {
  let sent
  const document = `{"requests":[{"id":"a","method":"post","url":"A","body":${NUMBERS}}]}`
  const send = ({ headers, body }) => {
    sent = [headers, body.toString()]
    return { status: 201, headers: { 'Content-Type': 'application/json' }, body }
  }
  const response = (await perform(document, send)).toString()
  assert.deepEqual(sent, [{ 'content-type': 'application/json' }, NUMBERS])
  const expected = `{"responses":[{"body":${NUMBERS},"headers":{"content-type":"application/json"},"id":"a","status":201}]}`
  assert.equal(response, expected)
})

const SENT_BODIES = [
  ['text/plain', 'Grüße', Buffer.from('Grüße')],
  ['text/plain; charset=ISO-8859-1', 'Grüße', Buffer.from('Grüße', 'latin1')],
  ['text/plain;charset="utf-16le"', 'Grüße', Buffer.from('Grüße', 'utf16le')],
  ['image/png', '_-8', Buffer.from([255, 239])],
  ['application/problem+json', { a: 1 }, Buffer.from('{"a":1}')],
]

for (const [type, body, wire] of SENT_BODIES) {
  test(`sends a body of ${type}`, async () => {
    const document = batch(['a', 'put', 'A', { headers: { 'Content-Type': type }, body }])
    const send = ({ body: sent }) => {
      assert.deepEqual(Buffer.from(sent), wire)
      return { status: 200 }
    }
    assert.deepEqual(await statusesOf(document, send), { a: 200 })
  })
}

test('refuses a text that its character set does not have', async () => {
  for (const [charset, body] of [['iso-8859-1', '→'], ['us-ascii', 'é'], ['klingon', '→']]) {
    const document = batch(['a', 'put', 'A', { headers: { 'Content-Type': `text/plain;charset=${charset}` }, body }])
    assert.deepEqual(await statusesOf(document, () => assert.fail('sent')), { a: 400 })
  }
})

test('sends no body and no type where there is none', async () => {
  for (const more of [{}, { body: null }]) {
    const send = ({ body, headers }) => {
      assert.deepEqual([body, headers], [undefined, {}])
      return { status: 204 }
    }
    assert.deepEqual(await statusesOf(batch(['a', 'post', 'A', more]), send), { a: 204 })
  }
})

const SHOWN_BODIES = [
  ['application/json', Buffer.from('{"a":1.50}'), '{"a":1.50}'],
  ['application/json', Buffer.from('\ufeff[1]'), '[1]'],
  ['', new Uint8Array(Buffer.from('7')), '7'],
  ['application/json', Buffer.from('{"a": NaN}'), '"{\\"a\\": NaN}"'],
  ['application/json', Buffer.from('<html>'), '"<html>"'],
  ['application/json', Buffer.from('['.repeat(200) + ']'.repeat(200)), `"${'['.repeat(200)}${']'.repeat(200)}"`],
  ['text/html; charset=iso-8859-1', Buffer.from('é', 'latin1'), '"é"'],
  ['text/plain', Buffer.from([0xff]), '"ÿ"'],
  ['text/plain;charset=klingon', Buffer.from('a'), '"a"'],
  ['image/png', Buffer.from([255, 239]), '"_-8"'],
  ['image/png', new ArrayBuffer(2), '"AAA"'],
  ['text/plain', 'a', '"a"'],
  ['application/json', { a: [1] }, '{"a":[1]}'],
  ['application/json', false, 'false'],
]

for (const [type, body, text] of SHOWN_BODIES) {
  test(`shows a body of ${type || 'no type'} as ${text.slice(0, 20)}`, async () => {
    const answer = { status: 200, headers: type ? { 'Content-Type': type } : {}, body }
    const response = (await perform(ONE, () => answer)).toString()
    assert.equal(response.slice('{"responses":['.length).startsWith(`{"body":${text},`), true, response)
  })
}

test('shows no body where there is none', async () => {
  for (const body of [undefined, null, Buffer.alloc(0)]) {
    assert.equal((await perform(ONE, () => ({ status: 200, body }))).toString(), '{"responses":[{"id":"a","status":200}]}')
  }
})

test('shows headers but those of the connection, however they are passed', async () => {
  const hidden = { 'Set-Cookie': ['x=1', 'y=2'], Connection: 'close', Date: 'today', Warning: undefined }
  const plain = { ETag: '"7"', Vary: ['a', 'b'], Age: 7, ...hidden }
  const of = async (headers) => responsesOf(await perform(ONE, () => ({ status: 200, headers })))[0].headers
  assert.deepEqual(await of(plain), { age: '7', etag: '"7"', vary: 'a, b' })
  assert.deepEqual(await of(new Headers([['ETag', '"7"'], ['Set-Cookie', 'x=1']])), { etag: '"7"' })
  assert.deepEqual(await of({ 'X-A': '1', 'x-a': '2' }), { 'x-a': '1, 2' })
})

test('keeps what can be read of an answer', async () => {
  const wrong = { 'X-Name': '\ud800', Location: 'Books(1)' }
  const answers = [
    [wrong, '{"a":9.990}', '{"a":9.990}', { location: 'Books(1)' }],
    [wrong, '<p>', '"<p>"', { location: 'Books(1)' }],
    [{ 'X-Name': 'é', Location: 'Books(1)' }, '<p>', '"<p>"', { 'x-name': 'é', location: 'Books(1)' }],
  ]
  for (const [headers, body, text, shown] of answers) {
    const response = (await perform(ONE, () => ({ status: 201, headers, body: Buffer.from(body) }), SILENT)).toString()
    assert(response.startsWith(`{"responses":[{"body":${text},`), response)
    assert.deepEqual(responsesOf(response)[0].headers, shown)
  }
})

test('sends by fetch', async () => {
  const server = http.createServer(async (req, res) => {
    const parts = []
    for await (const part of req) parts.push(part)
    res.writeHead(req.method === 'POST' ? 201 : 200, { 'Content-Type': 'application/json', Location: `${req.url}(1)` })
    res.end(parts.length > 0 ? Buffer.concat(parts) : '{"a":1.0}')
  })
  await once(server.listen(0, '127.0.0.1'), 'listening')
  const base = `http://127.0.0.1:${server.address().port}/odata/`
  const document = batch(['a', 'post', 'A', { body: 7 }], ['b', 'get', '$a/B', { dependsOn: ['a'] }])
  const send = (request) => fetch(request.url, request)
  try {
    const response = await perform(document, send, { base, ...SILENT })
    assert.deepEqual(responsesOf(response).map(({ status, body }) => [status, body]), [[201, 7], [200, { a: 1 }]])
  } finally {
    server.closeAllConnections()
    server.close()
  }
  assert.deepEqual(await statusesOf(document, send, { base }), { a: 502, b: 424 })
})

test('answers for a body that is too long for a response', async () => {
  const document = batch(['a', 'get', 'A'], ['b', 'post', 'B'], ['c', 'put', 'C'], ['d', 'get', 'D'])
  const long = Buffer.alloc(13000000, '7')
  const bodies = { a: ['image/png', long], b: ['image/png', long], c: ['application/json', Buffer.alloc(16777217, 'x')] }
  const send = ({ id }) => {
    const [type, body] = bodies[id] ?? ['text/plain', '']
    return { status: 200, headers: { 'Content-Type': type, Location: '7' }, body }
  }
  const [a, b, c, d] = responsesOf(await perform(document, send))
  assert.deepEqual([a.status, a.body.error.code], [507, 'TooLong'])
  assert.deepEqual([b.status, b.body, b.headers.location], [200, undefined, '7'])
  assert.deepEqual([c.status, c.body, d.status], [200, undefined, 200])
})
