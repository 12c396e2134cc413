'use strict'

// Batches that are made by calls, and what they return.

const assert = require('node:assert/strict')
const { test } = require('node:test')
const { inspect } = require('node:util')
const { Batch, Group, Reference, RequestFailed } = require('../client/index.js')
const { GROUP, SILENT, batch: described } = require('./performing.js')
const { PATH, listening } = require('./serving.js')
const { batch: mounted } = require('../middleware/index.js')

/** The elements of a batch. */
function elementsOf(batch) {
  return JSON.parse(batch.document()).requests
}

/** What each request of a batch depends on. */
function needsOf(batch) {
  return Object.fromEntries(elementsOf(batch).map(({ id, dependsOn = [] }) => [id, dependsOn]))
}

test('lists the statuses of results, and says that nothing is left', async () => {
  const one = new Batch()
  one.get('A')
  one.post('B', 7)
  const statuses = { 1: 200, 2: 503 }
  const post = ({ body }) => {
    const responses = JSON.parse(body).requests.map(({ id }) => ({ id, status: statuses[id] }))
    return { status: 200, body: { responses } }
  }
  const results = await one.send(post)
  assert.equal(String(results), '2 requests: 1 done, 1 left\nleft: 2 (POST B) 503')
  assert.equal(inspect(results), String(results))
  statuses[2] = 201
  const last = await results.rest().send(post)
  assert.deepEqual([`${last}`, last.rest()], ['1 requests: 1 done', null])
})

test('writes requests as they are called for', () => {
  const batch = new Batch()
  batch.get('Books')
  batch.post('Books', { Title: 'Dune' }, { id: 'book', headers: { Prefer: 'return=minimal' } })
  batch.put('Books(1)', 'text')
  batch.patch('Books(1)', [7], { headers: [['Content-Type', 'application/json;IEEE754Compatible=true']] })
  batch.delete('Books(1)')
  batch.request('Get', 'Loans', null)
  const json = { 'content-type': 'application/json' }
  assert.deepEqual(elementsOf(batch), [
    { id: '1', method: 'get', url: 'Books' },
    { id: 'book', method: 'post', url: 'Books', headers: { prefer: 'return=minimal', ...json }, body: { Title: 'Dune' } },
    { id: '3', method: 'put', url: 'Books(1)', headers: json, body: 'text' },
    { id: '4', method: 'patch', url: 'Books(1)', headers: { 'content-type': 'application/json;IEEE754Compatible=true' }, body: [7] },
    { id: '5', method: 'delete', url: 'Books(1)' },
    { id: '6', method: 'get', url: 'Loans' },
  ])
  assert.deepEqual([batch.size, batch.check()], [6, { requests: 6, groups: 0 }])
})

test('depends on what a request refers to', () => {
  const batch = new Batch()
  const order = batch.post('Orders', {})
  const line = batch.post(`${order}/Lines`, {})
  batch.get(order)
  batch.get('%241?$select=Id')
  batch.get('Orders?$filter=$1')
  batch.patch('Orders(1)', {}, { headers: { 'If-Match': line } })
  batch.get('Orders', { after: order })
  batch.get(`${order}/Notes`, { after: [line, '3', order] })
  assert.deepEqual(needsOf(batch), { 1: [], 2: ['1'], 3: ['1'], 4: ['1'], 5: [], 6: ['2'], 7: ['1'], 8: ['2', '3', '1'] })
  assert.deepEqual(elementsOf(batch).map(({ url }) => url).slice(1, 3), ['$1/Lines', '$1'])
  assert.equal(batch.check().requests, 8)
})

test('makes a group of what a function adds', () => {
  const batch = new Batch()
  let inside
  const group = batch.group((given) => {
    inside = batch.post('Orders', {})
    batch.post(`${inside}/Lines`, {})
    assert.equal(given.id, 'g1')
  })
  const named = batch.group(() => batch.delete('Books(1)', { after: group }), { id: 'second' })
  batch.get(inside)
  batch.get('Books', { after: named })
  assert.deepEqual(needsOf(batch), { 1: [], 2: ['1'], 3: ['g1'], 4: ['1', 'g1'], 5: ['second'] })
  assert.deepEqual(elementsOf(batch).map((it) => it.atomicityGroup), ['g1', 'g1', 'second', undefined, undefined])
  assert.deepEqual([group instanceof Group, inside instanceof Reference, batch.check()], [true, true, { requests: 5, groups: 2 }])
})

test('adds nothing of a group whose function fails', () => {
  const batch = new Batch()
  const before = batch.get('A')
  const fail = () => {
    batch.post('B', {})
    throw new Error('as planned')
  }
  assert.throws(() => batch.group(fail), /as planned/)
  assert.throws(() => batch.group(async () => batch.post('B', {})), TypeError)
  assert.throws(() => batch.group(() => batch.group(() => {})), /in another one/)
  batch.get('C', { after: before })
  assert.deepEqual(needsOf(batch), { 1: [], 2: ['1'] })
  const shadow = () => {
    batch.get('D', { id: '1' })
    fail()
  }
  assert.throws(() => batch.group(shadow), /as planned/)
  assert.equal(batch.group(() => batch.get('E', { after: before })).id, 'g1')
  assert.deepEqual(needsOf(batch), { 1: [], 2: ['1'], 3: ['1'] })
})

test('gives no name twice, also of a group without requests', () => {
  const batch = new Batch()
  const [empty, full] = [batch.group(() => {}), batch.group(() => batch.get('A'))]
  assert.deepEqual([empty.id, full.id, batch.check()], ['g1', 'g2', { requests: 1, groups: 1 }])
})

/** How often a name is looked up in a map while some work is done. */
function lookupsOf(work) {
  const { has } = Map.prototype
  let count = 0
  Map.prototype.has = function (name) {
    count++
    return has.call(this, name)
  }
  try {
    work()
  } finally {
    Map.prototype.has = has
  }
  return count
}

test('takes as many groups and ids as a batch may have', () => {
  const batch = new Batch()
  const lookups = lookupsOf(() => {
    for (let k = 0; k < 5000; k++) batch.group(() => batch.get('A', { id: String(5001 + k) }))
    for (let k = 0; k < 5000; k++) batch.get('A')
  })
  // Some for each name, and not as many as there are names.
  assert(lookups > 0 && lookups < 20 * 15000, `${lookups} lookups`)
  assert.deepEqual(batch.check(), { requests: 10000, groups: 5000 })
})

test('has no result of a request of another batch', async () => {
  const [batch, other] = [new Batch(), new Batch()]
  batch.get('A')
  const results = await batch.send(() => ({ status: 503 }))
  assert.throws(() => results.get(other.get('A')), RangeError)
  assert.throws(() => results.get(undefined), TypeError)
})

test('reads headers that are texts or numbers', async () => {
  const headers = { A: true, B: 7, C: 1.5, D: null, E: ['x'], F: 'x', f: 'y' }
  const body = { responses: [{ id: 'a', status: 200, headers }] }
  const [result] = await Batch.read(described(['a'])).send(() => ({ status: 200, body }))
  assert.deepEqual(result.headers, { b: '7', c: '1.5', f: 'x, y' })
})

test('refuses what it cannot send', () => {
  const [batch, other] = [new Batch(), new Batch()]
  const stranger = other.get('A')
  const bytes = (text) => Buffer.from(text)
  const wrong = [
    [RangeError, () => batch.get('A', { id: 'metadata' })],
    [RangeError, () => batch.get('A', { after: stranger })],
    [RangeError, () => batch.get('A', { after: other.group(() => {}) })],
    [RangeError, () => batch.get(stranger)],
    [RangeError, () => batch.get('A', { headers: { 'If-Match': stranger } })],
    [TypeError, () => batch.get('A', { id: 7 })],
    [TypeError, () => batch.get(undefined)],
    [TypeError, () => batch.get(null)],
    [TypeError, () => batch.group(() => {}, { id: 7 })],
    [TypeError, () => batch.get('A', { after: 7 })],
    [TypeError, () => batch.get('A', { before: 7 })],
    [TypeError, () => batch.post('A', bytes('{"p":1},{"id":"x"'))],
    [TypeError, () => batch.post('A', bytes('NaN'))],
    [TypeError, () => batch.post('A', Buffer.from([0x22, 0xff, 0x22]))],
    [TypeError, () => batch.post('A', { p: 1n })],
    [TypeError, () => batch.post('A', () => {})],
    ...[Promise.resolve({}), new Map(), new Set(), new Uint16Array(1), new DataView(new ArrayBuffer(1)), new URLSearchParams('a=1')].map(
      (body) => [TypeError, () => batch.post('A', body)],
    ),
  ]
  for (const [kind, call] of wrong) assert.throws(call, kind)
  assert.equal(batch.size, 0)
  batch.get('A', { id: 'a' })
  batch.get('B', { id: 'a' })
  assert.throws(() => batch.check(), { name: 'Fault', place: '/requests/1' })
})

test('keeps bodies as they are', () => {
  const batch = new Batch()
  const typed = (type) => ({ headers: { 'Content-Type': type } })
  batch.post('A', Buffer.from('\ufeff{"Price": 1.50, "No": 12345678901234567890}'))
  batch.post('A', new Uint8Array([0xe9]), typed('text/plain; charset=iso-8859-1'))
  batch.post('A', new Uint8Array([255, 239]).buffer, typed('image/png'))
  batch.post('A', Buffer.alloc(0))
  const [, , text] = batch.document().toString().split('"body":')
  assert.match(batch.document().toString(), /"body":\{"Price": 1\.50, "No": 12345678901234567890\}\}/)
  assert.deepEqual([text.slice(0, 4), elementsOf(batch).map(({ body }) => body).slice(2)], ['"é"}', ['_-8', undefined]])
})

test('reads a document, to extend it', () => {
  const batch = Batch.read(GROUP)
  batch.get('D', { after: 'a', id: 'd' })
  batch.get('$x/E')
  assert.deepEqual(needsOf(batch), { x: [], a: [], b: ['x'], c: ['g'], d: ['a', 'g'], 6: ['x'] })
  assert.equal(batch.check().requests, 6)
  assert.throws(() => Batch.read('{}'), { name: 'Fault' })
})

/** A service that keeps what is posted, and answers it by a function of a request. */
function handler(req, res) {
  const parts = []
  req.on('data', (part) => parts.push(part)).on('end', () => {
    const key = /Books\('(\w+)'\)/.exec(req.url)?.[1] ?? 'new'
    res.setHeader('Content-Type', 'application/json')
    res.setHeader('ETag', '"7"')
    res.setHeader('Location', `/odata/Books('${key}')`)
    res.statusCode = { GET: 200, POST: 201 }[req.method] ?? 412
    res.end(req.method === 'PATCH' ? '{"error":{"code":"Old","message":"it has changed"}}' : `{"url":"${req.url}","of":${parts.join('') || 1.50}}`)
  })
}

for (const limit of [1, 2, 10]) {
  test(`is answered by a service over fetch, ${limit} at once`, async () => {
    const batch = new Batch()
    const book = batch.post('Books', Buffer.from('{"Price":1.50}'))
    const pages = batch.get(`${book}/Pages`)
    const old = batch.patch(book, {}, { headers: { 'If-Match': book } })
    const late = batch.get('Books', { after: old })
    await listening(mounted(handler, { path: PATH, ...SILENT }), async ({ origin }) => {
      const results = await batch.send((request) => fetch(origin + PATH, request), { limit })
      assert.deepEqual(Array.from(results, ({ status }) => status), [201, 200, 412, 424])
      assert.equal(results.get(book).body.toString(), '{"url":"/odata/Books","of":{"Price":1.50}}')
      assert.deepEqual([results.get(pages).json().url, results.get('1').headers.etag], ["/odata/Books('new')/Pages", '"7"'])
      assert.deepEqual([results.size, results.error, results.get('9'), results.get(late).ok], [4, undefined, undefined, false])
      assert.equal(results.get(book).raiseForStatus(), results.get(book))
      const failed = { name: 'RequestFailed', message: '3 (PATCH $1) 412 Old: it has changed', result: results.get(old) }
      assert.throws(() => results.get(old).raiseForStatus(), failed)
      assert.throws(() => results.get(late).raiseForStatus(), RequestFailed)
    })
  })
}

test('says of a failure what its error object says', async () => {
  const bodies = ['', '[]', '{', '{"error":7}', '{"error":{"code":"A"}}', '['.repeat(100000)]
  for (const body of bodies) {
    const [result] = await Batch.read(described(['a'])).send(() => ({ status: 500, body }))
    assert.throws(() => result.raiseForStatus(), { message: 'a (GET A) 500' })
  }
})

test('asks a service to continue, unless it stops', async () => {
  const batch = Batch.read(described(['a'], ['b']))
  const asked = []
  const post = ({ headers }) => {
    asked.push(headers.prefer)
    return { status: 200, body: '{"responses":[{"id":"a","status":404}]}' }
  }
  const results = await batch.send(post, { mode: 'stop' })
  assert.deepEqual(Array.from(results, ({ status }) => status), [404, 424])
  await batch.send(post)
  assert.deepEqual(asked, [undefined, 'continue-on-error'])
})
