'use strict'

// A client that waits while a service is busy, and sends again what may be sent again.

const assert = require('node:assert/strict')
const http = require('node:http')
const { once } = require('node:events')
const { test } = require('node:test')
const { Batch, BatchClient, BatchFailed } = require('../client/index.js')
const { batchOf, outcomesOf, randomFrom } = require('./batches.js')
const { Service } = require('./scripted.js')

const URL_OF_SERVICE = 'https://host/odata/'
const rejected = (status) => ({ status, headers: { 'Repeatability-Result': 'rejected' } })

/** Sends a batch to a service by a client without backoff. */
function send(batch, service, { limit, mode, ...options } = {}) {
  return new BatchClient(URL_OF_SERVICE, { backoff: 0, fetch: service.fetch, ...options }).send(batch, { limit, mode })
}

/** A batch of posts with these ids. */
function posts(...ids) {
  const batch = new Batch()
  for (const id of ids) batch.post('A', {}, { id })
  return batch
}

function statusesOf(results) {
  return Array.from(results, ({ status }) => status)
}

/** A server at a free port, and its origin. */
async function serving(listener) {
  const server = http.createServer(listener)
  await once(server.listen(0, '127.0.0.1'), 'listening')
  return [server, `http://127.0.0.1:${server.address().port}`]
}

/** How many of a batch are done, failed, left and unknown. */
function countsOf({ done, failed, left, unknown }) {
  return [done, failed, left, unknown].map(({ length }) => length)
}

test('sends what may be sent again until nothing is left', async () => {
  const busy = { status: 429, headers: { 'Retry-After': '0' } }
  const service = new Service({ b: [busy, busy, 201], d: 409 }, { schedule: ['answer', 429, 503] })
  const results = await send(posts('a', 'b', 'c', 'd', 'e'), service, { limit: 2 })
  assert.deepEqual(statusesOf(results), [201, 201, 201, 409, 201])
  assert.deepEqual([countsOf(results), results.reason, results.rest()], [[4, 1, 0, 0], '', null])
  assert.equal(`${results}`, '5 requests: 4 done, 1 failed\nfailed: d (POST A) 409')
  assert.deepEqual(service.performed, { a: 1, b: 1, c: 1, e: 1 })
})

test('posts a part again by the same id only if the service keeps it', async () => {
  const batch = () => posts('a', 'b')
  for (const [repeatable, counts, posted] of [[true, [2, 0, 0, 0], 3], [false, [0, 0, 0, 2], 2], [undefined, [0, 0, 0, 2], 2]]) {
    const service = new Service({}, { schedule: repeatable === false ? ['answer', 'lose'] : ['lose'], repeatable })
    const results = await send(batch(), service)
    assert.deepEqual([countsOf(results), service.documents.length, service.performed], [counts, posted, { a: 1, b: 1 }])
  }
  const never = new Service({}, { schedule: ['lose'], repeatable: true })
  assert.deepEqual([countsOf(await send(batch(), never, { repeatable: false })), never.documents.length], [[0, 0, 0, 2], 1])
})

test('asks a service that keeps a part until it says what was done', async () => {
  const schedule = ['lose', 'hang up', 503, rejected(409), 500, 'hang up']
  const service = new Service({}, { schedule, repeatable: true })
  const client = new BatchClient(URL_OF_SERVICE, { backoff: 0, fetch: service.fetch })
  assert.deepEqual(countsOf(await client.send(posts('a', 'b'), { limit: 1 })), [2, 0, 0, 0])
  assert.deepEqual(service.performed, { a: 1, b: 1 })
  const late = new Service({}, { schedule: ['answer', 'lose', rejected(412)], repeatable: true })
  assert.deepEqual(countsOf(await send(posts('a', 'b'), late, { limit: 1 })), [1, 0, 0, 1])
})

test('does not ask again for what is no response to a batch', async () => {
  for (const page of [{ status: 200, body: '<html>' }, { status: 202 }]) {
    const service = new Service({}, { schedule: [page] })
    const results = await send(posts('a'), service)
    assert.deepEqual([countsOf(results), service.documents.length, results.error.code], [[0, 0, 0, 1], 1, 'F02'])
  }
})

test('says why it has stopped', async () => {
  const cases = [
    [{ schedule: Array(9).fill(503) }, { attempts: 3 }, 'the last 3 attempts have brought nothing', 3],
    [{ schedule: [401] }, {}, 'a part was answered 401 as a whole', 1],
    [{ schedule: [{ status: 429, headers: { 'Retry-After': '601' } }] }, {}, 'the service asks to wait 601 seconds', 1],
    [{ schedule: [{ status: 429, headers: { 'Retry-After': '5' } }] }, { deadline: 2000 }, 'the deadline of 2 seconds is over', 1],
  ]
  for (const [options, more, reason, posted] of cases) {
    const service = new Service({}, options)
    const results = await send(posts('a', 'b'), service, { limit: 1, ...more })
    assert.deepEqual([results.reason, service.documents.length], [reason, posted])
    assert.match(`${results}`, /^2 requests: 0 done, .*\(.+\)\n/)
  }
  const stopped = await send(posts('a', 'b', 'c'), new Service({ b: 404 }), { limit: 1, mode: 'stop' })
  assert.deepEqual([stopped.reason, statusesOf(stopped)], ['b has failed', [201, 404, 424]])
})

test('throws one error with all requests that are not done', async () => {
  const batch = posts('a', 'b', 'c')
  const results = await send(batch, new Service({ a: 409, c: 410 }))
  assert.throws(() => results.raiseForStatus(), (error) => {
    assert.deepEqual(error.errors.map(({ message }) => message), ['a (POST A) 409', 'c (POST A) 410'])
    return error instanceof BatchFailed && error.results === results && error.message === String(results)
  })
  const fine = await send(posts('a'), new Service())
  assert.equal(fine.raiseForStatus(), fine)
})

test('reads bodies by a function', async () => {
  const [result] = await posts('a').send(() => ({ status: 200, body: { responses: [{ id: 'a', status: 200, body: { Id: 5 } }] } }))
  assert.equal(result.json(({ Id }) => Id), 5)
})

test('posts with headers of its own, and waits no longer than it may', async () => {
  const seen = []
  const [server, origin] = await serving((req, res) => {
    seen.push(req)
    req.resume().on('end', () => req.url.startsWith('/slow') || res.writeHead(401).end())
  })
  const refused = await new BatchClient(`${origin}/odata/?x=1`, { headers: { Authorization: 'Bearer 1' } }).send(posts('a'))
  const slow = await new BatchClient(`${origin}/slow`, { timeout: 50, attempts: 1 }).send(posts('a'))
  server.closeAllConnections()
  server.close()
  const [closed, nobody] = await serving()
  await new Promise((done) => closed.close(done))
  const gone = await new BatchClient(nobody, { backoff: 0, attempts: 2 }).send(posts('a'))
  const { authorization, prefer, 'content-type': type, 'repeatability-first-sent': sent, 'repeatability-request-id': id } = seen[0].headers
  assert.deepEqual([seen[0].url, authorization, prefer, type], ['/odata/$batch?x=1', 'Bearer 1', 'continue-on-error', 'application/json'])
  assert(id.length === 32 && Math.abs(Date.parse(sent) - Date.now()) < 600000)
  assert.deepEqual([refused, slow, gone].map((it) => [statusesOf(it), countsOf(it)]), [
    [[401], [0, 1, 0, 0]],
    [[504], [0, 0, 0, 1]],
    [[503], [0, 0, 1, 0]],
  ])
  assert.deepEqual([slow.error.name, gone.error.code, gone.error.cause.message], ['TimeoutError', 'Unreachable', 'fetch failed'])
})

test('refuses options with wrong values', async () => {
  const wrong = [{ attempts: 0 }, { attempts: 1.5 }, { timeout: 0 }, { timeout: 2 ** 31 }, { deadline: -1 }, { backoff: -1 }]
  for (const it of wrong) assert.throws(() => new BatchClient(URL_OF_SERVICE, it), RangeError)
  assert.throws(() => new BatchClient(URL_OF_SERVICE, { retries: 1 }), TypeError)
  await assert.rejects(new BatchClient(URL_OF_SERVICE).send(posts('a'), { limits: 1 }), TypeError)
  await assert.rejects(new BatchClient(URL_OF_SERVICE).send(posts('a', 'a')), { name: 'Fault', message: /^F30 a: / })
  const unknown = new Batch()
  unknown.get('A', { id: 'x', after: 'nobody' })
  assert.throws(() => unknown.check(), { name: 'Fault', message: /^F40 x: "nobody" in dependsOn is unknown\. UnknownName: / })
})

const HAPPENINGS = ['answer', 'answer', 'hang up', 'lose', 429, 503, 500, 502, 404, rejected(409), rejected(412)]
const STATUSES = [200, 201, 204, 304, 404, 408, 409, 429, 500, 502, 503, 504]

/** A random batch, and a service for it with a random script and schedule. */
function drawn(random, repeatable) {
  const of = (values) => values[Math.floor(random() * values.length)]
  const document = batchOf(random)
  const { outcomes } = outcomesOf(random, document)
  const scene = () => ({ status: of(STATUSES), headers: { Location: 'Made(1)', ETag: '7' } })
  const script = outcomes.filter(() => random() < 0.3).map(({ id }) => [id, [scene(), scene()]])
  const schedule = Array.from({ length: Math.floor(random() * 12) }, () => of(HAPPENINGS))
  return { document, service: new Service(Object.fromEntries(script), { schedule, repeatable }), attempts: 1 + Math.floor(random() * 4) }
}

for (const repeatable of [true, false, undefined]) {
  test(`reports what was done, whatever the schedule, with repeatable ${repeatable}`, async () => {
    let unknown = 0
    for (let seed = 0; seed < 300; seed++) {
      const { document, service, attempts } = drawn(randomFrom(seed * 7 + 1), repeatable)
      const results = await send(Batch.read(document), service, { attempts, limit: 4 })
      const [done, failed, left] = [results.done, results.failed, results.left]
      const performed = ({ id }) => service.performed[id] ?? 0
      const isOnce = ({ id }) => ['POST', 'PATCH'].includes(document.requests.find((it) => it.id === id).method.toUpperCase())
      assert.equal(countsOf(results).reduce((sum, it) => sum + it), results.size)
      assert(done.every((it) => performed(it) >= 1), `seed ${seed}: done`)
      assert([...failed, ...left].filter(isOnce).every((it) => performed(it) === 0), `seed ${seed}: failed or left`)
      assert([...results].filter(isOnce).every((it) => performed(it) <= 1), `seed ${seed}: once`)
      unknown += results.unknown.length
    }
    assert(unknown > 0)
  })
}
