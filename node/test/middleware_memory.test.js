'use strict'

// How much memory batches and their answers may take, until when, and that what fails gives it back.

const assert = require('node:assert/strict')
const { EventEmitter, once } = require('node:events')
const { test } = require('node:test')
const { BodyBudget } = require('../middleware/body_budget.js')
const { batch: mounted } = require('../middleware/index.js')
const { batch } = require('./performing.js')
const { PATH, express, listening, serving } = require('./serving.js')
const { WAITS, everywhere, sent, until, watched } = require('./watching.js')

const LARGE = { maxSize: 16000000, memory: 16000000, timeout: 1000 }

everywhere('cuts off a client that reads nothing of its answer', LARGE, async ({ events, port, post }) => {
  events.on('long', (req, res) => res.writeHead(200, { 'Content-Type': 'text/plain' }).end(Buffer.alloc(15000000, 'x')))
  const reached = once(events, 'long')
  sent(port, batch(['a', 'get', 'long'])).on('error', () => {})
  const [req] = await reached
  await once(req.socket.outer, 'close')
  const document = JSON.stringify(batch(['a', 'put', 'short', { body: 'x'.repeat(2000000) }]))
  await until(async () => (await post(document)).status === 200)
})

everywhere('has one bound of memory for all batches', { maxSize: 1000, memory: 1000 }, async ({ events, post, responses }) => {
  const large = JSON.stringify(batch(['a', 'put', 'held', { body: 'x'.repeat(500) }]))
  const reached = once(events, 'held')
  const first = post(large)
  const [, res] = await reached
  const refused = await post(large)
  assert.deepEqual([refused.status, refused.headers.get('retry-after')], [503, '1'])
  assert.equal((await refused.json()).error.code, 'Busy')
  const long = (_, other) => other.writeHead(200, { 'Content-Type': 'text/plain', Location: '/7' }).end('y'.repeat(600))
  events.on('long', long)
  const { a, b, c } = await responses(batch(['a', 'get', 'long'], ['b', 'post', 'long'], ['c', 'get', 'short']))
  assert.deepEqual([a.status, a.body.error.code, a.headers['retry-after']], [503, 'Busy', '1'])
  assert.deepEqual([b.status, b.body, b.headers.location, c.status], [200, undefined, '/7', 204])
  res.writeHead(204).end()
  assert.equal((await first).status, 200)
  await until(async () => (await responses(batch(['a', 'get', 'long']))).a.status === 200)
})

const LONG_ANSWERS = { maxSize: 16000000, memory: 16000000 }

everywhere('holds the memory of a batch until its answer is sent', LONG_ANSWERS, async ({ events, port, post }) => {
  // More than a connection holds whose client does not read.
  events.on('long', (req, res) => res.writeHead(200, { 'Content-Type': 'text/plain' }).end(Buffer.alloc(15990000, 'x')))
  const client = sent(port, batch(['a', 'get', 'long']))
  await once(client, 'readable')
  const document = JSON.stringify(batch(['a', 'put', 'short', { body: 'x'.repeat(20000) }]))
  assert.equal((await post(document)).status, 503)
  client.on('data', () => {})
  await until(async () => (await post(document)).status === 200)
})

// How a handler fails that has written a part of its answer.
const FAILURES = {
  cut: (res) => res.destroy(),
  thrown() {
    throw new Error('as planned')
  },
  late() {},
  short: (res) => res.end(),
}

everywhere('takes no memory for answers that fail', { maxSize: 1000, timeout: 500 }, async ({ events, responses }) => {
  for (const [name, fail] of Object.entries(FAILURES)) {
    events.on(name, (req, res) => {
      res.on('error', () => {})
      res.writeHead(200, { 'Content-Type': 'text/plain', 'Content-Length': 700 }).write('x'.repeat(600))
      fail(res)
    })
  }
  events.on('whole', (req, res) => res.writeHead(200, { 'Content-Type': 'text/plain' }).end('y'.repeat(600)))
  for (const method of ['get', 'post']) {
    const found = await responses(batch(...[...Object.keys(FAILURES), 'whole'].map((name) => [name, method, name])))
    const { thrown, whole, ...others } = Object.fromEntries(Object.entries(found).map(([id, { status }]) => [id, status]))
    assert.deepEqual([others, whole], [{ cut: 502, late: 504, short: 502 }, 200])
    assert([500, 502].includes(thrown), `${thrown}`) // Express catches it, and ends the connection
    assert.equal(found.whole.body?.length, 600)
  }
})

everywhere('takes no memory for a body that a write has lost', { maxSize: 1000, width: 2 }, async ({ events, responses }) => {
  let written
  events.on('long', (req, res) => {
    res.writeHead(201, { 'Content-Type': 'text/plain' }).write('x'.repeat(600))
    res.write('x'.repeat(600))
    written = res
  })
  events.on('whole', async (req, res) => {
    await new Promise(setImmediate) // what is written passes at the end of a turn
    res.writeHead(200, { 'Content-Type': 'text/plain' }).end('y'.repeat(600))
    written.end()
  })
  const { a, b } = await responses(batch(['a', 'post', 'long'], ['b', 'get', 'whole']))
  assert.deepEqual([a.status, a.body, b.status, b.body?.length], [201, undefined, 200, 600])
})

everywhere('takes memory for the bytes of a body alone', { maxSize: 1000 }, async ({ events, responses }) => {
  events.on('chunks', (req, res) => {
    res.writeHead(200, { 'Content-Type': 'text/plain' })
    for (let k = 0; k < 10; k++) res.write('x'.repeat(50))
    res.end()
  })
  events.on('whole', (req, res) => res.writeHead(200, { 'Content-Type': 'text/plain' }).end('y'.repeat(480)))
  const { a, b } = await responses(batch(['a', 'get', 'chunks'], ['b', 'get', 'whole']))
  assert.deepEqual([a.status, a.body?.length, b.status], [200, 500, 200])
})

test('has a budget that is closed take and give nothing', () => {
  const whole = new BodyBudget(10)
  const part = new BodyBudget(10, whole)
  assert.equal(part.take(4), true)
  part.close()
  part.giveBack(4)
  assert.deepEqual([part.take(1), whole.take(10), whole.take(1)], [false, true, false])
})

test('takes no memory for an answer that comes after the end of its batch', { timeout: WAITS }, async () => {
  const late = new EventEmitter()
  const answer = { statusCode: 200, headers: { 'content-type': 'text/plain' }, rawPayload: Buffer.alloc(600, 'x') }
  const app = { inject: ({ url }) => (url.endsWith('late') ? once(late, 'answer').then(() => answer) : Promise.resolve(answer)) }
  const mount = mounted(app, { path: PATH, maxSize: 1000, memory: 1000, timeout: 100, log: () => {} })
  await listening((req, res) => mount(req, res, () => res.end()), async ({ post }) => {
    const statusOf = async (url) => (await (await post(JSON.stringify(batch(['a', 'get', url])))).json()).responses[0].status
    assert.equal(await statusOf('late'), 504)
    late.emit('answer')
    await new Promise(setImmediate)
    assert.equal(await statusOf('soon'), 200)
  })
})

test('takes no memory for an answer that comes after its time', { timeout: WAITS }, async () => {
  const late = new EventEmitter()
  const answer = { statusCode: 200, headers: { 'content-type': 'text/plain' }, rawPayload: Buffer.alloc(600, 'x') }
  const inject = async ({ url }) => {
    if (url.endsWith('late')) await once(late, 'answer')
    else late.emit('answer')
    for (let k = 0; url.endsWith('soon') && k < 5; k++) await new Promise(setImmediate) // after the late one
    return answer
  }
  const mount = mounted({ inject }, { path: PATH, maxSize: 1000, timeout: 500, log: () => {} })
  await listening((req, res) => mount(req, res, () => res.end()), async ({ post }) => {
    const found = await (await post(JSON.stringify(batch(['a', 'get', 'late'], ['b', 'get', 'soon'])))).json()
    assert.deepEqual(found.responses.map(({ status }) => status), [504, 200])
  })
})

const WITHOUT_EXPRESS = { skip: express() === undefined && 'express is not installed', timeout: WAITS }

test('express: counts the bytes that a parser has left', WITHOUT_EXPRESS, async () => {
  const { events, handler } = watched()
  const app = express()().use(express().raw({ type: '*/*' }))
  const options = { path: PATH, maxSize: 1000, memory: 1000 }
  await listening(app.use(mounted(app, options)).use(handler), async ({ post }) => {
    const large = JSON.stringify(batch(['a', 'put', 'held', { body: 'x'.repeat(500) }]))
    const reached = once(events, 'held')
    const first = post(large)
    const [, res] = await reached
    assert.equal((await post(large)).status, 503)
    res.writeHead(204).end()
    assert.equal((await first).status, 200)
  })
})

test('gives back the memory of batches that are refused, cut or left', { timeout: WAITS }, async () => {
  const { events, handler } = watched()
  await serving('node:http', handler, { maxSize: 1000, memory: 1000 }, async ({ port, post }) => {
    const large = batch(['a', 'put', 'short', { body: 'x'.repeat(900) }])
    const isFree = async () => (await post(JSON.stringify(large))).status === 200
    assert.equal((await post('x'.repeat(900))).status, 400)
    assert.equal((await post('x'.repeat(1001))).status, 413)
    await until(isFree)
    const cut = sent(port, large, 7)
    await once(cut, 'ready')
    cut.destroy()
    await until(isFree)
    const reached = once(events, 'held')
    const left = sent(port, batch(['a', 'get', 'held'], ['b', 'put', 'short', { body: 'x'.repeat(500) }]))
    await reached
    assert.equal(await isFree(), false)
    left.destroy()
    await until(isFree)
  })
})

test('leaves nothing behind, whenever a client leaves', { timeout: WAITS }, async () => {
  const [opened, ended, open] = [[], [], new Set()]
  const transaction = async (group, body) => {
    opened.push(group)
    await body().then(() => ended.push('commit'), (error) => {
      ended.push('rollback')
      throw error
    })
  }
  const handler = (req, res) => {
    open.add(res)
    res.on('close', () => open.delete(res)).on('error', () => {})
    setImmediate(() => res.writeHead(200, { 'Content-Type': 'text/plain' }).write('x'))
    setImmediate(() => setImmediate(() => res.end('y')))
  }
  const document = batch(['a', 'get', 'a'], ['b', 'post', 'b', { atomicityGroup: 'g', body: 1 }],
    ['c', 'delete', 'c', { atomicityGroup: 'g', dependsOn: ['b'] }], ['d', 'get', 'd'])
  const whole = JSON.stringify(batch(['a', 'put', 'x', { body: 'x'.repeat(4000) }]))
  await serving('node:http', handler, { maxSize: whole.length + 2, memory: whole.length + 2, transaction }, async ({ port, post }) => {
    for (let turns = 0, isAnswered = false; !isAnswered; turns++) {
      const client = sent(port, document).on('error', () => {}).on('data', () => (isAnswered = true))
      await once(client, 'connect')
      for (let k = 0; k < turns && !isAnswered; k++) await new Promise(setImmediate)
      client.destroy()
      await until(async () => (await post(whole)).status === 200 && open.size === 0)
      assert.equal(ended.length, opened.length)
    }
  })
  assert.equal(ended.includes('commit'), true)
})
