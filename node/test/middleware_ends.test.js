'use strict'

// What ends although a handler does not: answers without an end, clients that leave, deadlines.

const assert = require('node:assert/strict')
const { once } = require('node:events')
const { test } = require('node:test')
const { batch: mounted } = require('../middleware/index.js')
const { batch } = require('./performing.js')
const { CONTINUES, PATH, express, listening, serving } = require('./serving.js')
const { WAITS, everywhere, sent, until, watched } = require('./watching.js')

/** Writes without an end, until the connection is closed. */
function pour(res, isClosed) {
  if (isClosed()) return
  res.write(Buffer.alloc(1000))
  setImmediate(pour, res, isClosed)
}

everywhere('ends a GET that is answered without an end', { maxSize: 20000, width: 4 }, async ({ events, responses, errors }) => {
  let written = 0
  events.on('endless', (req, res) => {
    let isClosed = false
    res.on('close', () => (isClosed = true))
    res.on('error', () => {})
    pour(res, () => isClosed || written++ > 1000)
  })
  const found = await responses(batch(['a', 'get', 'endless'], ['b', 'get', 'endless'], ['c', 'get', 'short']))
  assert.deepEqual([found.a.status, found.b.status, found.c.status], [507, 507, 204])
  assert.deepEqual([found.a.body.error.code, errors], ['TooLong', []])
  assert(written < 200, `${written} parts were written`)
})

everywhere('has a handler see that a GET is ended', { maxSize: 2000 }, async ({ events, responses }) => {
  const closed = []
  events.on('long', (req, res) => {
    req.on('close', () => closed.push('request'))
    res.on('close', () => closed.push('response')).on('error', () => {})
    res.write(Buffer.alloc(3000))
  })
  const { a, b } = await responses(batch(['a', 'get', 'long'], ['b', 'get', 'short']))
  assert.deepEqual([a.status, b.status], [507, 204])
  await until(() => closed.length === 2)
})

const SHORT = { maxSize: 2000, timeout: 100 }

everywhere('ends at its time a POST that is answered without an end', SHORT, async ({ events, responses }) => {
  let isClosed = false
  events.on('endless', (req, res) => {
    res.on('close', () => (isClosed = true)).on('error', () => {})
    pour(res, () => isClosed)
  })
  assert.equal((await responses(batch(['a', 'post', 'endless', { body: 1 }]))).a.status, 504)
  await until(() => isClosed)
})

everywhere('waits half a minute for an answer if nothing else is said', {}, async ({ events, responses }) => {
  events.on('held', () => {})
  const { setTimeout: given } = globalThis
  globalThis.setTimeout = (call, time, ...more) => given(call, time === 30000 ? 500 : time, ...more)
  try {
    assert.equal((await responses(batch(['a', 'get', 'held']))).a.status, 504)
  } finally {
    globalThis.setTimeout = given
  }
})

everywhere('waits for the bytes of a batch no longer than half a minute', {}, async ({ begun, port }) => {
  const { setTimeout: given } = globalThis
  globalThis.setTimeout = (call, time, ...more) => given(call, time === 30000 ? 50 : time, ...more)
  try {
    const socket = sent(port, batch(['a', 'get', 'short']), 7)
    const [answer] = await once(socket, 'data')
    assert.match(answer.toString(), /^HTTP\/1.1 408 [^]*connection: close[^]*CutBody/i)
    await once(socket, 'end')
  } finally {
    globalThis.setTimeout = given
  }
  assert.deepEqual(begun, [])
})

everywhere('starts nothing more once its client has left', {}, async ({ begun, errors, events, port }) => {
  const closed = []
  const reached = once(events, 'held')
  const socket = sent(port, batch(['a', 'get', 'held'], ['b', 'delete', 'other'], ['c', 'get', 'held']))
  const [req, res] = await reached
  res.on('close', () => closed.push('response'))
  req.on('close', () => closed.push('request'))
  socket.destroy()
  await until(() => errors.length > 0 && closed.length === 2)
  const left = 'the client left before the answer: what had not started was not sent'
  assert.deepEqual([begun, errors.map(([error, what]) => [error.message, what])], [['held'], [[left, 'the batch']]])
})

test('starts nothing for a client that has left while something in front has waited', { timeout: WAITS }, async () => {
  const { begun, handler } = watched()
  const errors = []
  const mount = mounted(handler, { path: PATH, log: (error) => errors.push(error.message) })
  const wait = async (req, res) => {
    req.body = Buffer.concat(await req.toArray())
    client.destroy()
    await once(res, 'close')
    mount(req, res)
  }
  let client
  await listening(wait, async ({ port }) => {
    client = sent(port, batch(['a', 'delete', 'other']))
    await until(() => errors.length > 0)
  })
  assert.deepEqual([begun, errors], [[], ['the client left before the answer: what had not started was not sent']])
})

everywhere('lets a write end whose client has left', {}, async ({ begun, errors, events, port }) => {
  const reached = once(events, 'held')
  const socket = sent(port, batch(['a', 'put', 'held', { body: 1 }], ['b', 'delete', 'other']))
  const [req, res] = await reached
  const over = once(req.socket.outer, 'close')
  socket.destroy()
  await over
  await new Promise(setImmediate)
  assert.deepEqual([res.destroyed, errors], [false, []])
  res.writeHead(204).end()
  await until(() => errors.length > 0)
  assert.deepEqual(begun, ['held'])
})

test('rolls back a group whose client has left', { timeout: WAITS }, async () => {
  const { begun, events, handler } = watched()
  const ended = []
  const transaction = (group, body) => body().then(() => ended.push('committed'), (error) => {
    ended.push('rolled back')
    throw error
  })
  await serving('node:http', handler, { transaction }, async ({ port }) => {
    const reached = once(events, 'held')
    const group = { atomicityGroup: 'g', body: 1 }
    const socket = sent(port, batch(['a', 'post', 'held', group], ['b', 'post', 'other', group]))
    const [req, res] = await reached
    const over = once(req.socket.outer, 'close')
    socket.destroy()
    await over
    res.writeHead(201).end()
    await until(() => ended.length > 0)
    assert.deepEqual([begun, ended], [['held'], ['rolled back']])
  })
})

everywhere('ends at its deadline', { deadline: 1000, timeout: 3_600_000, width: 2 }, async ({ begun, events, responses, errors }) => {
  events.on('held', () => {})
  const last = ['e', 'get', 'late', { dependsOn: ['b', 'd'] }]
  const document = batch(['a', 'get', 'held'], ['b', 'get', 'short'], ['c', 'post', 'held'], ['d', 'get', 'late'], last)
  const found = await responses(document)
  assert.deepEqual(Object.values(found).map(({ status }) => status), [504, 204, 504, 424, 424])
  assert.deepEqual([begun, errors.length], [['held', 'short', 'held'], 2])
})

// What a handler announces and writes, and what that is answered.
const LENGTHS = [[30, 'four', 502], [3, 'eleven char', 502], [4, 'four', 200], ['x', 'four', 502]]

everywhere('answers 502 for an answer that is not as long as it says', {}, async ({ events, responses, errors }) => {
  for (const [length, text, status] of LENGTHS) {
    events.removeAllListeners('sized').on('sized', (req, res) => {
      res.writeHead(200, { 'Content-Type': 'text/plain', 'Content-Length': length })
      res.write(text)
      res.end()
    })
    for (const method of ['get', 'post']) {
      const { a } = await responses(batch(['a', method, 'sized']))
      assert.deepEqual([a.status, status === 200 ? a.body : a.body.error.code], [status, status === 200 ? text : 'BadGateway'])
    }
  }
  assert.equal(errors.length, 6)
  assert.equal(errors[0][0].message, 'the handler announced 30 bytes, and wrote 4')
})

everywhere('takes a length where there is no body', {}, async ({ events, responses }) => {
  events.on('sized', (req, res) => res.writeHead(304, { 'Content-Length': 30 }).end())
  assert.equal((await responses(batch(['a', 'get', 'sized']))).a.status, 304)
})

test('lets a GET of a group end whose client has left', { timeout: WAITS }, async () => {
  const { events, handler } = watched()
  const ended = []
  const transaction = (group, body) => body().then(() => ended.push('committed'), () => ended.push('rolled back'))
  await serving('node:http', handler, { transaction }, async ({ port }) => {
    const reached = once(events, 'held')
    const socket = sent(port, batch(['a', 'get', 'held', { atomicityGroup: 'g' }]))
    const [req, res] = await reached
    const over = once(req.socket.outer, 'close')
    socket.destroy()
    await over
    await new Promise(setImmediate)
    res.writeHead(200).end()
    await until(() => ended.length > 0)
    assert.deepEqual(ended, ['committed'])
  })
})

test('refuses a batch that may be sent again', { timeout: WAITS }, async () => {
  const { handler } = watched()
  await serving('node:http', handler, {}, async ({ post }) => {
    for (const name of ['repeatability-request-id', 'repeatability-first-sent']) {
      const answer = await post(JSON.stringify(batch(['a', 'get', 'short'])), { ...CONTINUES, [name]: 'x' })
      assert.deepEqual([answer.status, answer.headers.get('repeatability-result')], [501, 'rejected'])
      assert.equal((await answer.json()).error.code, 'NotRepeatable')
    }
  })
})

test('refuses a batch in another coding, unless a parser has taken it off', { timeout: WAITS }, async () => {
  const { gzipSync } = require('node:zlib')
  const document = JSON.stringify(batch(['a', 'get', 'short']))
  const { handler } = watched()
  await serving('node:http', handler, {}, async ({ post }) => {
    const refused = await post(gzipSync(document), { ...CONTINUES, 'content-encoding': 'gzip' })
    assert.deepEqual([refused.status, refused.headers.get('accept-encoding')], [415, 'identity'])
    assert.equal((await refused.json()).error.code, 'BadEncoding')
    assert.equal((await post(document, { ...CONTINUES, 'content-encoding': 'Identity' })).status, 200)
  })
  if (express() === undefined) return
  const app = express()().use(express().raw({ type: '*/*' }))
  await listening(app.use(mounted(app, { path: PATH })).use(handler), async ({ post }) => {
    const answer = await post(gzipSync(document), { ...CONTINUES, 'content-encoding': 'gzip' })
    assert.equal((await answer.json()).responses[0].status, 204)
  })
})
