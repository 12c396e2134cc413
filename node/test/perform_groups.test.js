'use strict'

// Groups and their transactions: when they begin, commit and roll back, and what is answered if they do not.

const assert = require('node:assert/strict')
const { AsyncLocalStorage } = require('node:async_hooks')
const { test } = require('node:test')
const { Refusal, perform } = require('..')
const { GROUP, Ledger, after, batch, responsesOf, statusesOf } = require('./performing.js')

const DONE = { x: 200, a: 200, b: 200, c: 200 }
const LAST_FAILED = { x: 200, a: 424, b: 500, c: 424 }
const FIRST_FAILED = { x: 200, a: 500, b: 424, c: 424 }
const ok = async () => ({ status: 200 })

for (const width of [1, 2, 8]) {
  test(`begins a group when it needs nothing more from outside, with width ${width}`, async () => {
    const [ledger, sent] = [new Ledger(), []]
    const send = async ({ id, group, method }) => {
      // x writes, too: a transaction that began before it would have the turn, and wait for x.
      if (group === null && method === 'POST') await ledger.alone(() => after(10))
      sent.push(id)
      return { status: 200 }
    }
    assert.deepEqual(await statusesOf(GROUP, send, { width, transaction: ledger.transaction }), DONE)
    assert.deepEqual([sent, ledger.committed], [['x', 'a', 'b', 'c'], ['g']])
  })
}

test('starts what needs a group after its commit', async () => {
  const ledger = new Ledger()
  const transaction = (group, body) => ledger.transaction(group, () => body().then(() => after(10)))
  const send = async ({ id }) => {
    assert.equal(id === 'c', ledger.committed.length > 0)
    return { status: 200 }
  }
  assert.deepEqual(await statusesOf(GROUP, send, { width: 4, transaction }), DONE)
})

test('performs the members in what the transaction has set', async () => {
  const storage = new AsyncLocalStorage()
  const seen = {}
  const send = async ({ id }) => after(1, { status: 200 }).finally(() => (seen[id] = storage.getStore()))
  const transaction = (group, body) => storage.run(group, body)
  await storage.run('outside', () => perform(GROUP, send, { width: 2, transaction }))
  assert.deepEqual(seen, { x: 'outside', a: 'g', b: 'g', c: 'outside' })
})

test('rolls back at the first member that fails', async () => {
  const [ledger, sent] = [new Ledger(), []]
  const send = async ({ id }) => sent.push(id) && { status: id === 'a' ? 409 : 200 }
  assert.deepEqual(await statusesOf(GROUP, send, { transaction: ledger.transaction }), { x: 200, a: 409, b: 424, c: 424 })
  assert.deepEqual([sent, ledger.rolledBack], [['x', 'a'], ['g']])
})

test('rolls back a group whose last member fails, or is not modified', async () => {
  for (const status of [304, 404, 500]) {
    const ledger = new Ledger()
    const send = async ({ id }) => ({ status: id === 'b' ? status : 200 })
    const found = await statusesOf(GROUP, send, { transaction: ledger.transaction })
    assert.deepEqual(found, { x: 200, a: 424, b: status, c: 424 })
    assert.deepEqual(ledger.rolledBack, ['g'])
  }
})

test('rolls back a group in which an answer has no status that may be reported', async () => {
  for (const [status, expected] of [['201', 500], [201.5, 500], [undefined, 500], [99, 502]]) {
    const ledger = new Ledger()
    const send = async ({ id }) => ({ status: id === 'b' ? status : 201 })
    const found = await statusesOf(GROUP, send, { transaction: ledger.transaction })
    assert.deepEqual(found, { x: 201, a: 424, b: expected, c: 424 }, String(status))
    assert.deepEqual([ledger.committed, ledger.rolledBack], [[], ['g']])
  }
})

test('rolls back a group when the run stops', async () => {
  const ledger = new Ledger()
  const document = batch(
    ['a', 'post', 'A', { atomicityGroup: 'g' }],
    ['b', 'post', 'B', { atomicityGroup: 'g' }],
    ['y', 'get', 'Y'],
  )
  const send = async ({ id }) => (id === 'y' ? { status: 404 } : after(20, { status: 201 }))
  const found = await statusesOf(document, send, { mode: 'stop', width: 2, transaction: ledger.transaction })
  assert.deepEqual([found, ledger.rolledBack], [{ a: 424, b: 424, y: 404 }, ['g']])
})

test('sends nothing of a group whose transaction begins after the run has stopped', async () => {
  const document = batch(['a', 'post', 'A', { atomicityGroup: 'g' }], ['y', 'get', 'Y'])
  const send = async ({ id }) => (id === 'y' ? { status: 404 } : assert.fail('sent'))
  const transaction = (group, body) => after(20).then(body)
  const swallowing = (group, body) => transaction(group, body).catch(() => {})
  const wrapping = (group, body) => transaction(group, body).catch((cause) => Promise.reject(new Error('failed', { cause })))
  for (const it of [transaction, swallowing, wrapping]) {
    assert.deepEqual(await statusesOf(document, send, { mode: 'stop', width: 2, transaction: it }), { a: 424, y: 404 })
  }
})

test('sends nothing of a group whose transaction begins after the signal to stop, or the deadline', async () => {
  const document = batch(['a', 'post', 'A', { atomicityGroup: 'g' }], ['b', 'get', 'B'])
  const controller = new AbortController()
  const stopping = { stop: controller.signal, transaction: async (group, body) => (controller.abort(), body()) }
  const late = { deadline: 1, transaction: (group, body) => after(20).then(body) }
  for (const options of [stopping, late]) {
    assert.deepEqual(await statusesOf(document, () => assert.fail('sent'), options), { a: 424, b: 424 })
  }
})

test('refuses a transaction that is not a function, or cannot wait for its body', async () => {
  const expected = { name: 'TypeError', message: /^transaction must be a function, as \(group, body\) => / }
  for (const transaction of [7, {}, 'BEGIN', null, function* () {}, async function* () {}]) {
    await assert.rejects(perform(GROUP, () => assert.fail('sent'), { transaction }), expected)
  }
})

test('answers a transaction that cannot begin in its own words', async () => {
  const transaction = async () => {
    throw new Refusal(503, 'Busy', 'try again', { headers: { 'Retry-After': 1 } })
  }
  const [, first, second, last] = responsesOf(await perform(GROUP, ok, { transaction }))
  assert.deepEqual(first.headers, { 'content-type': 'application/json', 'retry-after': '1' })
  assert.deepEqual([first.status, second.status, last.status], [503, 424, 424])
  assert.deepEqual(first.body, { error: { code: 'Busy', message: 'try again' } })
})

async function lateError() {
  await after(5)
  throw new Error('late')
}

// What a transaction may do wrong, what is answered and what was sent then; the log says so, too.
const WRONG = [
  ['its commit fails', async (_, body) => body().then(() => Promise.reject(new Error('commit'))), LAST_FAILED, 'xab'],
  ['it throws at once', () => { throw new Error('begin') }, FIRST_FAILED, 'x'],
  ['it is rejected without a reason', () => Promise.reject(), FIRST_FAILED, 'x'],
  ['it never calls its body', async () => {}, FIRST_FAILED, 'x'],
  ['it calls its body too late', async (_, body) => void setImmediate(() => body().catch(() => {})), FIRST_FAILED, 'x'],
  ['it does not wait for its body', async (_, body) => void body(), LAST_FAILED, 'xa'],
  ['it gives up its body', (_, body) => Promise.race([body(), lateError()]), LAST_FAILED, 'xa'],
  ['it calls its body again', (_, body) => body().then(body), LAST_FAILED, 'xab'],
  ['it calls its body again, and does not look', async (_, body) => void (await body(), body()), LAST_FAILED, 'xab'],
  ['it calls its body again, and ignores how that ends', (_, body) => body().then(body).catch(() => {}), LAST_FAILED, 'xab'],
]

for (const [what, transaction, expected, ids] of WRONG) {
  test(`answers a group whose transaction is wrong: ${what}`, async () => {
    const [errors, sent] = [[], []]
    const send = async ({ id }) => sent.push(id) && after(id === 'a' ? 50 : 1, { status: 200 })
    const found = await statusesOf(GROUP, send, { transaction, log: (_, about) => errors.push(about) })
    assert.deepEqual([found, errors], [expected, ['the transaction of g']])
    await after(10) // for what comes too late
    assert.equal(sent.join(''), ids)
  })
}

test('logs a rollback that fails, and answers what was reported', async () => {
  const errors = []
  const transaction = (_, body) => body().catch(() => Promise.reject(new Error('the connection is gone')))
  const send = async ({ id }) => ({ status: id === 'b' ? 409 : 200 })
  const found = await statusesOf(GROUP, send, { transaction, log: (error) => errors.push(error.message) })
  assert.deepEqual([found, errors], [{ x: 200, a: 424, b: 409, c: 424 }, ['the connection is gone']])
})

test('takes a group for failed whose transaction swallows exceptions', async () => {
  const transaction = (_, body) => body().catch(() => {})
  const send = async ({ id }) => ({ status: id === 'a' ? 404 : 200 })
  assert.deepEqual(await statusesOf(GROUP, send, { transaction }), { x: 200, a: 404, b: 424, c: 424 })
})
