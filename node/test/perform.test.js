'use strict'

// Batches made at random, performed and replayed.

const assert = require('node:assert/strict')
const { test } = require('node:test')
const { match, perform, replay } = require('..')
const { batchOf, outcomesOf, randomFrom } = require('./batches.js')
const { GROUP, Ledger, after, batch, responsesOf, statusesOf } = require('./performing.js')

const BATCHES = 100
const MODES = ['continue', 'stop']

function isSuccess(status) {
  return status >= 200 && status <= 299
}

/** A service that answers by outcomes, some turns of the loop later, and counts how many requests it has at once. */
class Service {
  most = 0
  sent = []
  #statuses
  #random
  #now = 0

  constructor({ outcomes }, random) {
    this.#statuses = new Map(outcomes.map(({ id, status }) => [id, status]))
    this.#random = random
  }

  send = async ({ id, url }) => {
    assert(!/^\$r/.test(url))
    this.sent.push(id)
    this.most = Math.max(this.most, ++this.#now)
    for (let turns = Math.floor(this.#random() * 3); turns > 0; turns--) await new Promise(setImmediate)
    this.#now--
    return { status: this.#statuses.get(id), headers: { Location: `Made(${id})` } }
  }
}

/** Performs a batch, and requires what holds in every order. Returns the statuses by the ids. */
async function performed(document, outcomes, options, random) {
  const [service, ledger] = [new Service(outcomes, random), new Ledger()]
  const response = await perform(document, service.send, { ...options, transaction: ledger.transaction })
  const statuses = match(document, response)
  assert(service.most <= options.width)
  for (const { id, atomicityGroup: group } of document.requests) {
    if (group) assert.equal(ledger.committed.includes(group), isSuccess(statuses.get(id)), group)
  }
  return statuses
}

/** The ids that succeeded, and what each request without a group was answered. */
function fixed({ requests }, statuses) {
  const alone = requests.filter(({ atomicityGroup }) => atomicityGroup === undefined)
  return [requests.filter(({ id }) => isSuccess(statuses.get(id))), alone.map(({ id }) => statuses.get(id))]
}

for (const width of [1, 2, 3, 4]) {
  for (const mode of MODES) {
    test(`performs batches as replay does, in mode ${mode} with width ${width}`, async () => {
      for (let seed = 0; seed < BATCHES; seed++) {
        const random = randomFrom(seed * 10 + width)
        const document = batchOf(random)
        const outcomes = outcomesOf(random, document)
        const found = await performed(document, outcomes, { mode, width }, random)
        const replayed = match(document, replay(document, outcomes, { mode }).response)
        if (width === 1) assert.deepEqual(found, replayed, `seed ${seed}`)
        else if (mode === 'continue') assert.deepEqual(fixed(document, found), fixed(document, replayed), `seed ${seed}`)
      }
    })
  }
}

test('sends in the order of the batch with width 1, which is the default', async () => {
  const sent = []
  const document = batch(['a'], ['b', 'get', 'B', { dependsOn: ['a'] }], ['c'], ['d', 'get', 'D', { dependsOn: ['b'] }])
  await perform(document, async ({ id }) => sent.push(id) && after(1, { status: 200 }))
  assert.deepEqual(sent, ['a', 'b', 'c', 'd'])
})

test('begins the first unit that may begin, whatever became ready first', async () => {
  const sent = []
  const document = batch(['a'], ['b'], ['c', 'get', 'C', { dependsOn: ['a'] }], ['d'], ['e'])
  await perform(document, async ({ id }) => sent.push(id) && after(id === 'b' ? 20 : 1, { status: 200 }), { width: 2 })
  assert.deepEqual(sent, ['a', 'b', 'c', 'd', 'e'])
})

test('refuses a batch as a whole before anything is sent', async () => {
  const send = () => assert.fail('sent')
  const refused = (status) => ({ name: 'Refusal', answer: (it) => it.status === status })
  for (const [status, options] of [[501, {}], [413, { limit: 3 }]]) {
    const error = await perform(GROUP, send, options).catch((it) => it)
    assert.equal(error.name, 'Refusal')
    assert.equal(error.answer.status, status, refused(status))
  }
  await assert.rejects(perform('{"requests":7}', send), { name: 'Fault', code: 'F04' })
})

test('refuses options that have none of their values', async () => {
  for (const options of [{ limit: -1 }, { timeout: 0 }, { deadline: 0 }, { base: 'odata' }, { base: 'http://h/odata' }, { wide: 1 }]) {
    await assert.rejects(perform(batch(['a']), () => assert.fail('sent'), options), TypeError)
  }
  for (const options of [{ width: 0 }, { mode: 'half' }]) {
    await assert.rejects(perform(batch(['a']), () => assert.fail('sent'), options), RangeError)
  }
})

test('starts nothing more once it is stopped', async () => {
  const controller = new AbortController()
  const document = batch(['a'], ['b'], ['c', 'get', 'C', { dependsOn: ['a'] }])
  const send = async ({ id }) => {
    if (id === 'a') setImmediate(() => controller.abort())
    return after(5, { status: 200 })
  }
  assert.deepEqual(await statusesOf(document, send, { stop: controller.signal }), { a: 200, b: 424, c: 424 })
  assert.deepEqual(await statusesOf(document, send, { stop: AbortSignal.abort() }), { a: 424, b: 424, c: 424 })
})

test('rolls back a group in which it is stopped', async () => {
  const [controller, ledger] = [new AbortController(), new Ledger()]
  const send = async ({ id }) => {
    if (id === 'a') controller.abort()
    return { status: 200 }
  }
  const options = { stop: controller.signal, transaction: ledger.transaction }
  assert.deepEqual(await statusesOf(GROUP, send, options), { x: 200, a: 424, b: 424, c: 424 })
  assert.deepEqual([ledger.committed, ledger.rolledBack], [[], ['g']])
})

test('performs ten thousand requests in a row', async () => {
  const ids = Array.from({ length: 10000 }, (_, k) => `r${k}`)
  const document = batch(...ids.map((id, k) => [id, 'get', 'A', { dependsOn: k > 0 ? [ids[k - 1]] : [] }]))
  const begun = process.cpuUsage()
  const responses = responsesOf(await perform(document, () => ({ status: 200 })))
  assert.deepEqual(new Set(responses.map(({ status }) => status)), new Set([200]))
  assert(process.cpuUsage(begun).user < 5e7)
})

test('leaves nothing behind at a signal that many batches share', async () => {
  const [{ signal }, warnings] = [new AbortController(), []]
  const warn = (warning) => warnings.push(warning.name)
  process.on('warning', warn)
  const send = () => after(5, { status: 200 })
  await Promise.all(Array.from({ length: 12 }, () => perform(batch(['a']), send, { stop: signal })))
  process.off('warning', warn)
  assert.deepEqual(warnings, [])
})
