'use strict'

const assert = require('node:assert/strict')
const { test } = require('node:test')
const { Worker } = require('node:worker_threads')
const { Fault, canon, check, match, output, plan, replay, run, version } = require('..')

const BATCH = {
  requests: [
    { id: 'book', method: 'get', url: "Books('dune')" },
    { id: 'mark', atomicityGroup: 'lend', dependsOn: ['book'], method: 'delete', url: "Books('dune')" },
    {
      id: 'loan',
      atomicityGroup: 'lend',
      dependsOn: ['book'],
      method: 'post',
      url: 'Loans',
      headers: { 'Content-Type': 'application/json' },
      body: { Book: 'dune', Größe: 1 },
    },
    { id: 'list', dependsOn: ['lend'], method: 'get', url: 'Loans' },
  ],
}
const TEXT = JSON.stringify(BATCH)
const OUTCOMES = { outcomes: [{ id: 'book', status: 200 }, { id: 'mark', status: 204 }, { id: 'loan', status: 409 }] }
const RESPONSE = {
  responses: [
    { id: 'book', status: 200 },
    { atomicityGroup: 'lend', id: 'mark', status: 424 },
    { atomicityGroup: 'lend', id: 'loan', status: 409 },
    { id: 'list', status: 424 },
  ],
}
const EVENTS = {
  events: [
    { start: 'book' },
    { report: 'book', status: 200 },
    { start: 'mark' },
    { start: 'loan' },
    { report: 'loan', status: 409 },
    { report: 'mark', status: 204 },
  ],
}

test('plans', () => {
  const planned = plan(BATCH)
  assert.deepEqual(planned[0], { position: 0, id: 'book', level: 0, group: null, needs: [] })
  assert.deepEqual(planned[2], { position: 2, id: 'loan', level: 1, group: 'lend', needs: ['book'] })
  assert.deepEqual(planned.map(({ level }) => level), [0, 1, 1, 2])
  assert.deepEqual(plan({ requests: [] }), [])
})

test('makes the canonical text', () => {
  const text = canon('{"requests": [{"url": "X", "method": "GET", "id": "1", "body": null}]}')
  assert.equal(text.toString(), '{"requests":[{"id":"1","method":"get","url":"X"}]}')
})

test('matches', () => {
  assert.deepEqual([...match(BATCH, RESPONSE)], [['book', 200], ['mark', 424], ['loan', 409], ['list', 424]])
})

test('runs', () => {
  assert.deepEqual(JSON.parse(run(BATCH, EVENTS)), RESPONSE)
  assert.deepEqual(JSON.parse(run(BATCH, EVENTS, { mode: 'stop', width: 2 })), RESPONSE)
})

test('replays', () => {
  const found = replay(BATCH, OUTCOMES)
  assert.deepEqual(JSON.parse(found.response), RESPONSE)
  assert.deepEqual([found.steps, found.undone], [[], []])
})

test('replays in an order with a trace', () => {
  const { steps, undone, response } = replay(BATCH, OUTCOMES, { order: 'wide', trace: true })
  assert.deepEqual(steps, [
    { step: 'start', id: 'book' },
    { step: 'report', id: 'book', status: 200 },
    { step: 'start', id: 'mark' },
    { step: 'start', id: 'loan' },
    { step: 'report', id: 'mark', status: 204 },
    { step: 'report', id: 'loan', status: 409 },
  ])
  assert.deepEqual(undone, ['mark'])
  assert.deepEqual(JSON.parse(response), RESPONSE)
})

test('returns a text longer than its documents', () => {
  const requests = Array.from({ length: 1000 }, (_, i) => ({ id: `r${i}`, method: 'get', url: 'X' }))
  const { response } = replay({ requests }, { outcomes: [{ id: 'r0', status: 500 }] }, { mode: 'stop', trace: true })
  assert.equal(JSON.parse(response).responses.filter(({ status }) => status === 424).length, 999)
})

test('returns what a command prints as JSON', () => {
  const { accepted, text } = output('check', BATCH)
  assert.deepEqual([accepted, text.toString()], [true, '{"groups":1,"requests":4}\n'])
  const { requests } = JSON.parse(output('plan', BATCH, null, { form: 'json' }).text)
  assert.deepEqual(requests[2], { group: 'lend', id: 'loan', level: 1, needs: ['book'] })
  assert.deepEqual(JSON.parse(output('match', BATCH, RESPONSE).text).responses[1], { id: 'mark', status: 424 })
  assert.deepEqual(JSON.parse(output('run', BATCH, EVENTS, { mode: 'stop', width: 2 }).text), RESPONSE)
  assert.equal(output('canon', BATCH).text.toString(), `${canon(BATCH)}\n`)
})

test('returns what a command prints as lines', () => {
  assert.equal(output('check', BATCH, null, { form: 'lines' }).text.toString(), 'ok 4 requests 1 groups\n')
  const { text } = output('replay', BATCH, OUTCOMES, { form: 'lines', order: 'last', trace: true })
  assert.match(text.toString(), /^start book\nreport book 200\nstart loan\nreport loan 409\n/)
})

test('returns a fault as a text', () => {
  const { accepted, text } = output('run', BATCH, [{ step: 'start', id: 'book' }])
  assert.equal(accepted, false)
  assert.equal(text.toString(), '{"fault":{"code":"F66","name":"Unfinished","place":"events"}}\n')
  assert.deepEqual(output('plan', '', null, { form: 'lines' }), { accepted: false, text: Buffer.from('fault F02 NotJson batch\n') })
})

test('refuses what a command does not take', () => {
  for (const options of [{ form: 'xml' }, { form: 1 }, { width: 0 }, { mode: 'half' }, { order: 'middle' }]) {
    assert.throws(() => output('replay', BATCH, OUTCOMES, options), RangeError)
  }
  assert.throws(() => output('explain', BATCH), RangeError)
  assert.throws(() => output('check', BATCH, RESPONSE), TypeError)
  for (const command of ['match', 'run', 'replay']) assert.throws(() => output(command, BATCH), TypeError)
})

test('throws the fault', () => {
  const early = '{"requests":[{"id":"1","method":"get","url":"A","dependsOn":["2"]},{"id":"2","method":"get","url":"B"}]}'
  assert.throws(() => check(early), (error) => {
    assert.ok(error instanceof Fault)
    assert.deepEqual([error.code, error.faultName, error.place], ['F41', 'ForwardName', '/requests/0'])
    assert.match(error.explanation, /dependsOn/)
    return true
  })
  assert.throws(() => run(BATCH, { events: [{ start: 'list' }] }), { message: 'S4 Waiting /events/0' })
})

test('refuses wrong options', () => {
  for (const options of [{ mode: 'half' }, { width: 0 }, { width: 10001 }, { width: 1.5 }, { width: '1' }]) {
    assert.throws(() => run(BATCH, EVENTS, options), RangeError)
    assert.throws(() => replay(BATCH, OUTCOMES, options), RangeError)
  }
  assert.throws(() => replay(BATCH, OUTCOMES, { order: 'middle' }), RangeError)
})

test('works in workers', async () => {
  const code = `
    const { check } = require(${JSON.stringify(require.resolve('..'))})
    const { parentPort, workerData } = require('node:worker_threads')
    for (let i = 0; i < 100; i++) parentPort.postMessage(check(workerData).requests)`
  const workers = Array.from({ length: 4 }, () => new Worker(code, { eval: true, workerData: TEXT }))
  const counts = await Promise.all(
    workers.map((worker) => new Promise((resolve, reject) => {
      let right = 0
      worker.on('message', (requests) => { right += requests === 4 ? 1 : 0 })
      worker.on('error', reject)
      worker.on('exit', () => resolve(right))
    })),
  )
  assert.deepEqual(counts, [100, 100, 100, 100])
})

test('has the version of the library', () => {
  assert.equal(version, require('../package.json').version)
})
