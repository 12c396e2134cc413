'use strict'

// The response repeats the body of a report of a live run byte for byte, whatever numbers it has.

const assert = require('node:assert/strict')
const { test } = require('node:test')
const { Fault, Run, match } = require('..')

const BATCH = { requests: [{ id: 'a', method: 'get', url: 'X' }] }
const STARTED = [{ step: 'start', id: 'a' }]

/** Calls a function with a run of one request that has started, and closes it. */
function withRun(call) {
  const run = new Run(BATCH, { events: STARTED })
  try {
    return call(run)
  } finally {
    run.close()
  }
}

/** The response to the batch whose request was answered with a body. */
function responseTo(body) {
  return withRun((run) => {
    run.report('a', 200, null, body)
    return run.response().toString()
  })
}

/** The response with the text of a body in it. */
function responseWith(text) {
  return `{"responses":[{"body":${text},"id":"a","status":200}]}`
}

test('repeats a text byte for byte', () => {
  const texts = [
    '9.990',
    '12345678901234567890123',
    '-0',
    '1E+2',
    ' {"b" : [0.10],\t"a":1 } ',
    '{"a":1,"a":2.0}',
    String.raw`"\u00e9\/\ud83d\ude00"`,
    '"é"',
    '['.repeat(124) + ']'.repeat(124),
    `"${'x'.repeat(1000000)}"`,
  ]
  for (const text of texts) {
    const bytes = Buffer.from(text)
    for (const body of [bytes, new Uint8Array(bytes)]) assert.equal(responseTo(body), responseWith(text))
    assert.deepEqual([...match(BATCH, responseTo(bytes))], [['a', 200]])
  }
})

test('writes values once', () => {
  assert.equal(responseTo(9.99), responseWith('9.99'))
  assert.equal(responseTo({ b: [0.1], a: '1.50' }), responseWith('{"b":[0.1],"a":"1.50"}'))
})

test('refuses what is no body', () => {
  const deep = '['.repeat(124) + ']'.repeat(124)
  for (const text of ['9.', '01', '1e400', '1 2', `[${deep}]`, `{"a":${deep},"a":1}`]) {
    withRun((run) => {
      assert.throws(() => run.report('a', 200, null, Buffer.from(text)), { name: 'Fault', message: 'F02 NotJson report' })
      assert.deepEqual(run.running, ['a'])
    })
  }
  for (const body of [1n, { price: [10n] }]) {
    withRun((run) => assert.throws(() => run.report('a', 200, null, body), { name: 'TypeError', message: /BigInt.*bytes/ }))
  }
})

test('recorded events keep whole numbers alone', () => {
  const events = [...STARTED, { step: 'report', id: 'a', status: 200, body: 9.99 }]
  assert.throws(() => new Run(BATCH, { events }), (error) => error instanceof Fault && error.code === 'F63')
})
