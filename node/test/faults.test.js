'use strict'

const assert = require('node:assert/strict')
const { test } = require('node:test')
const { Fault, Run, check, faults, match, plan, replay, requests, rest, run } = require('..')
const library = require('../library/index.js')

// So many faults that the call is repeated with more room.
const MORE_THAN_GUESSED = 9000
const ONE = '{"requests": [{"id":"a", "method":"get", "url":"A"}]}'
// Faults on a line of their own, after characters of two, three and four bytes.
const MANY = `{"@note": "ä€📚", "requests": [
 {"id": "a", "method": "get", "url": "A"},
 "ä" , {"id": "b"}]}`

/** The fault that a call throws. */
function faultOf(call) {
  try {
    call()
  } catch (error) {
    assert.ok(error instanceof Fault, `${error}`)
    return error
  }
  return assert.fail('nothing is thrown')
}

const positionOf = ({ line, column, offset }) => [line, column, offset]

test('a batch that is accepted has no faults', () => {
  assert.deepEqual(faults(ONE), [])
})

test('all faults of a batch, with their positions', () => {
  const second = Buffer.from(MANY).indexOf('"ä" ,')
  assert.deepEqual(faults(MANY).map((it) => [it.code, it.place, ...positionOf(it)]), [
    ['F10', '/requests/1', 3, 2, second],
    ['F14', '/requests/2', 3, 8, second + 7],
    ['F15', '/requests/2', 3, 8, second + 7],
  ])
})

test('where they are is found with them', (t) => {
  t.mock.method(library, 'where', () => assert.fail('a place is looked up'))
  const found = faults(`{"requests": [7${'\n,7'.repeat(MORE_THAN_GUESSED - 1)}]}`)
  assert.deepEqual(found.map((it) => it.line), Array.from({ length: MORE_THAN_GUESSED }, (_, i) => i + 1))
})

test('the first is the one that a check throws', () => {
  const [first] = faults(MANY)
  const thrown = faultOf(() => check(MANY))
  assert.equal(first.message, thrown.message)
  assert.deepEqual(positionOf(first), positionOf(thrown))
  assert.ok(first instanceof Fault && first.explanation)
})

test('positions in what is no JSON', () => {
  for (const [document, ...position] of [
    ['', 1, 1, 0], [' \n\n ', 3, 2, 4], ['{\n}x', 2, 2, 3], ['{"requests":\n [', 2, 3, 15], ['{"ä":"€📚" 7', 1, 11, 16],
    [new Uint8Array([0x5b, 0x22, 0xff, 0x22, 0x5d]), 1, 3, 2],
  ]) {
    assert.deepEqual(faults(document).map((it) => [it.code, ...positionOf(it)]), [['F02', ...position]])
  }
})

test('of an object they are those in its JSON', () => {
  const [fault] = faults({ requests: [{ id: 'a', method: 'get', url: '$b' }] })
  assert.deepEqual(positionOf(fault), [1, 14, 13])
})

test('positions in second documents', () => {
  const calls = [
    [match, 'responses'], [rest, 'responses'], [replay, 'outcomes'], [run, 'events'],
    [(batch, events) => new Run(batch, { events }), 'events'],
  ]
  for (const [call, name] of calls) {
    const good = name === 'events' ? '{"start":"a"}' : '{"id":"a","status":200}'
    const fault = faultOf(() => call(ONE, `{"${name}":[\n${good},\n  7]}`))
    assert.deepEqual([fault.place, fault.line, fault.column], [`/${name}/1`, 3, 3])
    const whole = faultOf(() => call(ONE, '{}\n}'))
    assert.deepEqual([whole.code, whole.place, ...positionOf(whole)], ['F02', name, 2, 1, 3])
  }
})

test('positions in the batch beside a second document', () => {
  const missing = faultOf(() => match(ONE, '\n\n{"responses":[]}'))
  assert.deepEqual([missing.code, missing.line, missing.column], ['F73', 1, 15])
  assert.equal(faultOf(() => run('{', '{}')).column, 2)
})

test('positions in a batch, by each call', () => {
  for (const call of [check, plan, requests, (batch) => new Run(batch)]) {
    assert.equal(faultOf(() => call('{"requests":[\n7]}')).line, 2)
  }
})

test('a fault without a document has no position', () => {
  const live = new Run(ONE)
  live.start('a')
  const found = [faultOf(() => live.response()), faultOf(() => live.report('a', 200, null, Buffer.from('[')))]
  live.close()
  for (const fault of [...found, new Fault('F02', 'NotJson', 'batch'), new Fault('F02', 'NotJson', 'report', Buffer.from('['))]) {
    assert.deepEqual(positionOf(fault), [undefined, undefined, undefined])
  }
})

test('a fault with a document', () => {
  assert.deepEqual(positionOf(new Fault('F10', 'NotRequestObject', '/requests/0', Buffer.from('{"requests":[7]}'))), [1, 14, 13])
})
