'use strict'

// The options of a match: a service that stops at its first error may leave out responses, and a strict match asks for a run.

const assert = require('node:assert/strict')
const { test } = require('node:test')
const { match, output, rest } = require('..')

const BATCH = {
  requests: [
    { id: 'book', method: 'get', url: 'Books' },
    { id: 'loan', atomicityGroup: 'lend', dependsOn: ['book'], method: 'delete', url: 'Loans' },
    { id: 'list', dependsOn: ['lend'], method: 'get', url: 'Loans' },
  ],
}

/** A response document with these statuses. */
function responses(statuses) {
  return { responses: Object.entries(statuses).map(([id, status]) => ({ id, status })) }
}

test('reads what is left out as 424', () => {
  const found = match(BATCH, responses({ book: 404 }), { mode: 'stop' })
  assert.deepEqual([...found], [['book', 404], ['loan', 424], ['list', 424]])
})

test('refuses what is left out without an error, or by a service that continues', () => {
  const missing = { name: 'Fault', message: 'F73 ResponseMissing /requests/1' }
  assert.throws(() => match(BATCH, responses({ book: 404 })), missing)
  assert.throws(() => match(BATCH, responses({ book: 404 }), { mode: 'continue' }), missing)
  assert.throws(() => match(BATCH, responses({ book: 200 }), { mode: 'stop' }), missing)
})

test('refuses other faults of a service that stops', () => {
  const matched = (statuses) => () => match(BATCH, responses(statuses), { mode: 'stop' })
  assert.throws(matched({ book: 404, page: 424 }), { name: 'Fault', message: 'F71 UnknownResponse /responses/1' })
  assert.throws(matched({ book: 404, list: 200 }), { name: 'Fault', message: 'F75 UnsoundSuccess /requests/2' })
})

test('refuses another mode and another option', () => {
  assert.throws(() => match(BATCH, responses({ book: 404 }), { mode: 'half' }), RangeError)
  assert.throws(() => match(BATCH, responses({ book: 404 }), { width: 1 }), TypeError)
})

test('prints the match of a service that stops', () => {
  const { accepted, text } = output('match', BATCH, responses({ book: 404 }), { mode: 'stop', form: 'lines' })
  assert.deepEqual([accepted, text.toString()], [true, 'ok 3 responses\nbook 404\nloan 424\nlist 424\n'])
  assert.equal(output('match', BATCH, responses({ book: 404 })).accepted, false)
})

test('asks for a run if it is strict', () => {
  const two = { requests: [BATCH.requests[0], { id: 'list', dependsOn: ['book'], method: 'get', url: 'Loans' }] }
  const group = { requests: ['a', 'b'].map((id) => ({ id, atomicityGroup: 'g', method: 'post', url: 'Loans' })) }
  const parted = { responses: [['a', 409], ['b', 201]].map(([id, status]) => ({ id, atomicityGroup: 'g', status })) }
  const early = responses({ book: 102, list: 424 })
  const unstarted = responses({ book: 404, list: 404 })
  for (const [batch, document, message] of [
    [two, early, 'F76 NotFinal /requests/0'],
    [group, parted, 'F77 PartialGroup /requests/1'],
    [two, unstarted, 'F78 NotStarted /requests/1'],
  ]) {
    assert.equal(match(batch, document).size, 2)
    assert.deepEqual(match(batch, document, { strict: false }), match(batch, document))
    assert.throws(() => match(batch, document, { strict: true }), { name: 'Fault', message })
    assert.equal(output('match', batch, document, { strict: true }).accepted, false)
  }
  const left = match(two, responses({ book: 404 }), { mode: 'stop', strict: true })
  assert.deepEqual([...left], [['book', 404], ['list', 424]])
  assert.throws(() => rest(two, unstarted, { strict: true }), TypeError)
})

test('asks for a run by units', () => {
  const grouped = { atomicityGroup: 'g' }
  const first = { id: 'a', ...grouped, method: 'post', url: 'Loans' }
  const pair = { requests: [first, { id: 'b', ...grouped, method: 'patch', url: '$a', dependsOn: ['a'] }] }
  const failed = { responses: [{ id: 'a', ...grouped, status: 409 }, { id: 'b', ...grouped, status: 500 }] }
  assert.throws(() => match(pair, failed, { strict: true }), { name: 'Fault', message: 'F78 NotStarted /requests/1' })
  assert.deepEqual([...match(pair, failed, { strict: 'units' })], [['a', 409], ['b', 500]])
  assert.equal(output('match', pair, failed, { strict: 'units' }).accepted, true)
  assert.throws(() => match(pair, failed, { strict: 'unit' }), RangeError)
})
