'use strict'

const assert = require('node:assert/strict')
const { test } = require('node:test')
const { Refused, Run, replay } = require('..')
const { lending } = require('./batches.js')

const BATCH = lending('mark')

/** Calls a function with a run, which is closed then. */
function withRun(options, use) {
  const live = new Run(BATCH, options)
  try {
    return use(live)
  } finally {
    live.close()
  }
}

/** The states of all requests. */
function statesOf(live) {
  return BATCH.requests.map(({ id }) => Object.values(live.state(id)))
}

/** Performs one unit after another, with these statuses or 200, and returns the units. */
function unitsOf(live, statuses) {
  const units = []
  for (let unit = live.nextUnit(); unit !== null; unit = live.nextUnit()) {
    units.push(unit)
    for (const id of unit) {
      live.start(id)
      live.report(id, statuses[id] ?? 200)
    }
  }
  return units
}

test('performs one unit after another', () => {
  withRun({}, (live) => {
    assert.deepEqual(unitsOf(live, {}), [['book'], ['mark', 'loan'], ['list']])
    assert.equal(live.finished, true)
  })
})

test('skips what needs a group that failed, and says what is undone', () => {
  withRun({}, (live) => {
    assert.deepEqual(unitsOf(live, { loan: 409 }), [['book'], ['mark', 'loan']])
    assert.deepEqual(statesOf(live), [['reported', 200], ['undone', 424], ['reported', 409], ['skipped', 424]])
  })
})

test('starts a group as one, which takes one place', () => {
  withRun({ width: 1 }, (live) => {
    live.startUnit('book')
    live.report('book', 200)
    live.startUnit('loan')
    assert.deepEqual([live.running, live.ready], [['mark', 'loan'], []])
    live.report('loan', 201)
    assert.deepEqual([live.running, live.nextUnit()], [['mark'], null])
    live.report('mark', 204)
    assert.deepEqual(live.nextUnit(), ['list'])
  })
})

test('refuses to start a group as one', () => {
  withRun({}, (live) => {
    const refuses = (id, code) => assert.throws(() => live.startUnit(id), (error) => error instanceof Refused && error.code === code)
    refuses('loan', 'S4')
    live.startUnit('book')
    refuses('book', 'S1')
    live.report('book', 404)
    refuses('mark', 'S3')
    live.stop()
    refuses('list', 'S2')
    assert.throws(() => live.startUnit('lend'), { code: 'ERR_ODB_UNKNOWN_ID' })
  })
})

test('says what has become of a request', () => {
  withRun({}, (live) => {
    assert.deepEqual(live.state('book'), { state: 'ready', status: null })
    live.start('book')
    assert.deepEqual(live.state('book'), { state: 'running', status: null })
    assert.deepEqual(live.state('mark'), { state: 'waiting', status: null })
    assert.throws(() => live.state('lend'), { code: 'ERR_ODB_UNKNOWN_ID' })
  })
})

test('starts nothing more in a run that is stopped', () => {
  for (const mode of ['continue', 'stop']) {
    withRun({ mode }, (live) => {
      live.start('book')
      live.stop()
      live.stop()
      assert.deepEqual([live.ready, live.running, live.finished, live.nextUnit()], [[], ['book'], false, null])
      live.report('book', 200)
      assert.equal(live.finished, true)
      assert.deepEqual(statesOf(live), [['reported', 200], ...Array(3).fill(['skipped', 424])])
      assert.throws(() => live.start('mark'), (error) => error instanceof Refused && error.code === 'S2')
    })
  }
})

test('takes the steps of a replay, in each order', () => {
  const statuses = { book: 200, mark: 204, loan: 409, list: 200 }
  const outcomes = { outcomes: Object.entries(statuses).map(([id, status]) => ({ id, status })) }
  for (const order of ['first', 'last', 'wide']) {
    for (const options of [{ width: 1 }, { mode: 'stop' }, {}]) {
      const steps = withRun(options, (live) => {
        const taken = []
        for (let next = live.next(order); next !== null; next = live.next(order)) {
          const { step, id } = next
          if (step === 'start') live.start(id)
          else live.report(id, statuses[id])
          taken.push(step === 'start' ? next : { ...next, status: statuses[id] })
        }
        assert.equal(live.finished, true)
        return taken
      })
      assert.deepEqual(steps, replay(BATCH, outcomes, { ...options, order, trace: true }).steps)
    }
  }
})

test('has no step in no order', () => {
  withRun({}, (live) => {
    assert.deepEqual(live.next(), { step: 'start', id: 'book' })
    assert.throws(() => live.next('best'), RangeError)
  })
})

test('refuses a closed run', () => {
  const live = new Run(BATCH)
  live.close()
  for (const call of [() => live.stop(), () => live.next(), () => live.nextUnit(), () => live.state('book'), () => live.startUnit('book')]) {
    assert.throws(call, { code: 'ERR_ODB_CLOSED' })
  }
})
