'use strict'

const assert = require('node:assert/strict')
const { execFileSync } = require('node:child_process')
const { once } = require('node:events')
const { test } = require('node:test')
const { Worker } = require('node:worker_threads')
const { Fault, Refused, Run, match, replay, run } = require('..')
const { lending } = require('./batches.js')

const BATCH = lending('book')
const EVENTS = [
  { step: 'start', id: 'book' },
  { step: 'report', id: 'book', status: 200, headers: { ETag: '7' }, body: { Größe: [1, null, 'x'] } },
  { step: 'start', id: 'loan' },
  { step: 'start', id: 'mark' },
  { step: 'report', id: 'mark', status: 204 },
  { step: 'report', id: 'loan', status: 409, body: 'taken' },
]
const ONE = { requests: [{ id: 'a', method: 'get', url: 'X' }] }
const STARTED = [{ step: 'start', id: 'a' }]

/** Has a run take events. */
function take(live, events) {
  for (const { step, id, status, headers, body } of events) {
    if (step === 'start') live.start(id)
    else live.report(id, status, headers, body)
  }
}

/** All that a run says before its end. */
function seen(live) {
  return [live.ready, live.running, live.finished]
}

/** Calls a function with a run, which is closed then. */
function withRun(batch, options, use) {
  const live = new Run(batch, options)
  try {
    return use(live)
  } finally {
    live.close()
  }
}

test('says what may start and what runs', () => {
  const steps = [
    [['mark', 'loan'], [], false],
    [['mark'], ['loan'], false],
    [[], ['mark', 'loan'], false],
    [[], ['loan'], false],
    [[], [], true],
  ]
  withRun(BATCH, {}, (live) => {
    assert.deepEqual(seen(live), [['book'], [], false])
    take(live, EVENTS.slice(0, 1))
    for (const [i, wanted] of steps.entries()) {
      take(live, EVENTS.slice(i + 1, i + 2))
      assert.deepEqual(seen(live), wanted)
    }
    assert.deepEqual(live.undone, ['mark'])
    assert.deepEqual(live.response(), run(BATCH, EVENTS))
    assert.deepEqual(live.response(), run(BATCH, EVENTS))
  })
})

test('takes each kind of document', () => {
  const text = JSON.stringify(BATCH)
  for (const document of [BATCH, text, Buffer.from(text), new Uint8Array(Buffer.from(text)).buffer]) {
    assert.deepEqual(withRun(document, undefined, (live) => live.ready), ['book'])
  }
})

test('an empty batch is finished', () => {
  withRun({ requests: [] }, {}, (live) => {
    assert.deepEqual([...seen(live), live.undone, live.response().toString()], [[], [], true, [], '{"responses":[]}'])
  })
})

test('keeps to mode and width', () => {
  const batch = { requests: ['a', 'b', 'c'].map((id) => ({ id, method: 'get', url: 'X' })) }
  withRun(batch, { mode: 'stop', width: 1 }, (live) => {
    live.start('b')
    assert.deepEqual(seen(live), [[], ['b'], false])
    live.report('b', 500)
    assert.deepEqual(seen(live), [[], [], true])
    assert.deepEqual(JSON.parse(live.response()).responses.map(({ status }) => status), [424, 500, 424])
  })
})

test('goes on after any of its events', () => {
  const elements = EVENTS.map(({ step, id, ...rest }) => ({ [step]: id, ...rest }))
  for (let count = 0; count <= EVENTS.length; count++) {
    const document = { events: elements.slice(0, count) }
    for (const events of [EVENTS.slice(0, count), document, JSON.stringify(document)]) {
      withRun(BATCH, { events }, (live) => {
        take(live, EVENTS.slice(count))
        assert.deepEqual(live.response(), run(BATCH, EVENTS))
      })
    }
  }
})

test('goes on after the steps of a replay', () => {
  const outcomes = ['book', 'mark', 'loan', 'list'].map((id) => ({ id, status: 200 }))
  const { response, steps } = replay(BATCH, { outcomes }, { trace: true })
  assert.deepEqual(withRun(BATCH, { events: steps }, (live) => live.response()), response)
})

test('goes as a replay does', () => {
  const next = {
    first: (ready, running) => [running.length === 0, [...running, ...ready][0]],
    last: (ready, running) => [running.length === 0, [...ready, ...running].at(-1)],
    wide: (ready, running) => [ready.length > 0, [...ready, ...running][0]],
  }
  const outcomes = BATCH.requests.map(({ id }) => ({ id, status: id === 'loan' ? 409 : 200 }))
  const statuses = new Map(outcomes.map(({ id, status }) => [id, status]))
  for (const order of Object.keys(next)) {
    for (const mode of ['continue', 'stop']) {
      const steps = []
      withRun(BATCH, { mode }, (live) => {
        while (!live.finished) {
          const [starts, id] = next[order](live.ready, live.running)
          steps.push(starts ? { step: 'start', id } : { step: 'report', id, status: statuses.get(id) })
          take(live, steps.slice(-1))
        }
        const found = { response: live.response(), steps, undone: live.undone }
        assert.deepEqual(found, replay(BATCH, { outcomes }, { order, mode, trace: true }))
      })
      withRun(BATCH, { mode, events: steps }, (live) => {
        assert.deepEqual(live.undone, replay(BATCH, { outcomes }, { order, mode, trace: true }).undone)
      })
    }
  }
})

test('refuses what cannot have happened', () => {
  const table = [
    [[{ step: 'start', id: 'mark' }], 'S4 Waiting /events/0'],
    [[EVENTS[0], { step: 'report', id: 'book', status: 99 }], 'P2 BadStatus /events/1'],
    [[{ step: 'start', id: 'other' }], 'F65 UnknownEvent /events/0'],
    [[{ step: 'start' }], 'F64 BadEvents /events/0'],
    [[EVENTS[0], { ...EVENTS[1], headers: { A: '1', a: '2' } }], 'F64 BadEvents /events/1'],
    [[EVENTS[0], { ...EVENTS[1], body: 0.5 }], 'F63 NotWhole /events/1'],
    ['[', 'F02 NotJson events'],
  ]
  for (const [events, message] of table) {
    assert.throws(() => new Run(BATCH, { events }), { name: 'Fault', message })
  }
  const bytes = { ...EVENTS[1], body: Buffer.from('1') }
  for (const events of [7, null, [7], ['start'], [{ step: 'undo', id: 'a' }], [bytes]]) {
    assert.throws(() => new Run(BATCH, { events }), TypeError)
  }
})

test('refuses what may not come and stays as it was', () => {
  const batch = { requests: [...BATCH.requests, { id: 'other', method: 'get', url: 'X' }] }
  const options = { mode: 'stop', width: 2 }
  const start = (id) => ({ step: 'start', id })
  const report = (id, status) => ({ step: 'report', id, status })
  const table = [
    [EVENTS.slice(0, 1), start('book'), 'S1 AlreadyStarted book'],
    [[start('book'), report('book', 404)], start('mark'), 'S2 Stopped mark'],
    [[start('book'), report('book', 302)], start('list'), 'S3 UnitFailed list'],
    [EVENTS.slice(0, 3), start('list'), 'S4 Waiting list'],
    [EVENTS.slice(0, 4), start('other'), 'S5 WidthReached other'],
    [[], report('book', 200), 'P1 NotRunning book'],
    [EVENTS.slice(0, 1), report('book', 199), 'P2 BadStatus book'],
    [EVENTS.slice(0, 1), report('book', 600), 'P2 BadStatus book'],
  ]
  for (const [events, event, message] of table) {
    const [code, causeName, id] = message.split(' ')
    withRun(batch, { ...options, events }, (live) => {
      const was = seen(live)
      assert.throws(() => take(live, [event]), (error) => {
        assert.ok(error instanceof Refused && error instanceof Error)
        assert.deepEqual([error.message, error.code, error.causeName, error.id], [message, code, causeName, id])
        assert.notEqual(error.explanation, '')
        return true
      })
      assert.deepEqual(seen(live), was)
    })
    // The command names the causes in the same way.
    assert.throws(() => run(batch, [...events, event], options), { code, faultName: causeName })
  }
})

test('refuses wrong arguments', () => {
  for (const options of [{ mode: 'half' }, { width: 0 }, { width: 10001 }, { width: 1.5 }]) {
    assert.throws(() => new Run(BATCH, options), RangeError)
  }
  assert.throws(() => new Run('{"requests":7}'), { name: 'Fault', message: 'F04 NoRequests batch' })
  withRun(ONE, { events: STARTED }, (live) => {
    for (const id of ['b', 'A', undefined, Symbol('x')]) {
      assert.throws(() => live.start(id), { name: 'RangeError', code: 'ERR_ODB_UNKNOWN_ID' })
      assert.throws(() => live.report(id, 200), { name: 'RangeError', code: 'ERR_ODB_UNKNOWN_ID' })
    }
    for (const status of ['200', 200.5, NaN, undefined, null]) assert.throws(() => live.report('a', status), TypeError)
    for (const body of [() => 1, 1n, Symbol('x')]) assert.throws(() => live.report('a', 200, null, body), TypeError)
    for (const status of [-1, 2 ** 32 + 200, 2 ** 60]) assert.throws(() => live.report('a', status), { code: 'P2' })
    assert.deepEqual(live.running, ['a'])
  })
})

test('shows headers and bodies', () => {
  const deep = '['.repeat(124) + ']'.repeat(124)
  const table = [
    [undefined, undefined, {}],
    [null, null, {}],
    [{}, Buffer.from('null'), {}],
    [null, new Uint8Array(), {}],
    [{ ETag: '7', Allow: '' }, undefined, { headers: { allow: '', etag: '7' } }],
    [new Headers({ ETag: '7' }), undefined, { headers: { etag: '7' } }],
    [new Map([['É', 'é']]), undefined, { headers: { É: 'é' } }],
    [null, 'Größe', { body: 'Größe' }],
    [null, false, { body: false }],
    [null, Buffer.from(' {"b" : 1, "a":[true]} '), { body: { a: [true], b: 1 } }],
    [null, new Uint8Array(Buffer.from(deep)).buffer, { body: JSON.parse(deep) }],
  ]
  for (const [headers, body, wanted] of table) {
    withRun(ONE, { events: STARTED }, (live) => {
      live.report('a', 200, headers, body)
      assert.deepEqual(JSON.parse(live.response()), { responses: [{ id: 'a', status: 200, ...wanted }] })
    })
  }
  withRun(ONE, { events: STARTED }, (live) => {
    live.report('a', 200, null, Buffer.from('18446744073709551615'))
    assert.match(live.response().toString(), /"body":18446744073709551615,/)
  })
})

test('refuses what a response cannot show', () => {
  const table = [
    [{ A: '1', a: '2' }, null, 'F64 BadEvents report'],
    [{ A: 1 }, null, 'F64 BadEvents report'],
    [null, Buffer.from(' '), 'F02 NotJson report'],
    [null, Buffer.from('{'), 'F02 NotJson report'],
    [null, Buffer.from('1},{"start":"a"'), 'F02 NotJson report'],
    [null, Buffer.from('['.repeat(128) + ']'.repeat(128)), 'F02 NotJson report'],
  ]
  for (const [headers, body, message] of table) {
    withRun(ONE, { events: STARTED }, (live) => {
      assert.throws(() => live.report('a', 200, headers, body), { name: 'Fault', message })
      assert.deepEqual(live.running, ['a'])
      live.report('a', 200)
      assert.equal(live.finished, true)
    })
  }
})

test('takes a body as deep as a response may show', () => {
  for (const wrap of [(value) => [value], (value) => ({ k: value })]) {
    for (const levels of [124, 125, 126, 127, 128, 100000]) {
      let body = 1
      for (let i = 0; i < levels; i++) body = wrap(body)
      withRun(ONE, { events: STARTED }, (live) => {
        if (levels > 124) {
          assert.throws(() => live.report('a', 200, null, body), { name: 'Fault', message: 'F02 NotJson report' })
          assert.deepEqual(live.running, ['a'])
          body = 1
        }
        live.report('a', 200, null, body)
        assert.deepEqual([...match(ONE, live.response())], [['a', 200]])
      })
    }
  }
})

test('has no response and nothing undone before its end', () => {
  withRun(BATCH, { events: EVENTS.slice(0, 5) }, (live) => {
    for (const call of [() => live.response(), () => live.undone]) {
      assert.throws(call, (error) => error instanceof Fault && error.message === 'F66 Unfinished events')
    }
  })
})

test('returns a response longer than all that it was given', () => {
  const batch = { requests: Array.from({ length: 60 }, (_, i) => ({ id: `r${i}`, method: 'get', url: 'X' })) }
  withRun(batch, {}, (live) => {
    for (const id of live.ready) {
      live.start(id)
      live.report(id, 200, null, '\x01'.repeat(200))
    }
    assert.equal(JSON.parse(live.response()).responses.length, 60)
  })
})

test('a closed run throws', () => {
  const live = new Run(BATCH, { events: EVENTS })
  live.close()
  live.close()
  const getters = ['ready', 'running', 'finished', 'undone'].map((name) => () => live[name])
  for (const call of [...getters, () => live.start('book'), () => live.report('book', 200), () => live.response()]) {
    assert.throws(call, { code: 'ERR_ODB_CLOSED' })
  }
})

test('using closes a run', { skip: Symbol.dispose === undefined }, () => {
  const live = new Run(BATCH)
  live[Symbol.dispose]()
  assert.throws(() => live.ready, { code: 'ERR_ODB_CLOSED' })
  live[Symbol.dispose]()
})

test('forgotten runs are closed in the turn of the event loop that opens others', () => {
  const code = `
    const { Run } = require(${JSON.stringify(require.resolve('..'))})
    const requests = Array.from({ length: 2000 }, (_, i) => ({ id: 'r' + i, method: 'get', url: 'X' }))
    const batch = Buffer.from(JSON.stringify({ requests }))
    for (let i = 0; i < 400; i++) new Run(batch)
    console.log(process.memoryUsage().rss)`
  const most = Number(execFileSync(process.execPath, ['-e', code]))
  // All of them hold more than 350 MB.
  assert.ok(most < 250e6, `${most} bytes`)
})

test('a forgotten run is closed when it is collected', () => {
  const code = `
    const { Run } = require(${JSON.stringify(require.resolve('..'))})
    const body = Buffer.from(JSON.stringify('x'.repeat(100000)))
    const batch = ${JSON.stringify(JSON.stringify(ONE))}
    async function main() {
      for (let i = 1; i <= 2000; i++) {
        const live = new Run(batch)
        live.start('a')
        live.report('a', 200, null, body)
        if (i % 100 > 0) continue
        global.gc()
        await new Promise(setImmediate)
      }
      console.log(process.memoryUsage().rss)
    }
    main()`
  const most = Number(execFileSync(process.execPath, ['--expose-gc', '-e', code]))
  // All of them hold 200 MB.
  assert.ok(most < 150e6, `${most} bytes`)
})

test('a worker may end with an open run', async () => {
  const code = `
    const { Run } = require(${JSON.stringify(require.resolve('..'))})
    const { parentPort } = require('node:worker_threads')
    globalThis.live = new Run(${JSON.stringify(BATCH)})
    live.start('book')
    parentPort.postMessage(live.running)`
  const worker = new Worker(code, { eval: true })
  const [[running], [status]] = await Promise.all([once(worker, 'message'), once(worker, 'exit')])
  assert.deepEqual([running, status], [['book'], 0])
})

test('many runs go on side by side', async () => {
  const pause = () => new Promise(setImmediate)
  const works = Array.from({ length: 8 }, async (_, k) => {
    const live = new Run(BATCH, { width: 1 + k })
    while (!live.finished) {
      for (const id of live.ready.slice(0, 1)) {
        live.start(id)
        await pause()
        live.report(id, 200, null, k)
      }
    }
    const bodies = JSON.parse(live.response()).responses.map(({ body }) => body)
    live.close()
    return bodies
  })
  assert.deepEqual(await Promise.all(works), Array.from({ length: 8 }, (_, k) => [k, k, k, k]))
})
