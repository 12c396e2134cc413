'use strict'

const assert = require('node:assert/strict')
const { test } = require('node:test')
const vm = require('node:vm')
const { Run, canon, check, match, output, replay, run } = require('..')
const { documentBytes } = require('../documents/bytes.js')

const BATCH = { requests: [{ id: 'a', method: 'post', url: 'X', headers: { A: 'ä' } }, { id: 'b', method: 'get', url: 'Y' }] }
const TEXT = JSON.stringify(BATCH)
const BYTES = Buffer.from(TEXT)
const COUNTS = { requests: 2, groups: 0 }

/** Shared memory with the bytes of a batch. */
function shared() {
  const memory = new SharedArrayBuffer(BYTES.length)
  new Uint8Array(memory).set(BYTES)
  return memory
}

test('takes each kind of document', () => {
  const copy = new Uint8Array(BYTES)
  class Batch {
    requests = BATCH.requests
  }
  const bare = Object.assign(Object.create(null), BATCH)
  const elsewhere = [vm.runInNewContext(`(${TEXT})`), vm.runInNewContext('Uint8Array.from(it)', { it: BYTES })]
  for (const document of [BATCH, TEXT, BYTES, copy, copy.buffer, new Batch(), bare, ...elsewhere]) {
    assert.deepEqual(check(document), COUNTS)
  }
})

test('refuses another kind', () => {
  const views = [new Uint16Array(2), new Int8Array(2), new DataView(new ArrayBuffer(2))]
  const objects = [[], new Map(), new Set(), new Date(), /x/, Promise.resolve(BATCH), () => BATCH]
  for (const document of [null, undefined, 7, Symbol('x'), ...views, ...objects]) {
    for (const call of [check, (it) => match(BATCH, it), (it) => replay(BATCH, it), (it) => new Run(it)]) {
      assert.throws(() => call(document), { name: 'TypeError', message: /^a document must be / })
    }
  }
})

test('reads an empty document', () => {
  for (const document of ['', Buffer.alloc(0), new Uint8Array(), new ArrayBuffer(0)]) {
    assert.throws(() => check(document), { message: 'F02 NotJson batch' })
  }
})

test('refuses bytes that were handed to another thread', () => {
  const gone = Buffer.from(new ArrayBuffer(BYTES.length))
  structuredClone(gone.buffer, { transfer: [gone.buffer] })
  const expected = { name: 'TypeError', message: 'the bytes of a detached ArrayBuffer are gone' }
  for (const document of [gone, gone.buffer]) {
    for (const call of [check, (it) => match(BATCH, it), (it) => new Run(it), (it) => documentBytes(it)]) {
      assert.throws(() => call(document), expected)
    }
  }
  const live = new Run(BATCH, { events: [{ step: 'start', id: 'a' }] })
  assert.throws(() => live.report('a', 200, null, gone), expected)
})

test('copies the bytes that another thread shares', () => {
  const memory = shared()
  for (const document of [memory, new Uint8Array(memory), Buffer.from(memory)]) {
    const bytes = documentBytes(document)
    assert.ok(bytes.buffer instanceof ArrayBuffer)
    assert.deepEqual(Buffer.from(bytes), BYTES)
    assert.deepEqual(check(document), COUNTS)
  }
  assert.ok(documentBytes(BYTES) === BYTES)
  const body = new Uint8Array(new SharedArrayBuffer(1)).fill(0x37)
  const live = new Run(new Uint8Array(memory), { events: [{ step: 'start', id: 'a' }, { step: 'start', id: 'b' }] })
  live.report('a', 200, null, body)
  body.fill(0x38)
  live.report('b', 200, null, body)
  assert.deepEqual(JSON.parse(live.response()).responses.map((it) => it.body), [7, 8])
  live.close()
})

test('refuses a text that is not Unicode', () => {
  for (const lone of ['\ud800', '\udc00', '\udc00\ud800']) {
    const text = TEXT.replace('"X"', `"${lone}"`)
    for (const document of [text, { requests: [{ id: 'a', method: 'get', url: lone }] }]) {
      assert.throws(() => check(document), { name: 'Fault', message: 'F02 NotJson batch' })
    }
  }
  assert.deepEqual(check(TEXT.replace('"X"', '"\ud83d\ude00\ufffd"')), COUNTS)
})

test('refuses what nests too deep as its text', () => {
  let deep = 1
  for (let i = 0; i < 100000; i++) deep = { a: [deep] }
  assert.throws(() => check(deep), { name: 'Fault', message: 'F02 NotJson batch' })
  assert.throws(() => match(BATCH, deep), { name: 'Fault', message: 'F02 NotJson responses' })
  const cyclic = {}
  cyclic.a = cyclic
  assert.throws(() => check(cyclic), TypeError)
})

test('refuses unknown options', () => {
  const misspelled = { Mode: 'stop' }
  const calls = [
    (options) => run(BATCH, '', options),
    (options) => replay(BATCH, '', options),
    (options) => output('check', BATCH, null, options),
    (options) => new Run(BATCH, options),
  ]
  for (const call of calls) {
    assert.throws(() => call(misspelled), { name: 'TypeError', message: /^an option must be one of mode, width.*, not Mode$/ })
    assert.throws(() => call(null), { name: 'TypeError', message: 'the options must be an object, not Null' })
    for (const options of [7, 'stop', [], [{ step: 'start', id: 'a' }], new Map()]) assert.throws(() => call(options), TypeError)
  }
  assert.throws(() => run(BATCH, '', { order: 'wide' }), TypeError)
  assert.equal(output('canon', BATCH, null, { mode: undefined }).text.toString(), `${canon(BATCH)}\n`)
})
