'use strict'

const assert = require('node:assert/strict')
const { test } = require('node:test')
const { Fault, Run, check, requests } = require('..')

const BATCH = String.raw`{"requests": [
  {"id": "a", "method": "Post", "url": "Orders", "atomicityGroup": "g", "headers": {"X-B": "2", "content-type": "application/json"},
   "body": {"price": 9.990, "number": 12345678901234567890123, "name": "ü"}},
  {"id": "b", "method": "get", "url": "$a/Lines?x=1", "dependsOn": ["g"], "body": null},
  {"body": "first", "id": "c", "method": "PATCH", "url": "$%61#end", "dependsOn": ["g"], "body" : [ 1.0,2 ] }
]}`

const REQUESTS = [
  {
    id: 'a', method: 'POST', url: 'Orders', reference: null, rest: 'Orders', group: 'g', needs: [],
    headers: { 'content-type': 'application/json', 'x-b': '2' },
    body: Buffer.from('{"price": 9.990, "number": 12345678901234567890123, "name": "ü"}'),
  },
  {
    id: 'b', method: 'GET', url: '$a/Lines?x=1', reference: 'a', rest: '/Lines?x=1', group: null, needs: ['g', 'a'], headers: {},
    body: undefined,
  },
  {
    id: 'c', method: 'PATCH', url: '$%61#end', reference: 'a', rest: '#end', group: null, needs: ['g', 'a'], headers: {},
    body: Buffer.from('[ 1.0,2 ]'),
  },
]

test('requests: each part is as the batch has it', () => {
  for (const batch of [BATCH, Buffer.from(BATCH), new Uint8Array(Buffer.from(`  ${BATCH}`)).subarray(2)]) {
    assert.deepEqual(requests(batch), REQUESTS)
  }
})

test('requests: of an object the bodies are what JSON.stringify writes', () => {
  const [{ body }] = requests({ requests: [{ id: 'a', method: 'post', url: 'X', body: { b: [1, null] } }] })
  assert.equal(body.toString(), '{"b":[1,null]}')
})

test('requests: a batch that is refused is refused as by check', () => {
  const refused = ['', '{"requests": 7}', '{"requests": [{"id": "a", "method": "get", "url": "$b"}]}']
  for (const batch of refused) {
    let wanted
    assert.throws(() => check(batch), (error) => (wanted = error) instanceof Fault)
    assert.throws(() => requests(batch), { code: wanted.code, place: wanted.place })
  }
  assert.throws(() => requests(7), TypeError)
})

test('requests: none, and many with long parts', () => {
  assert.deepEqual(requests('{"requests": []}'), [])
  const long = { id: 'a', method: 'post', url: 'X'.repeat(100_000), body: 'y'.repeat(1_000_000) }
  const short = Array.from({ length: 9_999 }, (_, at) => ({ id: String(at), method: 'get', url: '' }))
  const found = requests({ requests: [long, ...short] })
  assert.deepEqual([found.length, found[0].url, found[0].body.length], [10_000, long.url, 1_000_002])
  assert.deepEqual(found.slice(1).map(({ id }) => id), short.map(({ id }) => id))
})

test('request: a run has the requests of its batch', () => {
  const live = new Run(BATCH)
  assert.deepEqual(['c', 'a', 'b'].map((id) => live.request(id)), [2, 0, 1].map((at) => REQUESTS[at]))
  assert.throws(() => live.request('x'), { code: 'ERR_ODB_UNKNOWN_ID' })
  live.close()
  assert.throws(() => live.request('a'), { code: 'ERR_ODB_CLOSED' })
})
