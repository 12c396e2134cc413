'use strict'

// How what a fault says in detail begins: with the id of the request, and the name that is wrong.

const assert = require('node:assert/strict')
const { test } = require('node:test')
const { Fault, check, faults } = require('..')
const { batchOf, randomFrom } = require('./batches.js')

const get = (id, url = 'A', more = {}) => ({ id, method: 'get', url, ...more })
const [A, G, H] = [get('a'), get('m', 'A', { atomicityGroup: 'g' }), get('n', 'A', { atomicityGroup: 'h' })]
const after = (id, names, more) => get(id, 'A', { dependsOn: names, ...more })

const BEGINS = [
  [[A, after('b', ['a', 'nope'])], 'b: "nope" in dependsOn is unknown. UnknownName: '],
  [[after('b', ['a']), A], 'b: "a" in dependsOn does not come before it. ForwardName: '],
  [[after('b', ['b'])], 'b: "b" in dependsOn does not come before it. ForwardName: '],
  [[after('b', ['g']), G], 'b: "g" in dependsOn does not come before it. ForwardName: '],
  [[after('b', ['g'], { atomicityGroup: 'g' })], 'b: "g" in dependsOn is its own group. '],
  [[G, after('b', ['m'])], 'b: "g", the group of "m", is not listed in dependsOn. GroupNotListed: '],
  [[get('b', '$nope/x')], 'b: "nope" in the URL is unknown. UnknownReference: '],
  [[get('b', '%24a?x=1'), A], 'b: "a" in the URL does not come before it. ForwardReference: '],
  [[A, get('b', '$a#x')], 'b: "a" is not listed in dependsOn. ReferenceNotListed: '],
  [[get('b', 'A', { dependson: [] })], 'b: the member "dependson" is unknown. '],
  [[get('b', 'A', { headers: { 'X-A': '1', 'x-a': '2' } })], 'b: the header "x-a" comes twice. '],
  [[A, A], 'a: an earlier request has this id. '],
  [[get('g'), G], 'g: a group has this name, too. '],
  [[G, H, get('o', 'A', { atomicityGroup: 'g' })], 'o: the group "g" has been left before. '],
  [[get('b', 'x/$batch')], 'b: NestedBatch: '],
  [[{ method: 'get', url: 'A' }], 'BadId: '],
  [[7], 'NotRequestObject: '],
  [[after('b'.repeat(200), ['😀'.repeat(200)])], `${'b'.repeat(100)}..: "${'😀'.repeat(100)}.." in dependsOn is unknown. `],
]

function faultOf(document) {
  try {
    check(document)
  } catch (error) {
    assert(error instanceof Fault)
    return error
  }
  return assert.fail('accepted')
}

for (const [requests, begins] of BEGINS) {
  test(`begins with ${begins.slice(0, 60)}`, () => {
    const { details } = faultOf({ requests })
    assert.equal(details.slice(0, begins.length), begins)
  })
}

test('says of a document that is no batch what the fault is', () => {
  for (const document of ['[', '[]', '{}', '{"requests":7}']) {
    const { details, explanation, faultName } = faultOf(document)
    assert.equal(details, `${faultName}: ${explanation.replace(/\s+/g, ' ').trim()}`)
  }
  assert.match(new Fault('F40', 'UnknownName', '/requests/0').details, /^UnknownName: /)
})

test('begins with the id of each request that has a fault of names', () => {
  for (let seed = 0; seed < 100; seed++) {
    const document = batchOf(randomFrom(seed))
    const { requests } = document
    for (const request of requests) {
      if (request.dependsOn?.length > 0) request.dependsOn = [...request.dependsOn, 'nope', requests.at(-1).id]
    }
    for (const fault of faults(document)) {
      const at = Number(fault.place.split('/').at(-1))
      if (/^F4/.test(fault.code)) assert(fault.details.startsWith(`${requests[at].id}: "`), fault.details)
    }
  }
})

test('reads the document once for all its faults', (context) => {
  const parse = context.mock.method(JSON, 'parse')
  const requests = Array.from({ length: 50 }, (_, at) => after(`b${at}`, ['nope']))
  const begins = faults({ requests }).map(({ details }) => details.split(':')[0])
  assert.deepEqual(begins, requests.map(({ id }) => id))
  assert.equal(parse.mock.callCount(), 1)
})

test('names the request of a fault beside one without an id', () => {
  const begins = faults({ requests: [7, get('b', 'A', { dependson: [] })] }).map(({ details }) => details.split(': ')[0])
  assert.deepEqual(begins, ['NotRequestObject', 'b'])
})
