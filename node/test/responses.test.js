'use strict'

// Responses in the document of a service, with the bytes of headers and bodies; and runs that list their requests.

const assert = require('node:assert/strict')
const { test } = require('node:test')
const { Fault, Run, requests } = require('..')
const { responses } = require('../calls/responses.js')
const { openListed } = require('../calls/run.js')

const BATCH = '{"requests":[{"id":"a","method":"post","url":"A","body": 9.990 },{"id":"b","method":"get","url":"$a/x","dependsOn":["a"]}]}'
const text = (bytes) => (bytes === undefined ? undefined : bytes.toString())

/** What a document has, with texts in place of bytes. */
function read(document) {
  return responses(Buffer.from(document)).map(({ headers, body, ...rest }) => ({ ...rest, headers: text(headers), body: text(body) }))
}

test('gives headers and bodies as they are in the document', () => {
  const document = `{"@context": "x", "responses": [7], "responses": [
    {"id": "\\u00e9", "status": 201, "atomicityGroup": "g", "headers": {"ETag": "1"} , "body" : {"price": 9.990} },
    {"id": "", "status": 599, "atomicityGroup": null, "headers": null, "body": null},
    {"body": 1, "id": "c", "headers": [2], "status": 100, "body": "]}"}]}`
  assert.deepEqual(read(document), [
    { id: 'é', group: 'g', status: 201, headers: '{"ETag": "1"}', body: '{"price": 9.990}' },
    { id: '', group: null, status: 599, headers: undefined, body: undefined },
    { id: 'c', group: null, status: 100, headers: '[2]', body: '"]}"' },
  ])
  assert.deepEqual(read('{"responses":[]}'), [])
})

test('refuses another document', () => {
  const refused = { '[': 'F02 NotJson responses', '{}': 'F70 BadResponses responses', '{"responses":[7]}': 'F70 BadResponses /responses/0' }
  for (const [document, message] of Object.entries(refused)) assert.throws(() => read(document), (error) => error instanceof Fault && error.message === message)
})

test('lists more than a first guess has room for', () => {
  const document = `{"responses":[${Array(3000).fill('{"id":"","status":200}')}]}`
  assert.equal(read(document).filter(({ id, status }) => id === '' && status === 200).length, 3000)
})

test('opens a run with what is to be sent', () => {
  const batch = Buffer.from(BATCH)
  const { run, requests: listed } = openListed(batch, { width: 1 })
  assert.deepEqual(listed, requests(batch))
  assert.equal(run.request('b'), listed[1])
  const other = new Run(batch, { width: 1 })
  for (const each of [run, other]) {
    each.start('a')
    each.report('a', 404)
  }
  assert.deepEqual(run.response(), other.response())
  run.close()
  assert.throws(() => run.ready, { code: 'ERR_ODB_CLOSED' })
})

test('refuses what a run does not take', () => {
  for (const [batch, options] of [['[', {}], [BATCH, { events: '{"events":[{"start":"b"}]}' }]]) {
    const [one, other] = [() => new Run(batch, options), () => openListed(batch, options)].map((open) => {
      try {
        open()
      } catch (error) {
        return [error.message, error.line]
      }
      return assert.fail('opened')
    })
    assert.deepEqual(one, other)
  }
  assert.throws(() => openListed(BATCH, { width: 0 }), RangeError)
})
