'use strict'

// What is seen of the requests of a batch: a line for each, and the hook around it.

const assert = require('node:assert/strict')
const { test } = require('node:test')
const { Refusal } = require('..')
const { batch } = require('./performing.js')
const { serving } = require('./serving.js')

function handler(req, res) {
  if (req.url === '/odata/Broken') throw new Error('broken')
  res.writeHead(req.method === 'POST' ? 201 : 200, { 'Content-Type': 'text/plain' }).end(req.headers['x-request-id'])
}

const BATCH = batch(['a', 'post', 'A?x=1', { body: 1 }], ['b', 'get', 'B'], ['c', 'get', 'Broken'])

test('logs a line for each request, with the number of the batch', async () => {
  const lines = []
  await serving('node:http', handler, { requestLog: (line) => lines.push(line) }, async ({ responses }) => {
    await responses(BATCH)
    await responses(batch(['a']))
  })
  const found = lines.map((line) => /^batch ([0-9]+): (\S+ \S+ [0-9]{3}) [0-9]+\.[0-9] ms$/.exec(line).slice(1))
  assert.deepEqual(found.map(([, words]) => words), ['POST /odata/A 201', 'GET /odata/B 200', 'GET /odata/Broken 500', 'GET /odata/A 200'])
  const numbers = found.map(([number]) => Number(number))
  assert.deepEqual(numbers, [numbers[0], numbers[0], numbers[0], numbers[0] + 1])
})

test('calls a hook before each request, and what it returns with the answer', async () => {
  const seen = []
  const onRequest = ({ id, url, headers }) => {
    if (id === 'b') throw new Refusal(403, 'Denied', 'not in a batch')
    seen.push([id, new URL(url).pathname, headers.prefer === undefined])
    return ({ status }) => seen.push([id, status])
  }
  await serving('node:http', handler, { onRequest }, async ({ responses, errors }) => {
    const { a, b, c } = await responses(BATCH)
    assert.deepEqual([a.status, b.status, c.status], [201, 403, 500])
    assert.deepEqual(seen, [['a', '/odata/A', true], ['a', 201], ['c', '/odata/Broken', true], ['c', 500]])
    assert.equal(errors.length, 1) // what the handler has thrown
  })
})

test('logs what a hook throws after an answer, which stands', async () => {
  const onRequest = () => () => {
    throw new Error('late')
  }
  await serving('node:http', handler, { onRequest }, async ({ responses, errors }) => {
    assert.equal((await responses(batch(['a']))).a.status, 200)
    assert.deepEqual(errors.map(([{ message }, what]) => [message, what]), [['late', 'the hook after a request']])
  })
})
