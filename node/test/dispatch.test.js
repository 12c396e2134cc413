'use strict'

// Requests and responses in memory, where the classes of node:http are classes of the language, as they may become.

const assert = require('node:assert/strict')
const http = require('node:http')
const { test } = require('node:test')
const { getHeapSpaceStatistics, setFlagsFromString } = require('node:v8')
const { runInNewContext } = require('node:vm')

const { IncomingMessage, ServerResponse } = http
http.IncomingMessage = class extends IncomingMessage {}
http.ServerResponse = class extends ServerResponse {}
const { dispatcher } = require('../middleware/dispatch.js')
const { BodyBudget } = require('../middleware/body_budget.js')

const GET = { method: 'GET', url: '/', headers: {} }

test('needs no call of a class without new', async () => {
  const app = (req, res) => res.end(`${req instanceof http.IncomingMessage} ${res instanceof http.ServerResponse}`)
  app.request = Object.create(http.IncomingMessage.prototype)
  app.response = Object.create(http.ServerResponse.prototype)
  const { status, body } = await dispatcher(app)({}, GET, new BodyBudget(1000), {})
  assert.deepEqual([status, body.toString()], [200, 'true true'])
})

/** A handler that answers some parts of ten bytes, and calls a function after each. */
function parted(count, after = () => {}) {
  return async (req, res) => {
    res.on('error', () => {}) // of what is written after the end
    for (let k = 0; k < count; k++) {
      res.write(Buffer.alloc(10))
      await new Promise(setImmediate)
      after()
    }
    res.end()
  }
}

test('takes of the budget what is written as it is written, and gives back what is not kept', async () => {
  const all = new BodyBudget(1000)
  const budget = new BodyBudget(60, all)
  const left = () => [60, 50, 40, 30, 20, 10, 0].find((size) => budget.take(size) && (budget.giveBack(size), true))
  const found = []
  const lengthOf = async (count, method = 'GET') => {
    const handler = parted(count, () => found.push(left()))
    return (await dispatcher(handler)({}, { ...GET, method }, budget, {})).body?.length
  }
  assert.equal(await lengthOf(2), 20)
  assert(found[1] <= 40 && found[1] < found[0], String(found))
  assert.equal(left(), 40)
  await assert.rejects(lengthOf(7), { code: 'TooLong' })
  assert.equal(left(), 40)
  assert.equal(await lengthOf(7, 'POST'), undefined)
  assert.equal(await lengthOf(2), 20)
  assert.deepEqual([left(), all.take(961), all.take(960)], [20, false, true])
  budget.close()
  assert.deepEqual([all.take(40), budget.take(1)], [true, false])
  budget.giveBack(1)
  assert.equal(all.take(1), false)
})

test('holds nothing of a request that was answered until all objects are collected', async () => {
  setFlagsFromString('--expose-gc')
  const collect = runInNewContext('gc')
  const old = () => getHeapSpaceStatistics().find(({ space_name: name }) => name === 'old_space').space_used_size
  const answer = dispatcher((req, res) => res.end())
  const grown = async () => {
    const before = old()
    for (let k = 0; k < 200; k++) {
      await answer({}, GET, new BodyBudget(1000), {})
      if (k % 20 === 0) collect({ type: 'minor' })
    }
    return old() - before
  }
  await grown() // code and the like
  // The engine's own objects may grow meanwhile; what each request leaves, all rounds leave.
  let bytes = Infinity
  for (let round = 0; round < 5 && bytes >= 200000; round++) bytes = Math.min(bytes, await grown())
  assert(bytes < 200000, `200 requests left ${bytes} bytes`)
})
