'use strict'

// What the tests of `perform` share.

const { perform } = require('..')

/** Batches of requests by short descriptions: `['a', 'get', 'A', { dependsOn: ['b'] }]`. */
function batch(...requests) {
  return { requests: requests.map(([id, method = 'get', url = 'A', more = {}]) => ({ id, method, url, ...more })) }
}

// A request that a group needs, the group, and a request that needs it.
const GROUP = batch(
  ['x', 'post', 'X', { body: 1 }],
  ['a', 'post', 'A', { atomicityGroup: 'g', body: 1 }],
  ['b', 'post', 'B', { atomicityGroup: 'g', body: 1, dependsOn: ['x'] }],
  ['c', 'get', 'C', { dependsOn: ['g'] }],
)

const SILENT = { log() {} }

function responsesOf(response) {
  return JSON.parse(response).responses
}

/** The statuses by the ids, of a batch that is performed without a log. */
async function statusesOf(batch, send, options = {}) {
  const responses = responsesOf(await perform(batch, send, { ...SILENT, ...options }))
  return Object.fromEntries(responses.map(({ id, status }) => [id, status]))
}

/** Is fulfilled after some time. */
function after(milliseconds, value) {
  return new Promise((resolve) => setTimeout(resolve, milliseconds, value))
}

/** A database by its transactions, one at a time: what was committed, and what was rolled back. */
class Ledger {
  committed = []
  rolledBack = []
  #turn = Promise.resolve()

  /** Waits for the turn of a writer, and has it for as long as a call takes. */
  alone(call) {
    const done = this.#turn.then(call)
    this.#turn = done.catch(() => {})
    return done
  }

  transaction = (group, body) =>
    this.alone(async () => {
      try {
        await body()
        this.committed.push(group)
      } catch (error) {
        this.rolledBack.push(group)
        throw error
      }
    })
}

module.exports = { GROUP, Ledger, SILENT, after, batch, responsesOf, statusesOf }
