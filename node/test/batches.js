'use strict'

// Batches that tests share, and batches made at random from a seed.

const URLS = ['Books', "Books('dune')", '/service/Loans?$top=1', 'https://host/s/X', '$metadata', '']
const TAILS = ['', '/Pages', '?$top=1']
const METHODS = ['get', 'post', 'PATCH', 'delete']
const STATUSES = [200, 201, 204, 200, 201, 204, 200, 201, 304, 404, 409, 500]
const CHANCE_OF_GROUP = 0.4
const CHANCE_OF_NEED = 0.3
const CHANCE_OF_REFERENCE = 0.4

/** A batch that lends a book, in which the loan depends on another request. */
function lending(loanNeeds) {
  return {
    requests: [
      { id: 'book', method: 'get', url: "Books('dune')" },
      { id: 'mark', atomicityGroup: 'lend', dependsOn: ['book'], method: 'delete', url: "Books('dune')" },
      { id: 'loan', atomicityGroup: 'lend', dependsOn: [loanNeeds], method: 'post', url: 'Loans' },
      { id: 'list', dependsOn: ['lend'], method: 'get', url: 'Loans' },
    ],
  }
}

/** A function of random numbers, at least 0 and less than 1: mulberry32. */
function randomFrom(seed) {
  let state = seed
  return () => {
    state = (state + 0x6d2b79f5) | 0
    let it = Math.imul(state ^ (state >>> 15), 1 | state)
    it = (it + Math.imul(it ^ (it >>> 7), 61 | it)) ^ it
    return ((it ^ (it >>> 14)) >>> 0) / 2 ** 32
  }
}

/** What a request of a batch may depend on: earlier requests without a group or of its own group, and other groups. */
function needable(requests, group) {
  return [...new Set(requests.map((it) => (it.atomicityGroup === group ? it.id : it.atomicityGroup ?? it.id)))]
}

/** A batch that is accepted. */
function batchOf(random) {
  const of = (values) => values[Math.floor(random() * values.length)]
  const requests = []
  const add = (group) => {
    const dependsOn = needable(requests, group).filter(() => random() < CHANCE_OF_NEED)
    const ids = dependsOn.filter((name) => requests.some(({ id }) => id === name))
    const url = ids.length > 0 && random() < CHANCE_OF_REFERENCE ? `$${of(ids)}${of(TAILS)}` : of(URLS)
    const id = `r${requests.length}`
    requests.push({ id, ...(group ? { atomicityGroup: group } : {}), dependsOn, method: of(METHODS), url })
  }
  for (let unit = Math.floor(random() * 6); unit >= 0; unit--) {
    const group = random() < CHANCE_OF_GROUP ? `g${unit}` : undefined
    for (let more = group ? Math.floor(random() * 3) : 0; more >= 0; more--) add(group)
  }
  return { requests }
}

/** An outcome for each request of a batch. */
function outcomesOf(random, { requests }) {
  return { outcomes: requests.map(({ id }) => ({ id, status: STATUSES[Math.floor(random() * STATUSES.length)] })) }
}

module.exports = { batchOf, lending, outcomesOf, randomFrom }
