'use strict'

// Batches that are sent in parts are answered as those that are sent whole, up to a part that fails.

const assert = require('node:assert/strict')
const { test } = require('node:test')
const { check, match, replay } = require('..')
const { Batch } = require('../client/index.js')
const { batchOf, outcomesOf, randomFrom } = require('./batches.js')
const { batch: described } = require('./performing.js')

const BATCHES = 150

/** Outcomes in which each request that has succeeded has made something, as references in later parts need. */
function locatedOf({ outcomes }) {
  return outcomes.map((it) => ({ ...it, headers: { Location: `https://host/s/Made(${it.id})`, ETag: `"${it.id}"` } }))
}

/** A service that answers by outcomes, keeps what it is posted, and breaks as a script says: a call for each part, or none. */
class Service {
  parts = []
  #outcomes
  #mode
  #limit
  #script

  constructor(outcomes, mode, limit, script = []) {
    this.#outcomes = outcomes
    this.#mode = mode
    this.#limit = limit
    this.#script = script
  }

  post = async ({ body }) => {
    const { requests } = JSON.parse(body)
    assert(check(body).requests <= this.#limit)
    this.parts.push(requests)
    const broken = this.#script[this.parts.length - 1]
    if (broken) return broken()
    const ids = new Set(requests.map(({ id }) => id))
    const outcomes = this.#outcomes.filter(({ id }) => ids.has(id))
    return { status: 200, body: replay(body, { outcomes }, { mode: this.#mode }).response }
  }
}

/** What a batch is answered in parts of at most so many requests: the statuses, the error, and the parts. */
async function inParts(document, outcomes, { mode, limit, script }) {
  const service = new Service(outcomes, mode, limit, script)
  const results = await Batch.read(document).send(service.post, { limit, mode })
  return { statuses: new Map(Array.from(results, ({ id, status }) => [id, status])), results, parts: service.parts }
}

/** The greatest group of a batch, or 1. */
function leastLimit({ requests }) {
  const count = (group) => requests.filter(({ atomicityGroup }) => atomicityGroup === group).length
  return Math.max(1, ...requests.filter((it) => it.atomicityGroup).map((it) => count(it.atomicityGroup)))
}

/** Random batches with outcomes, and what each is answered whole. */
function* examples(mode) {
  for (let seed = 0; seed < BATCHES; seed++) {
    const random = randomFrom(seed * 10 + 7)
    const document = batchOf(random)
    const outcomes = locatedOf(outcomesOf(random, document))
    const whole = match(document, replay(document, { outcomes }, { mode }).response)
    yield { seed, random, document, outcomes, whole }
  }
}

for (const mode of ['continue', 'stop']) {
  test(`is answered in parts as a whole, in mode ${mode}`, async () => {
    let most = 0
    for (const { seed, document, outcomes, whole } of examples(mode)) {
      const least = leastLimit(document)
      for (const limit of [least, least + 1, 10000]) {
        const { statuses, results, parts } = await inParts(document, outcomes, { mode, limit })
        assert.deepEqual([statuses, results.error], [whole, undefined], `seed ${seed}, limit ${limit}`)
        const sent = parts.flat().map(({ id }) => id)
        assert.equal(new Set(sent).size, sent.length)
        most = Math.max(most, parts.length)
      }
    }
    assert(most > 3)
  })

  test(`keeps what was answered before a part that fails, in mode ${mode}`, async () => {
    const busy = () => ({ status: 503, headers: { 'Retry-After': '7' }, body: 'busy' })
    for (const { seed, random, document, outcomes, whole } of examples(mode)) {
      const limit = leastLimit(document)
      const { parts: planned } = await inParts(document, outcomes, { mode, limit })
      const at = Math.floor(random() * planned.length)
      const script = [...planned.slice(0, at).map(() => undefined), busy]
      const { statuses, results, parts } = await inParts(document, outcomes, { mode, limit, script })
      const [before, broken] = [parts.slice(0, at).flat(), parts[at].map(({ id }) => id)]
      for (const { id } of before) assert.equal(statuses.get(id), whole.get(id), `seed ${seed}`)
      assert.deepEqual([parts.length, planned.slice(0, at + 1)], [at + 1, parts])
      for (const id of broken) assert.deepEqual([statuses.get(id), results.get(id).headers['retry-after']], [503, '7'])
      const sent = new Set(parts.flat().map(({ id }) => id))
      for (const [id, status] of statuses) if (!sent.has(id)) assert.equal(status, 424, `seed ${seed}`)
    }
  })
}

/** What throws an error with some members. */
function throwing(members) {
  return () => {
    throw Object.assign(new Error('as planned'), members)
  }
}

const OF_OTHERS = '{"responses":[{"id":"z","status":200}]}'

// How a part is not answered, and what its requests are answered then.
const BROKEN = [
  ['a timeout', throwing({ name: 'TimeoutError' }), 504, Error],
  ['a fetch that a signal has ended', throwing({ name: 'AbortError' }), 504, Error],
  ['a code of a timeout', throwing({ cause: { code: 'UND_ERR_HEADERS_TIMEOUT' } }), 504, Error],
  ['another error', throwing({}), 502, Error],
  ['responses to another batch', () => ({ status: 200, body: OF_OTHERS }), 502, Error],
  ['responses that are cut', () => ({ status: 200, body: '{"responses":[{"id":"b","status":200}' }), 502, Error],
  ['too few responses', () => ({ status: 200, body: '{"responses":[]}' }), 502, Error],
  ['no body', () => ({ status: 204 }), 502, Error],
  ['nothing', () => undefined, 502, TypeError],
  ['a status that is none', () => ({ status: 'ok' }), 502, TypeError],
  ['a status that may not be reported', () => ({ status: 99 }), 502, undefined],
  ['a redirection', () => ({ status: 302, headers: { Location: '/login' } }), 302, undefined],
]

test('answers for parts that are not answered', async () => {
  const document = described(['a'], ['b'], ['c'], ['d', 'get', 'A', { dependsOn: ['a'] }])
  const outcomes = document.requests.map(({ id }) => ({ id, status: 200 }))
  for (const [name, broken, status, kind] of BROKEN) {
    const { statuses, results, parts } = await inParts(document, outcomes, { limit: 1, script: [undefined, broken] })
    assert.deepEqual([...statuses.values()], [200, status, 424, 424], name)
    assert.deepEqual([parts.length, kind ? results.error instanceof kind : results.error], [2, kind ? true : undefined], name)
  }
})

test('sends groups as a whole, and refuses one that has no place', async () => {
  const grouped = (id, more = {}) => [id, 'post', 'A', { atomicityGroup: 'g', body: 1, ...more }]
  const inner = { dependsOn: ['b'], headers: { 'if-match': '$b' } }
  const document = described(['a'], grouped('b'), grouped('c', inner), ['d'])
  const outcomes = document.requests.map(({ id }) => ({ id, status: 200 }))
  const { parts } = await inParts(document, outcomes, { limit: 2 })
  assert.deepEqual(parts.map((part) => part.map(({ id }) => id)), [['a'], ['b', 'c'], ['d']])
  assert.deepEqual([parts[1][1].dependsOn, parts[1][1].headers], [inner.dependsOn, inner.headers])
  const batch = Batch.read(document)
  const post = () => assert.fail('sent')
  for (const options of [{ limit: 1 }, { limit: 0 }, { limit: 1.5 }, { limit: 10001 }, { limit: '2' }, { mode: 'half' }]) {
    await assert.rejects(batch.send(post, options), RangeError)
  }
  for (const options of [{ limits: 1 }, 7]) await assert.rejects(batch.send(post, options), TypeError)
  await assert.rejects(batch.send('https://host/$batch'), TypeError)
  await assert.rejects(new Batch().send(post).then(({ size }) => assert.equal(size, 7)), { name: 'AssertionError' })
})

// What a request is answered, and what a reference to it becomes in a later part.
const ANSWERS = [
  ['a location', { headers: { Location: 'Orders(5)' } }, 'post', 'Orders(5)/Lines'],
  ['an absolute one', { headers: { 'odata-entityid': 'https://h/s/Orders(5)/?x' } }, 'post', 'https://h/s/Orders(5)/Lines'],
  ['a body', { body: { '@odata.context': 'https://h/s/$metadata', '@id': 'Orders(5)' } }, 'post', 'https://h/s/Orders(5)/Lines'],
  ['a get', {}, 'get', 'Orders/Lines'],
  ['nothing', {}, 'post', undefined],
  ['an empty location', { headers: { Location: '' } }, 'post', undefined],
  ['an empty one, and another', { headers: { Location: '', 'OData-EntityId': 'Orders(5)' } }, 'post', 'Orders(5)/Lines'],
  ['a reference', { headers: { Location: '$2' } }, 'post', undefined],
  ['an encoded one', { headers: { Location: '%242' } }, 'post', undefined],
  ['what is none yet', { headers: { Location: '$all' } }, 'post', undefined],
  ['a batch', { headers: { Location: '/odata/$batch' } }, 'post', undefined, ''],
]

test('stops at a request that a service has answered 424, but not at one that was skipped', async () => {
  const document = described(['a'], ['b', 'get', 'A', { dependsOn: ['a'] }], ['c'], ['d'])
  for (const [of, expected] of [[[304, 200, 424, 200], [304, 424, 424, 424]], [[304, 200, 200, 200], [304, 424, 200, 200]]]) {
    const outcomes = document.requests.map(({ id }, at) => ({ id, status: of[at] }))
    for (const limit of [1, 2]) {
      const { statuses } = await inParts(document, outcomes, { limit, mode: 'stop' })
      assert.deepEqual([...statuses.values()], expected)
    }
  }
})

test('replaces references to earlier parts', async () => {
  for (const [name, answer, method, expected, tail = '/Lines'] of ANSWERS) {
    const batch = new Batch()
    const order = batch.request(method, 'Orders')
    const line = batch.get(`${order}${tail}`)
    const urls = []
    const results = await batch.send(({ body }) => {
      const [{ id, url, dependsOn }] = JSON.parse(body).requests
      urls.push(url)
      assert.equal(dependsOn, undefined)
      return { status: 200, body: { responses: [{ id, status: 200, ...answer }] } }
    }, { limit: 1 })
    assert.deepEqual(urls, ['Orders', expected].filter(Boolean), name)
    assert.equal(results.get(line).status, expected ? 200 : 424)
    if (!expected) assert.equal(results.get(line).json().error.code, 'NoLocation')
  }
})

test('cuts more than a thousand requests into longer parts first', async () => {
  const requests = Array.from({ length: 1200 }, (_, at) => {
    const [id, before] = [`r${at}`, `r${at - 1}`]
    return at % 3 === 0 ? [id, 'post', 'A'] : [id, 'get', at % 3 === 1 ? `$${before}/B` : 'C', { dependsOn: [before] }]
  })
  const document = described(...requests)
  const answeredBy = (statusOf) => locatedOf({ outcomes: document.requests.map(({ id }, at) => ({ id, status: statusOf(at) })) })
  const outcomes = answeredBy((at) => (at % 300 === 0 ? 404 : 200))
  for (const mode of ['continue', 'stop']) {
    const whole = match(document, replay(document, { outcomes }, { mode }).response)
    const { statuses, parts } = await inParts(document, outcomes, { mode, limit: 50 })
    assert.deepEqual(statuses, whole)
    assert.deepEqual(parts.map(({ length }) => length).filter((length) => length > 50), [])
  }
  const busy = () => ({ status: 503 })
  const { statuses, parts } = await inParts(document, answeredBy(() => 200), { limit: 50, script: [undefined, busy] })
  assert.deepEqual([parts.length, new Set([...statuses.values()].slice(50))], [2, new Set([503, 424])])
})

test('sends what comes before a request that cannot be sent, and what comes after it', async () => {
  const document = described(
    ['a', 'post'], ['b'], ['c'], ['d', 'get', '$a/Lines', { dependsOn: ['a'] }], ['e', 'get', 'A', { dependsOn: ['c'] }],
    ['f', 'patch', 'A', { headers: { 'if-match': '$d' }, body: 1 }],
  )
  const outcomes = document.requests.map(({ id }) => ({ id, status: 200 }))
  const { statuses, results, parts } = await inParts(document, outcomes, { limit: 2 })
  assert.deepEqual(parts.map((part) => part.map(({ id }) => id)), [['a', 'b'], ['c'], ['e']])
  assert.deepEqual([...statuses.values()], [200, 200, 200, 424, 200, 400])
  assert.equal(results.get('f').json().error.code, 'NoETag')
})

test('shows bodies as they are on the wire', async () => {
  const batch = Batch.read(described(['a'], ['b'], ['c'], ['d'], ['e'], ['f'], ['g']))
  const responses = [
    '"id":"a","status":200,"body": {"Price": 1.50, "No": 12345678901234567890, "x": "\\"]}"} ',
    '"body":"\\u00e9","id":"b","headers":{"Content-Type":"text/plain;charset=iso-8859-1"},"status":200',
    '"id":"c","status":200,"body":"_-8","headers":{"content-type":"image/png"}',
    '"id":"d","status":200,"headers":{"content-type":"text/plain;charset=us-ascii","Age":7,"Via":null,"Odd":{}},"body":"\\u00e9"',
    '"id":"e","status":204,"body":null',
    '"id":"g","status":200,"headers":{"content-type":"image/png"},"body":"A"',
    '"id":"\\u0066","status":200,"more":[[],{}, "]"],"headers":{"content-type":"image/png"},"body":[1.0]',
  ]
  const body = `\ufeff{"other":{"a":[1,"}"]},"responses": [{${responses.join('},\n{')} }]}`
  const results = await batch.send(() => ({ status: 200, body: Buffer.from(body) }))
  const found = Array.from(results, (it) => it.body)
  const bytes = (...values) => Buffer.from(values)
  const expected = [Buffer.from('{"Price": 1.50, "No": 12345678901234567890, "x": "\\"]}"}'), bytes(0xe9), bytes(255, 239)]
  assert.deepEqual(found, [...expected, Buffer.from('é'), bytes(), Buffer.from('[1.0]'), Buffer.from('A')])
  assert.deepEqual(results.get('d').headers, { 'content-type': 'text/plain;charset=us-ascii', age: '7' })
})

test('takes ten thousand requests, each of which refers to the one before', async () => {
  const batch = new Batch()
  for (let at = 0, last = 'A'; at < 10000; at++) last = `${batch.get(last)}/B`
  const post = ({ body }) => {
    const { requests } = JSON.parse(body)
    return { status: 200, body: { responses: requests.map(({ id }) => ({ id, status: 200, headers: { Location: `/B(${id})` } })) } }
  }
  const begun = process.cpuUsage()
  for (const limit of [10000, 9999, 1000]) {
    const results = await batch.send(post, { limit })
    assert(Array.from(results).every(({ ok }) => ok))
  }
  assert(process.cpuUsage(begun).user < 6e7)
})
