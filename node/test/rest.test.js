'use strict'

// The rest of a batch: what may be sent again, and what takes the place of references.

const assert = require('node:assert/strict')
const { test } = require('node:test')
const { check, match, output, plan, requests, rest } = require('..')
const { Batch } = require('../client/index.js')
const { batchOf, outcomesOf, randomFrom } = require('./batches.js')
const { Service } = require('./scripted.js')

const BATCH =
  '{"requests":[{"id":"a","method":"post","url":"A"},' +
  '{"id":"b","dependsOn":["a"],"method":"put","url":"$a/B","headers":{"If-Match":"$a"},"body":1.50}]}'
const LEFT = '{"requests":[{"body":1.50,"headers":{"if-match":"7"},"id":"b","method":"put","url":"A(1)/B"}]}'

/** A response document with these statuses, and headers of the first. */
function responses(statuses, headers) {
  return { responses: Object.entries(statuses).map(([id, status], at) => ({ id, status, headers: at === 0 ? headers : undefined })) }
}

test('replaces references by the Location and the ETag that were answered', () => {
  const made = { Age: 7, ETAG: '7', LOCATION: 'A(1)', location: 'A(2)' }
  assert.equal(rest(BATCH, responses({ a: 201, b: 503 }, made)).toString(), LEFT)
  for (const headers of [undefined, {}, { Location: 7 }, { Location: '$b' }]) {
    const fault = { name: 'Fault', message: 'F90 NoLocation /requests/1' }
    assert.throws(() => rest(BATCH, responses({ a: 201, b: 503 }, headers)), fault)
  }
  for (const etag of [undefined, 7]) {
    const fault = { name: 'Fault', message: 'F91 NoETag /requests/1' }
    assert.throws(() => rest(BATCH, responses({ a: 201, b: 503 }, { Location: 'A(1)', ETag: etag })), fault)
  }
})

test('reads what a service that stops has left out', () => {
  assert.equal(requests(rest(BATCH, responses({ a: 503 }), { mode: 'stop' })).length, 2)
  assert.throws(() => rest(BATCH, responses({ a: 503 })), { message: 'F73 ResponseMissing /requests/1' })
  assert.throws(() => rest(BATCH, responses({ a: 503 }), { mode: 'half' }), RangeError)
  assert.throws(() => rest(BATCH, responses({ a: 503 }), { width: 1 }), TypeError)
  assert.equal(rest(BATCH, responses({ a: 201, b: 200 })).toString(), '{"requests":[]}')
})

test('prints the rest of a batch', () => {
  const made = responses({ a: 201, b: 503 }, { Location: 'A(1)', ETag: '7' })
  for (const form of ['json', 'lines']) {
    const { accepted, text } = output('rest', BATCH, made, { form })
    assert.deepEqual([accepted, text.toString()], [true, `${LEFT}\n`])
  }
  const { accepted, text } = output('rest', BATCH, responses({ a: 201, b: 503 }), { form: 'lines' })
  assert.deepEqual([accepted, text.toString()], [false, 'fault F90 NoLocation /requests/1\n'])
})

function restAfter(batch, script, options) {
  return batch.send(new Service(script).post, options).then((results) => results.rest())
}

function idsOf(batch) {
  return JSON.parse(batch.document()).requests.map(({ id }) => id)
}

/** The statuses by which each method may be sent again. */
const AGAIN = { get: [408, 424, 429, 502, 503, 504], put: [408, 424, 429, 502, 503, 504], delete: [408, 424, 429, 502, 503, 504], post: [424, 429, 503], patch: [424, 429, 503] }

test('has what failed for now', async () => {
  for (const [method, again] of Object.entries(AGAIN)) {
    const found = []
    for (const status of [200, 204, 304, 400, 404, 408, 409, 412, 424, 425, 429, 500, 502, 503, 504, 507]) {
      const batch = new Batch()
      batch.request(method, 'A')
      if (await restAfter(batch, { 1: status })) found.push(status)
    }
    assert.deepEqual(found, again, method)
  }
})

/** A batch with a throttled request, one that fails for good, a group of each kind, and what depends on them. */
function library() {
  const batch = new Batch()
  const a = batch.post('A', { Price: 9 }, { id: 'a' })
  batch.post('B', {}, { id: 'throttled', after: a })
  batch.get(`${a}/C`, { after: 'throttled', id: 'behind' })
  batch.get('D', { id: 'gone' })
  batch.get('E', { after: ['gone', a], id: 'never' })
  batch.group(() => {
    batch.post(`${a}/F`, undefined, { id: 'f1' })
    batch.post('F', undefined, { id: 'f2', after: ['behind', 'f1'] })
  }, { id: 'busy' })
  batch.group(() => {
    batch.post('G', undefined, { id: 'g1' })
    batch.post('G', undefined, { id: 'g2' })
  }, { id: 'lost' })
  const h1 = batch.post('H', undefined, { id: 'h1' })
  batch.patch(`${h1}/I`, {}, { id: 'i', after: ['busy'], headers: { 'If-Match': h1 } })
  batch.get('J', { id: 'j', after: ['lost'] })
  return batch
}

for (const limit of [2, 3, 20]) {
  test(`is sent until nothing is left, ${limit} requests at once`, async () => {
    const service = new Service({ throttled: [429, 201], gone: 404, f2: [503, 201], g2: 409 })
    const left = (await library().send(service.post, { limit })).rest()
    assert.deepEqual([idsOf(left), left.check()], [['throttled', 'behind', 'f1', 'f2', 'i'], { requests: 5, groups: 1 }])
    const found = Object.fromEntries(JSON.parse(left.document()).requests.map((it) => [it.id, it]))
    assert.deepEqual([found.throttled.dependsOn, found.behind.dependsOn], [undefined, ['throttled']])
    assert.deepEqual([found.behind.url, found.f1.url, found.f2.dependsOn], ["/Made('a')/C", "/Made('a')/F", ['behind', 'f1']])
    assert.deepEqual([found.i.url, found.i.headers['if-match'], found.i.dependsOn], ["/Made('h1')/I", '"1"', ['busy']])
    const second = await left.send(service.post)
    assert.deepEqual([Array.from(second, ({ status }) => status), second.retryAfter], [[201, 200, 424, 503, 424], 1])
    const third = second.rest()
    assert.deepEqual(idsOf(third), ['f1', 'f2', 'i'])
    const last = await third.send(service.post)
    assert.deepEqual([Array.from(last, ({ ok }) => ok), last.rest(), last.retryAfter], [[true, true, true], null, 0])
  })
}

test('keeps the references of the batch, and gives no name twice', async () => {
  const batch = new Batch()
  const [first, second] = [batch.post('A', {}), batch.post('B', {})]
  const left = await restAfter(batch, { 2: 429 })
  const third = left.get(`${second}/C`, { after: second })
  assert.deepEqual([third.id, left.check()], ['3', { requests: 2, groups: 0 }])
  const results = await left.send(new Service({ 2: 201 }).post)
  assert.deepEqual([results.get(second).status, results.get(first)], [201, undefined])
  const again = (await left.send(new Service({ 2: 503 }).post)).rest()
  assert.equal(again.get('D').id, '4')
  assert.throws(() => new Batch().get('E', { after: second }), RangeError)
})

test('keeps the digits of bodies, and what conditions refer to in the rest', async () => {
  const batch = new Batch()
  const first = batch.put('A', Buffer.from('{"Price": 9.990, "Sum": 1e2}'))
  batch.patch('B', {}, { headers: { 'If-Match': first, 'If-None-Match': '$other' } })
  const left = (await restAfter(batch, { 1: 503 })).document().toString()
  assert(left.includes('"body":{"Price": 9.990, "Sum": 1e2}'))
  const { headers } = JSON.parse(left).requests[1]
  assert.deepEqual([headers['if-match'], headers['if-none-match']], ['$1', '$other'])
})

const LACKS = [
  [{}, '$a/B', 'b refers to a, which was answered without a Location'],
  [{ Location: '/A(1)' }, 'B', 'b refers to a, which was answered without an ETag'],
  [{ Location: '$b', ETag: '7' }, '$a', 'b refers to a, whose Location cannot be used: '],
  [{ Location: '/v1/$batch', ETag: '7' }, '$a', 'b refers to a, whose Location cannot be used: /v1/$batch'],
]

test('refuses a reference that stands for nothing', async () => {
  for (const [headers, url, message] of LACKS) {
    const batch = new Batch()
    const a = batch.post('A', {}, { id: 'a' })
    batch.get(url, { id: 'b', headers: { 'If-Match': a } })
    const results = await batch.send(new Service({ a: { status: 201, headers }, b: 503 }).post)
    assert.throws(() => results.rest(), (error) => error instanceof RangeError && error.message.startsWith(message), message)
  }
})

test('refers to what was read by its own URL', async () => {
  const batch = new Batch()
  batch.patch(batch.get('A(1)'), {})
  const [{ url }] = JSON.parse((await restAfter(batch, { 2: 503 })).document()).requests
  assert.equal(url, 'A(1)')
})

test('has the greatest time to wait', async () => {
  const answered = async (...values) => {
    const batch = new Batch()
    const script = values.map((value, at) => [batch.get('A', { id: `r${at}` }).id, { status: 503, headers: { 'Retry-After': value } }])
    return (await batch.send(new Service(Object.fromEntries(script)).post)).retryAfter
  }
  assert.equal(await answered('5', '7', 'soon', new Date(Date.now() - 99000).toUTCString(), '1.5', '\u0663'), 7)
  for (const none of ['', ' ', '-1', '1e5', 'inf', 'Mon, 01 Jan 99999999999 00:00:00 GMT', '2999-01-01']) assert.equal(await answered(none), 0, none)
  assert.equal(await answered('9'.repeat(400)), 2 ** 31)
  const later = new Date(Date.now() + 100000)
  const [day, date, month, year, time] = later.toUTCString().replace(',', '').split(' ')
  for (const text of [later.toUTCString(), `${day} ${month} ${date} ${time} ${year}`]) {
    const seconds = await answered(text)
    assert(seconds > 90 && seconds <= 100, text)
  }
})

test('has what may be sent again of random batches', async () => {
  for (let seed = 0; seed < 100; seed++) {
    const random = randomFrom(seed * 10 + 3)
    const document = batchOf(random)
    const { outcomes } = outcomesOf(random, document)
    const script = outcomes.map((it) => {
      const failed = it.status < 300 ? it.status : [404, 408, 409, 429, 502, 503, 504][Math.floor(random() * 7)]
      return [it.id, { status: failed, headers: { Location: `Made(${it.id})`, ETag: '7' } }]
    })
    const results = await Batch.read(document).send(new Service(Object.fromEntries(script)).post)
    const left = results.rest() ?? new Batch()
    check(left.document())
    assert.deepEqual(results.left.map(({ id }) => id), idsOf(left))
    const planned = plan(document).filter(({ id }) => idsOf(left).includes(id))
    assert.deepEqual(plan(left.document()).map(({ id, group }) => [id, group]), planned.map(({ id, group }) => [id, group]))
    for (const it of plan(left.document())) for (const id of it.needs) assert(planned.some((other) => [other.id, other.group].includes(id)))
    const again = await left.send(new Service().post)
    assert([...again].every(({ ok }) => ok), `seed ${seed}`)
    assert.equal(again.rest(), null)
    match(document, { responses: Array.from(results, ({ id, status }) => ({ id, status, atomicityGroup: groupOf(document, id) })) })
  }
})

function groupOf({ requests }, id) {
  return requests.find((it) => it.id === id).atomicityGroup
}
