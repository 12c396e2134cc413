'use strict'

// Where requests lead: the base, references to URLs and ETags, and what is outside of the service.

const assert = require('node:assert/strict')
const { test } = require('node:test')
const { perform } = require('..')
const { batch, responsesOf, statusesOf } = require('./performing.js')

const BASE = 'http://h/odata/'
const JSON_TYPE = { 'Content-Type': 'application/json' }

const PLACES = [
  ['http://h/odata/Orders(7)', 'http://h/odata/Orders(7)'],
  ['Orders(7)', 'http://h/odata/Orders(7)'],
  ['/odata/Orders(7)//', 'http://h/odata/Orders(7)'],
  ['Orders(7)?api-version=2#x', 'http://h/odata/Orders(7)'],
  ['//h/odata/Orders(7)', 'http://h/odata/Orders(7)'],
]

for (const [location, place] of PLACES) {
  test(`follows a reference to ${location}`, async () => {
    const urls = []
    const line = ['l', 'get', '$o/Lines?$top=1', { dependsOn: ['o'] }]
    const document = batch(['o', 'post', 'Orders'], line, ['m', 'get', '$metadata'])
    await perform(document, ({ url }) => urls.push(url) && { status: 201, headers: { Location: location } }, { base: BASE })
    assert.deepEqual(urls, [`${BASE}Orders`, `${place}/Lines?$top=1`, `${BASE}$metadata`])
  })
}

// What a request and its answer are, and what a reference to it means, without a base.
const REFERENCES = [
  [['a', 'get', 'Orders(7)?$select=Id'], { status: 200 }, 'Orders(7)'],
  [['a', 'put', '/odata/Orders(7)/'], { status: 204 }, '/odata/Orders(7)'],
  [['a', 'post', 'Orders'], { status: 201, headers: { 'OData-EntityId': 'Orders(8)' } }, 'Orders(8)'],
  [['a', 'post', 'X/Orders'], { status: 201, headers: { Location: 'Orders(8)' } }, 'X/Orders(8)'],
  [['a', 'post', '/odata/Orders'], { status: 201, headers: { Location: 'Orders(8)' } }, '/odata/Orders(8)'],
  [['a', 'post', 'Orders'], { status: 201, headers: { Location: '/o/Orders(8)' } }, '/o/Orders(8)'],
  [['a', 'post', 'http://h/o/Orders'], { status: 201, headers: { Location: 'Orders(8)' } }, 'http://h/o/Orders(8)'],
  [['a', 'post', 'Orders'], { status: 201, headers: { Location: 'http://h/Orders(8)' } }, 'http://h/Orders(8)'],
  [['a', 'post', 'Copy'], { status: 200, headers: JSON_TYPE, body: Buffer.from('{"@id":"Orders(9)"}') }, 'Orders(9)'],
  [['a', 'post', 'Copy'], { status: 200, body: { '@odata.id': 'Orders(9)' } }, 'Orders(9)'],
  [['a', 'post', 'X/Copy'], { status: 200, body: { '@id': 'Orders(9)', '@context': '/o/$metadata#Orders' } }, '/o/Orders(9)'],
]

for (const [request, answer, place] of REFERENCES) {
  test(`resolves ${request[1]} ${request[2]} to ${place}`, async () => {
    let found
    const document = batch(request, ['b', 'get', '$a/Ref', { dependsOn: ['a'] }])
    const send = ({ id, url }) => {
      found = url
      return id === 'a' ? answer : { status: 200 }
    }
    assert.deepEqual(await statusesOf(document, send), { a: answer.status, b: 200 })
    assert.equal(found, `${place}/Ref`)
  })
}

test('answers 424 where nothing says what was created', async () => {
  const document = batch(['a', 'post', 'Copy'], ['b', 'get', '$a', { dependsOn: ['a'] }])
  for (const body of [undefined, Buffer.from('<p>'), { '@id': 7 }, null, [1]]) {
    const [, second] = responsesOf(await perform(document, () => ({ status: 200, headers: JSON_TYPE, body })))
    assert.deepEqual([second.status, second.body.error.code, second.body.error.target], [424, 'NoLocation', 'a'])
  }
})

const TAGS = [
  [{ headers: { ETag: 'W/"7"' } }, 'W/"7"'],
  [{ body: { '@etag': '"8"' } }, '"8"'],
  [{ headers: JSON_TYPE, body: Buffer.from('{"@odata.etag":"W/\\"9\\""}') }, 'W/"9"'],
]

for (const [answer, tag] of TAGS) {
  test(`replaces a reference to the ETag ${tag}`, async () => {
    for (const name of ['If-Match', 'If-None-Match']) {
      let found
      const patch = { dependsOn: ['a'], headers: { [name]: '$a' }, body: {} }
      const document = batch(['a', 'get', 'A'], ['b', 'patch', '$a', patch])
      const send = ({ id, headers }) => {
        found = headers[name.toLowerCase()]
        return { status: 200, ...(id === 'a' ? answer : {}) }
      }
      assert.deepEqual(await statusesOf(document, send), { a: 200, b: 200 })
      assert.equal(found, tag)
    }
  })
}

test('answers a reference to an ETag that there is not, and passes on what is not a reference', async () => {
  const given = (value) => batch(['a'], ['b', 'delete', 'A', { dependsOn: ['a'], headers: { 'if-match': value } }], ['c'])
  const send = ({ headers }) => ({ status: headers['if-match']?.startsWith('$') ? 412 : 200 })
  for (const [value, status] of [['$a', 424], ['$c', 400], ['$other', 412]]) {
    assert.deepEqual(await statusesOf(given(value), send), { a: 200, b: status, c: 200 })
  }
})

const INSIDE = [
  'Books', '/odata/Books', 'http://h/odata/Books', 'HTTP://H:80/odata/Books', '//h/odata/Books', './Books', '/%6fdata/Books',
]
const OUTSIDE = [
  '/admin', '../admin', '%2e%2e/admin', '..%2fadmin', 'a/..%5c..%5cadmin', '..;/admin', '/odata',
  '//169.254.169.254/odata/', 'http://169.254.169.254/', 'https://h/odata/Books', 'http://h:81/odata/Books', '\\\\other\\odata\\',
  'file:///odata/Books', 'http://h@other/odata/', 'http://u:p@h/odata/Books', 'http://u@h/odata/Books', 'Books%00', 'Books%0d%0aX',
]

test('keeps requests in the service of the base', async () => {
  const urls = [...INSIDE, ...OUTSIDE]
  const document = batch(...urls.map((url, k) => [`r${k}`, 'get', url]))
  const found = Object.values(await statusesOf(document, () => ({ status: 200 }), { base: BASE }))
  assert.deepEqual(urls.filter((_, k) => found[k] === 200), INSIDE)
  assert.deepEqual(new Set(found), new Set([200, 404]))
})

test('keeps a Location from leading out of the service', async () => {
  const document = batch(['a', 'post', 'A'], ['b', 'get', '$a', { dependsOn: ['a'] }])
  const send = () => ({ status: 201, headers: { Location: 'http://169.254.169.254/latest' } })
  assert.deepEqual(await statusesOf(document, send, { base: BASE }), { a: 201, b: 404 })
})

test('goes further than the base where the roots allow it', async () => {
  const document = batch(['a', 'get', '/other/A'], ['b', 'get', 'http://x/B'])
  const send = () => ({ status: 200 })
  assert.deepEqual(await statusesOf(document, send, { base: BASE, roots: ['http://h/'] }), { a: 200, b: 404 })
  assert.deepEqual(await statusesOf(document, send, { base: BASE, roots: [BASE, 'http://x/'] }), { a: 404, b: 200 })
  assert.deepEqual(await statusesOf(document, send, { base: BASE, roots: [] }), { a: 200, b: 200 })
})

test('answers 400 to a URL that cannot be read', async () => {
  const document = batch(['a', 'get', 'http://'], ['b', 'get', 'http://[x]/'])
  assert.deepEqual(await statusesOf(document, () => assert.fail('sent'), { base: BASE, roots: [] }), { a: 400, b: 400 })
})
