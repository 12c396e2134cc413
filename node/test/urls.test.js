'use strict'

// Where the URLs of requests lead: the table that C, Python and Node share, and what messages say.

const assert = require('node:assert/strict')
const { existsSync, readFileSync } = require('node:fs')
const { join } = require('node:path')
const { test } = require('node:test')
const { perform } = require('..')
const { targetsOf } = require('../http/targets.js')
const { batch, responsesOf } = require('./performing.js')

const TABLE = [process.env.URL_CASES, join(__dirname, '../../tests/support/urls.json')].find((it) => it && existsSync(it))
const { cases } = TABLE === undefined ? { cases: [] } : JSON.parse(readFileSync(TABLE, 'utf8'))

const BASE = 'http://host/odata/'

test('has a table', { skip: TABLE === undefined && 'the repository is not there' }, () => {
  assert(cases.length > 300)
})

/** The URL as it is sent: roots as `URL` writes them begin it. */
function sentBelow(roots, target) {
  const root = roots.find((it) => target.startsWith(it))
  return new URL(root).href + target.slice(root.length)
}

/** What a request of a case is answered, and the URLs to which it was sent. */
async function found({ base = BASE, roots, url, location, rest, method = 'post' }) {
  const sent = []
  const send = (request) => {
    sent.push(request.url)
    return { status: 201, headers: location ? { Location: location } : {} }
  }
  const own = [['a', method, 'Orders'], ['r', 'get', `$a${rest}`, { dependsOn: ['a'] }]]
  const requests = rest === undefined ? [['r', 'get', url]] : own
  const responses = responsesOf(await perform(batch(...requests), send, { base, roots }))
  return [responses.at(-1).status, sent.slice(requests.length - 1)]
}

for (const it of cases) {
  const { base = BASE, roots = [base], target } = it
  test(`sends ${JSON.stringify(it)}`, async () => {
    assert.deepEqual(await found(it), target === undefined ? [404, []] : [201, [sentBelow(roots, target)]])
  })
}

test('sends long URLs', () => {
  for (const length of [900, 1006, 1007, 100000]) assert.equal(targetsOf(BASE).target('a'.repeat(length)), BASE + 'a'.repeat(length))
  assert.equal(targetsOf(BASE).target('\u00e4'.repeat(5000)), BASE + '%C3%A4'.repeat(5000))
})

test('refuses half of a surrogate pair', () => {
  for (const base of ['http://host/', '']) {
    assert.throws(() => targetsOf(base).target('http://host/\ud800'), { name: 'Refusal', code: 'BadUrl' })
  }
})

for (const [url, hasHint] of [['/Orders', true], ['/odata/../x', false], ['//evil/x', false], ['../x', false]]) {
  test(`answers what to drop of ${url}`, async () => {
    const [{ status, body }] = responsesOf(await perform(batch(['a', 'get', url]), () => assert.fail(), { base: 'http://host/odata/' }))
    const expected = `The URL leads out of the service${hasHint ? ': drop the / that it begins with' : ''}`
    assert.deepEqual([status, body.error.message], [404, expected])
  })
}

test('takes as a root what has a host and no user information', () => {
  for (const url of ['http://u@host/', 'http://u:p@host/', '/odata/', 'file:///odata/', 'http://host/?/', 'http://host/#/']) {
    assert.throws(() => targetsOf(url), TypeError)
    assert.throws(() => targetsOf('http://host/', [url]), TypeError)
  }
})

test('sends the roots in ASCII', () => {
  const [root, sent] = ['http://HOST:80/B\u00fccher [x]|/', 'http://host/B%C3%BCcher%20%5Bx%5D%7C/']
  assert.equal(targetsOf(root).target('Books'), `${sent}Books`)
  assert.throws(() => targetsOf('http://host/a%0Ahttp://evil/').target('http://evil/Books'), { name: 'Refusal' })
})

test('takes an @id as relative to its context, which may lie beside the roots', () => {
  const targets = targetsOf(BASE)
  const below = (place, context) => targets.below(`${BASE}Orders`, place, context, '/Lines')
  const wanted = `${BASE}Orders(7)/Lines`
  assert.equal(below('Orders(7)', '$metadata#Orders'), wanted)
  assert.equal(below('odata/Orders(7)', '/$metadata'), wanted)
  assert.equal(below(wanted.slice(0, -6), 'http://evil/$metadata'), wanted)
  const outside = [['Orders(7)', 'http://evil/odata/$metadata'], ['Orders(7)', '/$metadata'], ['../Orders(7)', '$metadata']]
  for (const [place, context] of outside) {
    assert.throws(() => below(place, context), { code: 'NotFound' })
  }
})
