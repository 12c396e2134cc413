'use strict'

// A $batch over HTTP, before a handler of node:http and before an app of Express.

const assert = require('node:assert/strict')
const { AsyncLocalStorage } = require('node:async_hooks')
const net = require('node:net')
const { once } = require('node:events')
const { IncomingMessage, ServerResponse } = require('node:http')
const { Readable } = require('node:stream')
const { test } = require('node:test')
const { Refusal } = require('..')
const { batch: mounted } = require('../middleware/index.js')
const { batch } = require('./performing.js')
const { CONTINUES, JSON_TYPE, MOUNTS, PATH, express, listening, serving } = require('./serving.js')

const LONG = 'x'.repeat(3000)
const storage = new AsyncLocalStorage()
const closed = []

async function textOf(req) {
  const parts = []
  for await (const part of req) parts.push(part)
  return Buffer.concat(parts).toString()
}

// What a handler does, by the path of the request.
const ROUTES = {
  echo: async (req, res) => {
    const { method, url, headers, socket } = req
    const body = await textOf(req)
    res.setHeader('Content-Type', 'application/json')
    res.end(JSON.stringify({ method, url, headers, body, address: socket.remoteAddress, group: storage.getStore() }))
  },
  status: (req, res) => res.writeHead(Number(new URL(req.url, 'http://h').searchParams.get('is'))).end(),
  text: (req, res) => res.writeHead(200, { 'Content-Type': 'text/plain; charset=iso-8859-1' }).end(Buffer.from('é', 'latin1')),
  image: (req, res) => res.writeHead(200, 'Fine', { 'Content-Type': 'image/png' }).end(Buffer.from([255, 239])),
  stream: async (req, res) => {
    res.setHeader('Content-Type', 'text/plain')
    for (const part of ['a', 'b', 'c']) {
      res.write(part)
      await new Promise((resolve) => setTimeout(resolve, 2))
    }
    res.end()
  },
  chunked: (req, res) => {
    res.writeHead(200, { 'Content-Type': 'text/plain', 'Transfer-Encoding': 'chunked' })
    res.write('first, ')
    res.end('second')
  },
  coded: (req, res) => {
    res.writeHead(200, { 'Content-Type': 'text/plain', 'Transfer-Encoding': 'Chunked' })
    res.end('by its name')
  },
  hints: (req, res) => {
    res.writeEarlyHints({ link: '</a.css>; rel=preload' })
    res.writeHead(200, { 'Content-Type': 'text/plain' }).end('final')
  },
  twice: (req, res) => {
    res.setHeader('Set-Cookie', ['x=1', 'y=2'])
    res.setHeader('Vary', ['a', 'b'])
    res.end()
  },
  closing: (req, res) => {
    res.on('close', () => closed.push(req.url))
    res.end()
  },
  letting: (req, res) => {
    req.on('close', () => closed.push(`${req.url} ${req.aborted}`))
    res.end()
  },
  piped: (req, res) => {
    res.setHeader('Content-Type', 'text/plain')
    Readable.from(['a', 'b', 'c'].map((it) => Buffer.from(it.repeat(70000)))).pipe(res)
  },
  secure: (req, res) => {
    req.socket.encrypted = true
    res.end(String(req.socket.encrypted))
  },
  named: (req, res) => {
    res.setHeader('Constructor', 'x')
    res.end()
  },
  long: (req, res) => {
    res.writeHead(req.method === 'GET' ? 200 : 201, { 'Content-Type': 'text/plain', Location: '7' })
    res.end(LONG)
  },
  throws: () => {
    throw new Error('as planned')
  },
  rejects: async (req) => {
    await textOf(req)
    throw new Error('as planned')
  },
  hangs: () => {},
  cuts: (req) => req.socket.destroy(),
  leaves: (req) => {
    req.on('close', () => closed.push(req.url))
    req.socket.end()
  },
  cutsFirst: (req, res) => {
    req.socket.destroy()
    res.end('over')
  },
  cutsLast: (req, res) => {
    res.end('over')
    req.socket.destroy()
  },
  throwsLast: (req, res) => {
    res.end('over')
    throw new Error('as planned')
  },
  rejectsLast: async (req, res) => {
    await textOf(req)
    res.end('over')
    throw new Error('as planned')
  },
  late: (req, res) => {
    res.end('over')
    res.write('more')
  },
}

function handler(req, res) {
  const [, name] = /^\/(?:odata\/)?(\w*)/.exec(req.url)
  return (ROUTES[name] ?? ((_, other) => other.writeHead(404).end()))(req, res)
}

/** A test before each kind of handler. */
function everywhere(name, options, use) {
  for (const mount of Object.keys(MOUNTS)) {
    const skip = mount === 'express' && express() === undefined && 'express is not installed'
    test(`${mount}: ${name}`, { skip }, () => serving(mount, handler, options, (service) => use(service, mount)))
  }
}

/** The statuses of responses. */
function statusesOf(responses) {
  return Object.fromEntries(Object.entries(responses).map(([id, { status }]) => [id, status]))
}

everywhere('passes on what is not a batch', {}, async ({ origin }) => {
  for (const path of ['/odata/status?is=204', '/odata/$batches', '/$batch', '/odata/$batch/']) {
    assert.equal((await fetch(origin + path)).status, path.includes('204') ? 204 : 404)
  }
})

everywhere('takes a batch however its path is encoded', {}, async ({ origin }) => {
  const body = JSON.stringify(batch(['a', 'get', 'status?is=204']))
  for (const path of ['/odata/%24batch', '/odata/$batch?x=1']) {
    const answer = await fetch(origin + path, { method: 'POST', headers: JSON_TYPE, body })
    assert.equal((await answer.json()).responses[0].status, 204)
  }
})

// What fetch adds to the headers of a request.
const OF_FETCH = ['accept-language', 'cache-control', 'pragma', 'sec-fetch-mode']

const GROUP = JSON.stringify(batch(['a', 'get', 'echo', { atomicityGroup: 'g' }]))

everywhere('answers what is not a batch by an error object', { maxSize: 200, limit: 2 }, async ({ origin, post }) => {
  const refused = async (answer, status, code, headers = {}) => {
    const { error } = await answer.json()
    assert.deepEqual([answer.status, error.code, answer.headers.get('odata-version')], [status, code, '4.01'])
    assert.equal(answer.headers.get('content-type'), 'application/json')
    for (const [name, value] of Object.entries(headers)) assert.equal(answer.headers.get(name), value)
    return error
  }
  await refused(await fetch(origin + PATH), 405, 'NotAllowed', { allow: 'POST' })
  const multipart = await post('x', { 'content-type': 'multipart/mixed; boundary=b' })
  await refused(multipart, 415, 'BadMediaType', { accept: 'application/json' })
  const fault = await refused(await post('{"requests":[{"id":"a"}]}'), 400, 'F14')
  assert.equal(fault.target, '/requests/0')
  assert.match(fault.message, /^a: \w+: \S/)
  await refused(await post(GROUP), 501, 'NoGroups')
  await refused(await post(JSON.stringify(batch(['a'], ['b'], ['c']))), 413, 'BatchTooLong')
  await refused(await post(' '.repeat(201)), 413, 'TooLong', { connection: 'close' })
  const body = new Blob([' '.repeat(201)]).stream() // without a Content-Length
  const chunked = await fetch(origin + PATH, { method: 'POST', headers: JSON_TYPE, body, duplex: 'half' })
  await refused(chunked, 413, 'TooLong', { connection: 'close' })
})

for (const host of ['a b', 'a:99999', '1.2.3.256', '[::::]']) {
  everywhere(`answers the host ${host}, which is none`, {}, async ({ port }) => {
    const socket = net.connect(port, '127.0.0.1')
    const document = JSON.stringify(batch(['a']))
    const head = [`POST ${PATH} HTTP/1.1`, `Host: ${host}`, 'Content-Type: application/json']
    socket.end([...head, `Content-Length: ${document.length}`, '', document].join('\r\n'))
    const [answer] = await once(socket, 'data')
    assert.match(answer.toString(), /^HTTP\/1.1 400 [^]*BadHost/)
  })
}

// What a client prefers, and what a request after a failure is answered.
const PREFERENCES = [
  ['', 424],
  ['respond-async', 424],
  ['continue-on-error=false', 424],
  ['x="a, continue-on-error"', 424],
  ['continue-on-error', 204],
  ['Continue-On-Error=TRUE', 204],
  ['return=minimal, odata.continue-on-error="true"', 204],
]

everywhere('performs nothing of a batch that is cut', {}, async ({ port, post, errors }) => {
  closed.length = 0
  const document = JSON.stringify(batch(['a', 'get', 'closing']))
  const head = [`POST ${PATH} HTTP/1.1`, 'Host: h', 'Content-Type: application/json', `Content-Length: ${document.length + 1}`]
  const socket = net.connect(port, '127.0.0.1')
  socket.write([...head, '', document].join('\r\n'))
  await once(socket, 'ready')
  socket.destroy()
  await post(document)
  assert.deepEqual([closed, errors], [['/odata/closing'], []])
})

everywhere('stops at the first error unless the client prefers to continue', {}, async ({ post }) => {
  const document = JSON.stringify(batch(['a', 'get', 'status?is=404'], ['b', 'get', 'status?is=204']))
  for (const [prefer, expected] of PREFERENCES) {
    const answer = await post(document, prefer ? { ...JSON_TYPE, prefer } : JSON_TYPE)
    assert.equal((await answer.json()).responses[1].status, expected, prefer)
    assert.equal(answer.headers.get('preference-applied'), expected === 204 ? 'continue-on-error' : null)
  }
})

everywhere('hands requests to the handler with what they inherit', {}, async ({ origin, responses }) => {
  const own = { Accept: 'text/x', 'User-Agent': 'own', Prefer: 'return=minimal' }
  const document = batch(['a', 'patch', 'echo?x=a b', { headers: own, body: { p: 1 } }])
  const outer = {
    ...JSON_TYPE, authorization: 'Bearer 1', cookie: 'c=1', traceparent: '00', accept: 'application/json', 'if-match': '"1"',
    'x-http-method-override': 'DELETE', 'x-method-override': 'DELETE',
    prefer: 'continue-on-error, odata.maxpagesize=5', 'content-language': 'de',
    'user-agent': 'outer',
  }
  const { a } = await responses(document, outer)
  const { host, ...headers } = a.body.headers
  for (const name of OF_FETCH) delete headers[name]
  assert.deepEqual(headers, {
    authorization: 'Bearer 1', cookie: 'c=1', traceparent: '00', accept: 'text/x', 'user-agent': 'outer',
    prefer: 'return=minimal, odata.maxpagesize=5', 'content-type': 'application/json', 'content-length': '7',
  })
  assert.deepEqual([a.body.method, a.body.url, a.body.body], ['PATCH', '/odata/echo?x=a%20b', '{"p":1}'])
  assert.deepEqual([`http://${host}`, a.body.address.endsWith('127.0.0.1')], [origin, true])
})

everywhere('takes no header away that Connection names', {}, async ({ port }) => {
  const document = JSON.stringify(batch(['a', 'get', 'echo']))
  const named = ['Authorization: Bearer 1', 'X-Forwarded-For: 9.9.9.9', 'Connection: close, Authorization, X-Forwarded-For']
  const head = [`POST ${PATH} HTTP/1.1`, 'Host: h', 'Content-Type: application/json', ...named]
  const socket = net.connect(port, '127.0.0.1')
  socket.end([...head, `Content-Length: ${document.length}`, '', document].join('\r\n'))
  const { headers } = JSON.parse(/\{"responses".*/.exec(await textOf(socket))[0]).responses[0].body
  assert.deepEqual([headers.authorization, headers['x-forwarded-for'], headers.connection], ['Bearer 1', '9.9.9.9', undefined])
})

everywhere('refuses headers by which a proxy may say who the client is', { allowed: ['X-Tenant'] }, async ({ responses }) => {
  const names = ['X-Forwarded-For', 'X-Remote-User', 'Authorization', 'X-Tenant', 'If-Match', 'Content-Length', 'Host']
  const document = batch(...names.map((name, k) => [`r${k}`, 'get', 'echo', { headers: { [name]: '1' } }]), [
    'bad', 'get', 'echo', { headers: { Accept: 'a\r\nX-Remote-User: root' } },
  ])
  const found = await responses(document)
  assert.deepEqual(Object.values(statusesOf(found)), [400, 400, 400, 200, 200, 200, 200, 400])
  assert.deepEqual([found.r0.body.error.code, found.r0.body.error.target], ['HeaderNotAllowed', 'x-forwarded-for'])
  assert.equal(found.bad.body.error.code, 'BadHeader')
})

// Headers that usual clients give each request.
const OF_CLIENTS = [
  'traceparent', 'tracestate', 'X-Request-ID', 'X-Correlation-ID', 'client-request-id', 'X-CSRF-Token', 'X-Requested-With',
  'sap-contextid', 'SAP-Client',
]

everywhere('passes on what usual clients give each request', {}, async ({ responses }) => {
  const document = batch(...OF_CLIENTS.map((name, k) => [`r${k}`, 'get', 'echo', { headers: { [name]: `own ${k}` } }]))
  const found = await responses(document, { ...CONTINUES, traceparent: 'outer' })
  const names = OF_CLIENTS.map((name) => name.toLowerCase())
  assert.deepEqual(names.map((name, k) => found[`r${k}`].body.headers[name]), names.map((_, k) => `own ${k}`))
  assert.equal(found.r1.body.headers.traceparent, 'outer')
})

const OF_CONNECTION = ['Accept-Encoding', 'Connection', 'Content-Length', 'Host']
const USUALLY_DROPPED = ['Cache-Control', 'Date', 'Pragma', 'User-Agent']
const ALL_SET = Object.fromEntries([...OF_CONNECTION, ...USUALLY_DROPPED].map((name) => [name, '7']))

everywhere('drops headers that clients set by themselves', {}, async ({ errors, responses }) => {
  const document = batch(['a', 'get', 'echo'], ['b', 'get', 'echo', { headers: ALL_SET }])
  const { a, b } = await responses(document, { ...CONTINUES, 'user-agent': 'of the batch' })
  assert.deepEqual([b, b.status, errors], [a, 200, []])
})

everywhere('passes such headers on if they are allowed', { allowed: USUALLY_DROPPED }, async ({ responses }) => {
  const { a, b } = await responses(batch(['a', 'get', 'echo'], ['b', 'get', 'echo', { headers: ALL_SET }]))
  const own = Object.fromEntries(USUALLY_DROPPED.map((name) => [name.toLowerCase(), '7']))
  assert.deepEqual(b.body.headers, { ...a.body.headers, ...own })
})

everywhere('says once in the log which header is not allowed', {}, async ({ errors, responses }) => {
  const names = ['X-Tenant', 'x-tenant', 'X-Other', ...Array.from({ length: 200 }, (_, k) => `X-${k}`)]
  const document = batch(...names.map((name, k) => [`r${k}`, 'get', 'echo', { headers: { [name]: '1' } }]))
  for (let k = 0; k < 2; k++) assert.deepEqual(new Set(Object.values(statusesOf(await responses(document)))), new Set([400]))
  assert.equal(errors.length, 100) // clients choose names, so the log has not all of them
  const said = errors.slice(0, 2).map(([{ message }, what]) => [message, what.split(' (')[0]])
  const refused = (name) => `A request of a batch may not have the header ${name}`
  assert.deepEqual(said, [[refused('x-tenant'), 'the request r0'], [refused('x-other'), 'the request r2']])
})

const seen = []

/** Notes what it sees, and refuses what is below `secret`. */
async function inspect({ id, method, url, headers, body, group }) {
  seen.push([id, method, new URL(url).pathname, headers.authorization, headers['x-request-id'], body?.toString(), group])
  if (decodeURIComponent(new URL(url).pathname).includes('/secret')) throw new Refusal(403, 'Denied', 'not in a batch')
}

everywhere('has a function see each request before it is dispatched, which may refuse it', { inspect }, async ({ responses }) => {
  seen.length = 0
  const own = { headers: { 'X-Request-ID': '7' }, body: { p: 1 } }
  const document = batch(['a', 'post', 'echo', own], ['b', 'get', '%73ecret/x'], ['c', 'get', 'echo', { headers: { 'X-No': '1' } }])
  const found = await responses(document, { ...CONTINUES, authorization: 'Bearer 1' })
  assert.deepEqual(statusesOf(found), { a: 200, b: 403, c: 400 })
  assert.deepEqual(seen, [
    ['a', 'POST', '/odata/echo', 'Bearer 1', '7', '{"p":1}', null],
    ['b', 'GET', '/odata/%73ecret/x', 'Bearer 1', undefined, undefined, null],
  ])
})

test('sends nothing that was inspected for too long, or until the batch was stopped', async () => {
  closed.length = 0
  const document = batch(['a', 'get', 'closing'], ['b', 'get', 'closing'])
  const controller = new AbortController()
  const stopping = { stop: controller.signal, inspect: async () => controller.abort() }
  await serving('node:http', handler, stopping, async ({ responses }) => {
    assert.deepEqual(statusesOf(await responses(document)), { a: 424, b: 424 })
  })
  const waits = []
  const slow = { timeout: 50, inspect: () => new Promise((resolve) => waits.push(resolve)) }
  await serving('node:http', handler, slow, async ({ responses }) => {
    assert.deepEqual(statusesOf(await responses(document)), { a: 504, b: 504 })
    for (const resolve of waits) resolve()
    await new Promise(setImmediate)
  })
  assert.deepEqual(closed, [])
})

everywhere('keeps requests below the root', { root: '/odata/' }, async ({ origin, responses }) => {
  const inside = ['status?is=204', '/odata/status?is=204', `${origin}/odata/status?is=204`, './status?is=204']
  const outside = ['/status', '../status', '%2e%2e/status', 'http://169.254.169.254/', '//other/odata/status']
  const urls = [...inside, ...outside]
  const found = Object.values(statusesOf(await responses(batch(...urls.map((url, k) => [`r${k}`, 'get', url])))))
  assert.deepEqual(found, [...inside.map(() => 204), ...outside.map(() => 404)])
})

everywhere('takes URLs with the scheme and the host of a proxy for its own', {}, async ({ origin, responses }) => {
  const origins = ['https://public', 'http://a.b:81', origin.replace('http', 'https')]
  const document = batch(...origins.map((it, k) => [`r${k}`, 'get', `${it}/odata/status?is=204`]))
  const headers = { ...CONTINUES, 'x-forwarded-host': 'public, b@d, a:99999', forwarded: 'for=x;host="a.b:81"' }
  assert.deepEqual(statusesOf(await responses(document, headers)), { r0: 204, r1: 204, r2: 204 })
  assert.deepEqual(statusesOf(await responses(document)), { r0: 404, r1: 404, r2: 204 })
})

everywhere('compares URLs with no more hosts than there are proxies', {}, async ({ responses }) => {
  const many = Array.from({ length: 500 }, (_, k) => `h${k}`)
  const document = batch(['a', 'get', 'http://h15/odata/status?is=204'], ['b', 'get', 'http://h16/odata/status?is=204'])
  for (const headers of [{ 'x-forwarded-host': many.join() }, { forwarded: many.map((host) => `host=${host}`).join() }]) {
    assert.deepEqual(statusesOf(await responses(document, { ...CONTINUES, ...headers })), { a: 204, b: 404 })
  }
})

everywhere('reaches what a wider root has', { root: '/' }, async ({ responses }) => {
  assert.deepEqual(statusesOf(await responses(batch(['a', 'get', '/status?is=204']))), { a: 204 })
})

everywhere('has no batch in a batch, at a path of another name either', { path: '/odata/many' }, async ({ origin }) => {
  const body = JSON.stringify(batch(['a', 'post', 'many', { body: {} }], ['b', 'post', 'm%61ny', { body: {} }]))
  const answer = await fetch(`${origin}/odata/many`, { method: 'POST', headers: CONTINUES, body })
  assert.deepEqual((await answer.json()).responses.map((it) => it.body.error.code), ['NestedBatch', 'NestedBatch'])
})

everywhere('shows answers however they are written', {}, async ({ responses }) => {
  const names = ['text', 'image', 'stream', 'chunked', 'coded', 'hints', 'twice', 'late']
  const found = await responses(batch(...names.map((name) => [name, 'get', name]), ['none', 'get', 'status?is=204']))
  const bodies = ['é', '_-8', 'abc', 'first, second', 'by its name', 'final', undefined, 'over']
  assert.deepEqual(names.map((name) => found[name].body), bodies)
  assert.deepEqual([found.twice.headers.vary, found.twice.headers['set-cookie']], ['a, b', undefined])
  assert.deepEqual(new Set(Object.values(statusesOf(found))), new Set([200, 204]))
})

everywhere('closes a response, so that a handler lets go what it holds', {}, async ({ responses }) => {
  closed.length = 0
  await responses(batch(['a', 'get', 'closing?1'], ['b', 'get', 'closing?2']))
  assert.deepEqual(closed, ['/odata/closing?1', '/odata/closing?2'])
})

everywhere('closes a request whose body nobody reads', {}, async ({ responses }) => {
  closed.length = 0
  await responses(batch(['a', 'put', 'letting', { body: 7 }], ['b', 'get', 'letting']))
  await new Promise((resolve) => setImmediate(resolve))
  assert.deepEqual(closed, ['/odata/letting false', '/odata/letting false'])
})

everywhere('takes a long answer that is piped', { timeout: 2000 }, async ({ responses }) => {
  const { a } = await responses(batch(['a', 'get', 'piped']))
  assert.deepEqual([a.status, a.body.length], [200, 210000])
})

everywhere('has a handler say that its connection is secure', {}, async ({ responses }) => {
  const { a } = await responses(batch(['a', 'get', 'secure']))
  assert.deepEqual([a.status, a.body], [200, true])
})

everywhere('shows a header of any name', {}, async ({ responses }) => {
  assert.equal((await responses(batch(['a', 'get', 'named']))).a.headers.constructor, 'x')
})

everywhere('keeps an answer whatever comes after it', { width: 8 }, async ({ responses }, mount) => {
  const ofPromises = mount === 'express' ? [] : ['rejectsLast'] // Express 4 does not look at promises
  const names = ['cutsLast', 'throwsLast', ...ofPromises]
  const found = await responses(batch(...names.map((name) => [name, 'get', name])))
  assert.deepEqual(names.map((name) => [found[name].status, found[name].body]), names.map(() => [200, 'over']))
})

everywhere('answers for a handler that ends its connection', { timeout: 2000, width: 8 }, async ({ responses }) => {
  closed.length = 0
  const found = await responses(batch(...['leaves', 'cutsFirst'].map((name) => [name, 'get', name])))
  assert.deepEqual(statusesOf(found), { leaves: 502, cutsFirst: 502 })
  assert.deepEqual(closed, ['/odata/leaves'])
})

everywhere('answers what handlers do wrong', { timeout: 1000, width: 8 }, async ({ responses, errors }, mount) => {
  const names = ['throws', 'cuts', 'hangs', ...(mount === 'express' ? [] : ['rejects'])] // Express 4 does not look at promises
  const found = await responses(batch(...names.map((name) => [name, 'get', name])))
  const expected = { throws: 500, cuts: 502, hangs: 504, ...(mount === 'express' ? {} : { rejects: 500 }) }
  assert.deepEqual(statusesOf(found), expected)
  const own = mount === 'express' ? 1 : 0 // Express answers what is thrown by itself
  assert.equal(errors.length, names.length - own)
})

everywhere('limits what the answers have together', { maxSize: 7000, width: 1 }, async ({ responses }) => {
  const names = ['a', 'b', 'c', 'd']
  const long = names.map((id) => [id, id === 'd' ? 'post' : 'get', 'long'])
  const found = await responses(batch(...long, ['e', 'get', 'status?is=204']))
  assert.deepEqual(statusesOf(found), { a: 200, b: 200, c: 507, d: 201, e: 204 })
  assert.deepEqual([found.b.body, found.d.body, found.d.headers.location], [LONG, undefined, '7'])
})

everywhere('reads a body of a request as a whole', {}, async ({ responses }) => {
  const text = 'y'.repeat(1000000)
  const { a } = await responses(batch(['a', 'put', 'echo', { headers: { 'Content-Type': 'text/plain' }, body: text }]))
  assert.equal(a.body.body, text)
})

const transaction = (group, body) => storage.run(group, body)

everywhere('has handlers in the transaction of a group', { transaction }, async ({ responses }) => {
  const document = batch(['a', 'post', 'echo', { atomicityGroup: 'g', body: 1 }], ['b', 'get', 'echo'])
  const { a, b } = await responses(document)
  assert.deepEqual([a.body.group, b.body.group], ['g', undefined])
})

everywhere('follows references to what a handler has made', { root: '/' }, async ({ responses }) => {
  const document = batch(['a', 'post', 'long', { body: 1 }], ['b', 'get', '$a/x?y', { dependsOn: ['a'] }])
  assert.deepEqual(statusesOf(await responses(document)), { a: 201, b: 404 })
})

const WITHOUT_EXPRESS = { skip: express() === undefined && 'express is not installed' }

for (const [parser, status] of [['raw', 200], ['text', 200], ['json', 500]]) {
  test(`express: takes what its parser ${parser} has left of a body`, WITHOUT_EXPRESS, async () => {
    const errors = []
    const options = { path: PATH, log: (error) => errors.push(error.message) }
    const app = express()().use(express()[parser]({ type: '*/*' }))
    await listening(app.use(mounted(app, options)).use(handler), async ({ post }) => {
      const answer = await post(JSON.stringify(batch(['a', 'get', 'status?is=204'])))
      const expected = ['a parser has read the body of the batch: batch() has to come before it']
      assert.deepEqual([answer.status, errors], [status, status === 200 ? [] : expected])
    })
  })
}

test('express: is found in a folder of the app', WITHOUT_EXPRESS, async () => {
  const app = express()()
  app.use('/odata', mounted(app, { path: PATH })).use(handler)
  await listening(app, async ({ post }) => {
    const answer = await post(JSON.stringify(batch(['a', 'get', 'status?is=204'])))
    assert.equal((await answer.json()).responses[0].status, 204)
  })
})

test('makes requests and responses with the prototypes that an app has for them', async () => {
  const found = []
  const app = (req, res) => res.end(String(found.push([req.own, res.own])))
  app.request = Object.create(IncomingMessage.prototype, { own: { value: 'of the app' } })
  app.response = { own: 'no prototype for responses' }
  for (const expected of [['of the app', undefined], ['of the app', 7]]) {
    await listening(mounted(app, { path: PATH }), async ({ post }) => {
      const { responses } = await (await post(JSON.stringify(batch(['a'])))).json()
      assert.deepEqual([responses[0].status, found.pop()], [200, expected])
    })
    app.response = Object.create(ServerResponse.prototype, { own: { value: 7 } })
  }
})

test('has an app answer by its own call for that, as Fastify has one', async () => {
  const asked = []
  const app = {
    async inject({ method, url, payload }) {
      asked.push([method, url, payload.toString()])
      return { statusCode: 201, headers: { 'content-type': 'application/json' }, rawPayload: Buffer.from('{"p":1.50}') }
    },
  }
  const answer = mounted(app, { path: PATH })
  await listening((req, res) => answer(req, res, () => res.writeHead(404).end()), async ({ origin, post }) => {
    const found = await (await post(JSON.stringify(batch(['a', 'post', 'Books', { body: 7 }])))).text()
    assert.match(found, /^\{"responses":\[\{"body":\{"p":1.50\},.*"id":"a","status":201\}\]\}$/)
    assert.deepEqual(asked, [['POST', '/odata/Books', '7']])
    assert.equal((await fetch(`${origin}/odata/Books`)).status, 404)
  })
})

test('limits what an app answers by its own call', async () => {
  const headers = { 'content-type': 'text/plain' }
  const app = { inject: async ({ method }) => ({ statusCode: method === 'GET' ? 200 : 201, headers, rawPayload: Buffer.from(LONG) }) }
  const answer = mounted(app, { path: PATH, maxSize: 5000, log: () => {} })
  await listening((req, res) => answer(req, res, () => res.writeHead(404).end()), async ({ post }) => {
    const { responses } = await (await post(JSON.stringify(batch(['a', 'get', 'x'], ['b', 'get', 'x'], ['c', 'post', 'x'])))).json()
    assert.deepEqual(responses.map(({ status, body }) => [status, body?.length]), [[200, 3000], [507, undefined], [201, undefined]])
  })
})

test('refuses options that have none of their values', () => {
  assert.throws(() => mounted({}), TypeError)
  const paths = [{ path: 'odata' }, { root: '/odata' }, { root: 'odata/' }]
  const numbers = [{ maxSize: -1 }, { memory: 7.5 }, { memory: 7, maxSize: 8 }, { timeout: 0 }, { deadline: -1 }, { limit: -1 }]
  const wrong = [...paths, ...numbers, { maxsize: 7 }, { mode: 'stop' }, { allowed: ['Host'] }, { transaction: 7 }, { inspect: 7 }, { onRequest: 7 }]
  for (const options of wrong) {
    assert.throws(() => mounted(handler, options), TypeError)
  }
  assert.throws(() => mounted(handler, { width: 0 }), RangeError)
  mounted(handler, { maxSize: 300000000 })
})
