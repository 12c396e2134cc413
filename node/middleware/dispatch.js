'use strict'

// Has an app answer requests in this process: a handler of node:http over connections that only keep what is written.

const { IncomingMessage, ServerResponse } = require('node:http')
const { Duplex } = require('node:stream')
const { finalStatus, validateAnswer } = require('../http/messages.js')

// What a handler may ask of the connection of a client.
const OF_CONNECTION = ['authorized', 'encrypted', 'localAddress', 'localPort', 'remoteAddress', 'remoteFamily', 'remotePort']
const CALLS_WITHOUT_EFFECT = ['ref', 'setKeepAlive', 'setNoDelay', 'setTimeout', 'unref']

// How many bytes of a head are not counted.
const MOST_OF_HEAD = 65536
const END_OF_HEAD = '\r\n\r\n'
const HTTP = { httpVersion: '1.1', httpVersionMajor: 1, httpVersionMinor: 1 }
// A head that begins with `HTTP/1.1 1` is followed by the final one.
const [FIRST_DIGIT, ONE] = ['HTTP/1.1 '.length, '1'.charCodeAt(0)]

/** A connection that looks like that of the client, and keeps what is written to it as long as there is room for the body. */
class MemorySocket extends Duplex {
  #parts = []
  #budget
  #readsOnly
  // How many bytes were written, where among them the final head begins and ends, and how many are taken of the budget.
  #size = 0
  #begin = 0
  #head
  #taken = 0
  #isKept = false

  /** Why there was no room for the body, or undefined. */
  shortage

  /** If the request only reads, an answer for which there is no room is of no use, and the connection ends. */
  constructor(outer, budget, readsOnly) {
    super({ writableHighWaterMark: Number.MAX_SAFE_INTEGER }) // no write waits: a server would say when it may go on
    this.outer = outer
    this.#budget = budget
    this.#readsOnly = readsOnly
    if (outer.getPeerCertificate) this.getPeerCertificate = outer.getPeerCertificate.bind(outer)
  }

  _read() {}

  _write(part, _encoding, done) {
    if (this.#head === undefined) this.#findHead(part)
    this.#size += part.length
    if (this.shortage !== undefined) return done()
    this.#parts.push(part)
    const more = this.#size - (this.#head ?? Math.min(this.#size, MOST_OF_HEAD)) - this.#taken
    if (more > 0 && !this.#budget.take(more)) return this.#cut(more, done)
    this.#taken += more
    done()
  }

  /** Is closed when the handler ends it, as that of a client is. */
  _final(done) {
    done()
    this.destroy()
  }

  _destroy(error, done) {
    if (!this.#isKept) this.#giveBack()
    done(error)
  }

  /** The final answer; undefined if there is no whole head. */
  answer() {
    if (this.#head === undefined) return undefined
    const written = this.#parts.length === 1 ? this.#parts[0] : Buffer.concat(this.#parts)
    const { status, headers } = parseHead(written.toString('latin1', this.#begin, this.#head - END_OF_HEAD.length))
    const rest = written.subarray(this.#head)
    const body = /\bchunked$/i.test(headers['transfer-encoding']) ? joinChunks(rest) : rest
    return { status, headers, body }
  }

  /** Has the body of the answer stay in the budget. Else all that is taken is given back at the end of the connection. */
  keep(body) {
    this.#isKept = true
    if (body.length < this.#taken) this.#budget.giveBack(this.#taken - body.length)
  }

  /** Finds the end of the final head. A response writes each head at once. */
  #findHead(part) {
    for (let from = 0; ; ) {
      const end = part.indexOf(END_OF_HEAD, from)
      if (end < 0) return
      const isFinal = part[from + FIRST_DIGIT] !== ONE
      from = end + END_OF_HEAD.length
      if (isFinal) {
        this.#head = this.#size + from
        return
      }
      this.#begin = this.#size + from
    }
  }

  /** Keeps the head alone. */
  #cut(more, done) {
    this.shortage = this.#budget.shortage(more)
    this.#giveBack()
    this.#parts = [Buffer.concat(this.#parts).subarray(0, this.#head ?? 0)]
    done(this.#readsOnly ? this.shortage : null)
  }

  #giveBack() {
    this.#budget.giveBack(this.#taken)
    this.#taken = 0
  }
}

// On the prototype, since a connection is made for each request.
for (const name of OF_CONNECTION) {
  Object.defineProperty(MemorySocket.prototype, name, {
    get() {
      return this.outer[name]
    },
    set(value) {
      Object.defineProperty(this, name, { value, writable: true })
    },
  })
}
for (const name of CALLS_WITHOUT_EFFECT) {
  MemorySocket.prototype[name] = function call() {
    return this
  }
}

/** A head: its status and its headers by their names in lower case, with those of one name joined by commas. */
function parseHead(text) {
  const [first, ...lines] = text.split('\r\n')
  const headers = { __proto__: null } // so that each name is free
  for (const line of lines) {
    const at = line.indexOf(':')
    const [name, value] = [line.slice(0, at).toLowerCase(), line.slice(at + 1).trim()]
    headers[name] = name in headers ? `${headers[name]}, ${value}` : value
  }
  return { status: Number(first.split(' ')[1]), headers }
}

/** The body in chunks. */
function joinChunks(bytes) {
  const parts = []
  for (let at = 0; ; ) {
    const end = bytes.indexOf('\r\n', at)
    const size = parseInt(bytes.toString('latin1', at, end), 16)
    if (end < 0 || !(size > 0)) return Buffer.concat(parts)
    parts.push(bytes.subarray(end + 2, end + 2 + size))
    at = end + 2 + size + 2
  }
}

/**
 * A class of node:http with the prototype that an app has for its objects, or the class itself if the app has none. An app of
 * Express gives its prototypes to all requests and responses. If that changes the prototype of an object, V8 gives it a hidden
 * class of its own with the next new member, and every access to its members misses all caches: 40 percent of the time of a batch.
 *
 * Today the classes are functions, which may be called for an object that is there. `Reflect.construct` would make such an object
 * as well, in 50 times the time. So where they are classes of the language, apps have to change the prototypes.
 */
function withPrototype(Class, prototype) {
  if (!(prototype instanceof Class) || /^class\b/.test(Function.prototype.toString.call(Class))) return Class
  function OfApp(given) {
    Class.call(this, given)
  }
  Object.setPrototypeOf(OfApp, Class) // V8 leaves as much room for properties as in the class
  OfApp.prototype = prototype
  return OfApp
}

/** The request as a handler reads it. */
function makeRequest(Request, socket, { method, url, headers, body = Buffer.alloc(0) }) {
  const all = body.length > 0 ? { ...headers, 'content-length': String(body.length) } : headers
  const rawHeaders = []
  for (const name in all) rawHeaders.push(name, all[name])
  const req = Object.assign(new Request(socket), { method, url, headers: all, rawHeaders }, HTTP)
  req.push(body)
  req.push(null)
  req.complete = true
  return req
}

/** The response that a handler writes to a connection, which ends with it. */
function makeResponse(Response, req, socket) {
  const res = new Response(req)
  res.shouldKeepAlive = false
  res.assignSocket(socket)
  return res
}

/** Whether a request changes nothing, so that its answer may be given up. */
function isRead({ method }) {
  return method === 'GET' || method === 'HEAD'
}

/** An answer whose body is too long: a refusal if the request only reads. Else it was performed, and loses the body. */
function dropBody(request, { status, headers }, shortage) {
  if (isRead(request)) throw shortage
  return { status, headers, shortage }
}

/** An error by which no whole answer came. */
function brokenConnection(message) {
  return Object.assign(new Error(message), { code: 'ECONNRESET' })
}

/** The answer in what a handler has written, or an error if it is not whole. */
function readWritten(socket, request) {
  const answer = socket.answer()
  if (answer === undefined) throw brokenConnection('the handler wrote no head')
  const { headers, body } = answer
  const status = finalStatus(answer.status)
  if (socket.shortage !== undefined) return dropBody(request, { status, headers }, socket.shortage)
  const announced = headers['content-length']
  const hasBody = request.method !== 'HEAD' && status !== 204 && status !== 304
  if (hasBody && announced !== undefined && Number(announced) !== body.length) {
    throw brokenConnection(`the handler announced ${announced} bytes, and wrote ${body.length}`)
  }
  socket.keep(body)
  return { status, headers, body }
}

/**
 * Returns a function that has a handler answer a request. It is given the connection of the client, the request, the budget for the
 * body of the answer, and the wait for it, whose end closes the connection of the handler.
 *
 * It is fulfilled with the answer, without its body if there was no room for it; a GET is rejected at once then. It is rejected,
 * too, if the handler throws before it has answered, ends the connection in place of an answer, or writes another number of bytes
 * than it has announced. What a handler holds may wait until its request and its response are closed, so both are in the end.
 */
function dispatcher(handler) {
  const [Request, Response] = [withPrototype(IncomingMessage, handler.request), withPrototype(ServerResponse, handler.response)]
  return (client, request, budget, wait) => new Promise((resolve, reject) => {
    const socket = new MemorySocket(client, budget, isRead(request))
    const req = makeRequest(Request, socket, request)
    const res = makeResponse(Response, req, socket)
    const cut = () => {
      req.destroy()
      reject(brokenConnection('the handler ended the connection'))
    }
    res.on('close', cut)
    res.on('finish', () => {
      res.off('close', cut)
      try {
        resolve(readWritten(socket, request))
      } catch (error) {
        reject(error)
      }
      if (req.readableFlowing === null) req.resume() // nobody reads the body
      process.nextTick(() => socket.destroy())
    })
    for (const emitter of [res, socket]) emitter.on('error', reject)
    const end = (reason) => {
      reject(reason)
      socket.destroy()
    }
    // V8 keeps a function among its old objects that is assigned to a member where it is written. All that it holds would outlive the
    // request, until these are collected.
    wait.onEnd = end
    new Promise((done) => done(handler(req, res))).catch((error) => {
      if (res.writableEnded) return
      reject(error)
      socket.destroy()
    })
  })
}

/** Has an app answer requests by its own call for that, as Fastify has one. */
function injector(app) {
  return async ({ remoteAddress }, { method, url, headers, body }, budget, wait) => {
    const injected = await app.inject({ method, url, headers, payload: body, remoteAddress })
    if (wait.reason !== undefined) throw wait.reason // nobody waits for it any more
    const { statusCode: status, rawPayload } = injected
    const answer = await validateAnswer({ status, headers: injected.headers, body: rawPayload })
    return budget.take(rawPayload.length) ? answer : dropBody({ method }, answer, budget.shortage(rawPayload.length))
  }
}

/** Has an app answer requests in this process: a function of a client, a request, the budget for its answer, and the wait for it. */
function appCaller(app) {
  if (typeof app === 'function') return dispatcher(app)
  if (typeof app?.inject === 'function') return injector(app)
  throw new TypeError('the app must be a handler of node:http, or have inject')
}

module.exports = { appCaller, dispatcher, isRead }
