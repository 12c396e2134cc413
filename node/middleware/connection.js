'use strict'

// The connection of a client that has sent a batch: the body of its request, and its answer.

const { Refusal } = require('../errors/refusals.js')
const { busyRefusal } = require('./body_budget.js')

// For how long the bytes of a batch are waited for.
const MOST_MILLISECONDS = 30000

/** The client of a batch. Once it has left nothing more is started for it, and what only reads ends at once. */
class ClientConnection {
  #res
  #patience
  #stop
  #isAnswered = false
  #isClosed
  hasLeft
  /** The waits for answers to requests that only read, which end once the client has left. */
  reads = new Set()

  constructor(res, patience) {
    this.#res = res
    this.#patience = patience
    this.#isClosed = this.hasLeft = res.destroyed === true
    res.on('close', () => this.#leave())
  }

  /** Has a `Stop` end once the client has left. */
  stopWith(stop) {
    this.#stop = stop
    if (this.hasLeft) stop.end()
  }

  /** Throws unless a request may still be sent that was kept waiting. */
  requireWanted({ reason }) {
    if (reason !== undefined) throw reason
    if (this.#stop.isOver) throw new Refusal(424, 'Stopped', 'The batch had stopped before the request was sent')
  }

  answer({ status, headers, body }) {
    if (this.hasLeft) return
    this.#isAnswered = true
    this.#res.writeHead(status, { 'odata-version': '4.01', ...headers, 'content-length': body.length })
    this.#res.end(body)
    // Else one that reads nothing would keep the memory of its batch. Bytes that are taken begin the time anew.
    this.#res.setTimeout?.(this.#patience, () => this.#res.destroy())
  }

  /** Calls a function once the answer is sent, or the client has left. */
  whenClosed(call) {
    if (this.#isClosed) call()
    else this.#res.on('close', call)
  }

  #leave() {
    this.#isClosed = true
    if (this.#isAnswered) return
    this.hasLeft = true
    this.#stop?.end()
    for (const wait of this.reads) wait.end(new Refusal(503, 'Left', 'The client has left'))
  }
}

/** A refusal of a batch whose bytes are not all read, so that its connection ends. */
function closing(refusal) {
  refusal.answer.headers.connection = 'close'
  return refusal
}

function tooLong(maxSize) {
  return closing(new Refusal(413, 'TooLong', `A batch may have ${maxSize} bytes`))
}

/** Refuses a batch in another coding, which a parser in front may take off. */
function requireIdentity({ 'content-encoding': coding = 'identity' }) {
  if (coding.trim().toLowerCase() === 'identity') return
  const headers = { 'accept-encoding': 'identity' }
  throw closing(new Refusal(415, 'BadEncoding', 'A batch may not have a Content-Encoding', { headers }))
}

/** Refuses a batch that its client may send again (OASIS Repeatable Requests Version 1.0): none is kept here. */
function requireOnce(given) {
  if (!Object.keys(given).some((name) => name.startsWith('repeatability-'))) return
  const headers = { 'repeatability-result': 'rejected' }
  throw closing(new Refusal(501, 'NotRepeatable', 'Batches are not kept here, so they cannot be repeated', { headers }))
}

/** The body of a request, as long as it has no more bytes than these, comes in time and is in the budget; the rest is not read. */
function readBytes(req, maxSize, budget) {
  let timer
  const read = new Promise((resolve, reject) => {
    const parts = []
    let size = 0
    const refuse = (refusal) => {
      req.pause()
      reject(closing(refusal))
    }
    timer = setTimeout(() => refuse(new Refusal(408, 'CutBody', 'The batch did not come in time')), MOST_MILLISECONDS)
    req.on('data', (part) => {
      size += part.length
      if (size > maxSize) refuse(tooLong(maxSize))
      else if (budget.take(part.length)) parts.push(part)
      else refuse(busyRefusal())
    })
    req.on('end', () => resolve(Buffer.concat(parts)))
    const cut = () => req.readableEnded || reject(new Refusal(400, 'CutBody', 'The batch is not whole'))
    for (const event of ['error', 'close']) req.on(event, cut)
  })
  return read.finally(() => clearTimeout(timer))
}

/** The bytes of a batch, as a request carries it, or as a parser in front has left it. */
async function readBody(req, maxSize, budget) {
  requireOnce(req.headers)
  if (Buffer.isBuffer(req.body) || typeof req.body === 'string') {
    if (budget.take(req.body.length)) return req.body
    throw busyRefusal()
  }
  if (req.readableEnded) throw new Error('a parser has read the body of the batch: batch() has to come before it')
  requireIdentity(req.headers)
  if (Number(req.headers['content-length']) > maxSize) throw tooLong(maxSize)
  return readBytes(req, maxSize, budget)
}

module.exports = { ClientConnection, readBody }
