'use strict'

// What the requests of a batch were answered. client.d.ts says what each member is.

const { plan, rest } = require('../calls/commands.js')
const { isSuccess } = require('../http/messages.js')

// Numbers of seconds above it are read as it (RFC 9111, section 1.2.2).
const MOST_SECONDS = 2 ** 31
// How a date begins (RFC 9110, section 5.6.7); one of asctime has no zone, and is in UTC.
const DATE = /^(Mon|Tue|Wed|Thu|Fri|Sat|Sun)[a-z]*, /
const DATE_OF_ASCTIME = /^(Mon|Tue|Wed|Thu|Fri|Sat|Sun) [A-Z].+[0-9]$/
// After these statuses nobody knows whether a request was performed.
const UNSURE = [408, 502, 504]
// What may become of a request.
const KINDS = ['done', 'failed', 'left', 'unknown']
// How many requests that are not done a text lists.
const MOST_LISTED = 20
// What console.log shows of an object in Node.
const INSPECT = Symbol.for('nodejs.util.inspect.custom')

/** The code and the message of an error object, where a body is one (OData JSON Format 4.01, section 21.1). */
function errorText(body) {
  try {
    const { code, message } = JSON.parse(body.toString()).error
    return code === undefined || message === undefined ? '' : ` ${code}: ${message}`
  } catch {
    return ''
  }
}

/** How many seconds a Retry-After asks for: a number, or the time up to a date; 0 if it is neither. */
function readSeconds(value = '') {
  if (/^[0-9]+$/.test(value)) return Math.min(Number(value), MOST_SECONDS)
  const at = DATE_OF_ASCTIME.test(value) ? Date.parse(`${value} GMT`) : DATE.test(value) ? Date.parse(value) : NaN
  return at > Date.now() ? (at - Date.now()) / 1000 : 0
}

class RequestFailed extends Error {
  constructor(result) {
    super(`${result.id} (${result.operation}) ${result.status}${errorText(result.body)}`)
    this.name = 'RequestFailed'
    this.result = result
  }
}

class BatchFailed extends AggregateError {
  constructor(results, errors) {
    super(errors, String(results))
    this.name = 'BatchFailed'
    this.results = results
  }
}

class Result {
  constructor(id, { status, headers, body }, operation) {
    this.id = id
    this.status = status
    this.headers = { ...headers }
    this.body = body
    this.operation = operation
  }

  get ok() {
    return isSuccess(this)
  }

  json(type = (value) => value) {
    return type(JSON.parse(this.body.toString()))
  }

  raiseForStatus() {
    if (!this.ok) throw new RequestFailed(this)
    return this
  }
}

class Results {
  #sent
  #found
  #makeRest
  // What became of each request, by its id, once that was asked for.
  #kinds

  /** `sent` is the batch: its `document`, of each id the `group` and the `operation`, and `findName` of a reference. */
  constructor(sent, answers, makeRest, /** @type {{ error?: unknown, reason?: string }} */ { error, reason = '' } = {}) {
    this.#sent = sent
    this.#makeRest = makeRest
    this.#found = new Map(Array.from(answers, ([id, answer]) => [id, new Result(id, answer, sent.requests.get(id).operation)]))
    this.error = error
    this.reason = reason
  }

  /** The results of several sends: of the first batch, what its requests were answered last, and the rest of the last one. */
  static join(first, found, last, more) {
    return new Results(first.#sent, found, last.#makeRest, more)
  }

  get(request) {
    return this.#found.get(this.#sent.findName(request))
  }

  get size() {
    return this.#found.size
  }

  get done() {
    return this.#ofKind('done')
  }

  get failed() {
    return this.#ofKind('failed')
  }

  get left() {
    return this.#ofKind('left')
  }

  get unknown() {
    return this.#ofKind('unknown')
  }

  get retryAfter() {
    return Math.max(0, ...Array.from(this, ({ ok, headers }) => (ok ? 0 : readSeconds(headers['retry-after']))))
  }

  raiseForStatus() {
    const errors = Array.from(this).filter(({ id }) => this.#kind(id) !== 'done').map((result) => new RequestFailed(result))
    if (errors.length > 0) throw new BatchFailed(this, errors)
    return this
  }

  rest() {
    const batch = this.#makeRest()
    return batch.size > 0 ? batch : null
  }

  toString() {
    const counts = KINDS.map((kind) => [kind, this.#ofKind(kind).length]).filter(([kind, count]) => count || kind === 'done')
    const lines = Array.from(this, (result) => [this.#kind(result.id), result]).filter(([kind]) => kind !== 'done')
    const listed = lines.slice(0, MOST_LISTED).map(([kind, result]) => `${kind}: ${new RequestFailed(result).message}`)
    const more = lines.length > MOST_LISTED ? [`and ${lines.length - MOST_LISTED} more`] : []
    const why = this.reason ? ` (${this.reason})` : ''
    return [`${this.size} requests: ${counts.map(([kind, count]) => `${count} ${kind}`).join(', ')}${why}`, ...listed, ...more].join('\n')
  }

  [INSPECT]() {
    return String(this)
  }

  [Symbol.iterator]() {
    return this.#found.values()
  }

  #ofKind(kind) {
    return Array.from(this).filter(({ id }) => this.#kind(id) === kind)
  }

  #kind(id) {
    this.#kinds ??= findKinds(this.#sent, [...this])
    return this.#kinds.get(id)
  }
}

/** A batch without headers and bodies: its rest has the same ids, and needs no ETag. */
function withoutHeaders(document) {
  const found = JSON.parse(document.toString()).requests
  return { requests: found.map((members) => ({ ...members, headers: undefined, body: undefined })) }
}

/** What became of each request, by its id: `done`, `failed`, `left` or `unknown`. */
function findKinds({ document, requests }, results) {
  const groupOf = ({ id }) => requests.get(id).group
  const headers = { location: 'x' } // any does for the ids of the rest
  const responses = results.map((result) => ({ id: result.id, status: result.status, atomicityGroup: groupOf(result), headers }))
  const unsuccessful = results.filter(({ ok }) => !ok)
  const left = new Set(unsuccessful.length > 0 ? plan(rest(withoutHeaders(document), { responses })).map(({ id }) => id) : [])
  const undone = new Set(unsuccessful.map(groupOf).filter((group) => group !== null))
  const findKind = (result) => {
    if (left.has(result.id)) return 'left'
    return result.ok && !undone.has(groupOf(result)) ? 'done' : UNSURE.includes(result.status) ? 'unknown' : 'failed'
  }
  return new Map(results.map((result) => [result.id, findKind(result)]))
}

module.exports = { BatchFailed, RequestFailed, Result, Results, UNSURE, readSeconds }
