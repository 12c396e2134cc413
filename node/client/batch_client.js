'use strict'

// A client that posts batches by fetch, waits while a service is busy, and sends again what may be sent again.

const { match } = require('../calls/commands.js')
const { requireOptions } = require('../calls/options.js')
const { writeBatch } = require('../documents/batch_text.js')
const { Refusal } = require('../errors/refusals.js')
const { foldHeaders, isSuccess, validateAnswer } = require('../http/messages.js')
const { Stop } = require('../perform/index.js')
const { responseBytes } = require('./parts.js')
const { Results, UNSURE, readSeconds } = require('./results.js')

const OF_CLIENT = ['attempts', 'backoff', 'deadline', 'fetch', 'headers', 'repeatable', 'timeout']
const [ID, FIRST_SENT, RESULT] = ['repeatability-request-id', 'repeatability-first-sent', 'repeatability-result']
const MOST_MILLISECONDS = 2 ** 31 - 1 // of a timer
// By how many milliseconds a wait is longer than the service asks for, at most; and for how many seconds it may ask.
const MOST_BACKOFF = 30000
const MOST_ASKED = 600
const NOTHING = writeBatch([])
// What settles nothing for good.
const SETTLES_NOTHING = [...UNSURE, 424, 429, 503]
// How a service that keeps batches rejects one that it does not take any more: it does not continue it.
const GIVEN_UP = [400, 412, 422, 501]
// The codes of errors by which there was no connection, so that nothing was sent.
const UNSENT = ['ECONNREFUSED', 'ENOTFOUND', 'EAI_AGAIN', 'UND_ERR_CONNECT_TIMEOUT']
const TIME = [(time) => time === Infinity || (time > 0 && time <= MOST_MILLISECONDS), 'number of milliseconds above 0']
// For each option that is a number, what says whether it has a value that it may have, and what that is.
const NUMBERS = {
  attempts: [(count) => Number.isInteger(count) && count >= 1, 'whole number from 1'],
  backoff: [(time) => time >= 0, 'number of milliseconds from 0'],
  deadline: TIME,
  timeout: TIME,
}
const OF_NODE = 'node:crypto' // which Node 18 does not have as a global

/** An id that nobody guesses: also in a page that is not secure, which has no randomUUID. */
function newId() {
  const random = globalThis.crypto ?? require(OF_NODE).webcrypto
  return Array.from(random.getRandomValues(new Uint8Array(16)), (byte) => byte.toString(16).padStart(2, '0')).join('')
}

/** Returns options that are numbers; throws unless they have their values. */
function requireNumbers(numbers) {
  for (const [name, number] of Object.entries(numbers)) {
    const [isRight, wanted] = NUMBERS[name]
    if (!isRight(number)) throw new RangeError(`${name} must be a ${wanted}, not ${String(number)}`)
  }
  return numbers
}

/** The URL of the `$batch` of a service. */
function batchUrl(url) {
  const [, root, query] = /^([^?]*)(.*)$/s.exec(String(url))
  return `${root.endsWith('$batch') ? root : `${root.replace(/\/+$/, '')}/$batch`}${query}`
}

class BatchClient {
  #patience

  constructor(url, options = {}) {
    const { headers, repeatable = true, fetch = globalThis.fetch, ...given } = requireOptions(options, OF_CLIENT)
    const { attempts = 8, backoff = 1000, deadline = Infinity, timeout = 60000 } = given
    const numbers = requireNumbers({ attempts, backoff, deadline, timeout })
    this.#patience = { ...numbers, url: batchUrl(url), fetch, headers: foldHeaders(headers), keeps: repeatable ? undefined : false }
  }

  async send(batch, options = {}) {
    return new Sending(this.#patience, options).send(batch)
  }
}

/** A batch on its way. */
class Sending {
  // How the client sends, and what it has learnt of its service: whether that keeps a part, undefined while it is not known.
  #patience
  #options
  #stop
  // How many attempts in a row have brought nothing, and whether the one that is on its way has brought anything.
  #idle = 0
  #moved = false
  // Why nothing more is sent.
  #reason = ''

  constructor(patience, options) {
    this.#patience = patience
    this.#options = options
    this.#stop = new Stop(undefined, patience.deadline)
  }

  async send(batch) {
    const found = new Map()
    for (let left = batch, first, error; ; ) {
      const results = await left.send((part) => this.#sendPart(part), this.#options)
      first ??= results
      error = results.error ?? error
      for (const result of results) found.set(result.id, result)
      left = this.#next(results)
      if (left === null || !(await this.#pause(results.retryAfter))) {
        return Results.join(first, found, results, { error, reason: this.#reason })
      }
    }
  }

  /** The batch that is to be sent after a send, or null; notes why what is left is not. */
  #next(results) {
    const error = [...results.failed, ...results.unknown].find(({ status }) => status >= 400 && status !== 424)
    if (this.#options.mode === 'stop' && error !== undefined) this.#reason ||= `${error.id} has failed`
    try {
      const rest = results.rest()
      return this.#reason ? null : rest
    } catch (error) {
      if (!(error instanceof RangeError)) throw error
      this.#reason ||= error.message
      return null
    }
  }

  /**
   * What a part is answered; throws the error in place of that. It is posted again only under the id that the service keeps it
   * by: until then nobody knows whether it was performed.
   */
  async #sendPart(part) {
    for (let sent = this.#makeId(), lost; ; ) {
      const asks = lost !== undefined && this.#patience.keeps === undefined
      const tried = asks ? await this.#post({ ...part, body: NOTHING }, this.#makeId()) : await this.#post(part, sent)
      const isLost = [undefined, ...UNSURE].includes(tried.status) || isRejected(tried, [409])
      if (isSuccess(tried)) {
        if (!asks) return tried
        if (this.#patience.keeps) continue
      } else if (lost === undefined && ID in sent && isRejected(tried, [501])) {
        sent = this.#makeId()
        continue
      } else if (lost === undefined && !isLost) {
        const isFinal = tried.status < 500 && !SETTLES_NOTHING.includes(tried.status)
        if (isFinal) this.#reason = `a part was answered ${tried.status} as a whole`
        return unwrap(tried)
      }
      lost ??= tried.status === 409 ? standIn(new Refusal(504, 'InProgress', 'No answer came in time')) : tried
      const isOver = this.#patience.keeps === false || isRejected(tried, GIVEN_UP)
      if (isOver || !(await this.#pause(readSeconds(tried.headers['retry-after'])))) return unwrap(lost)
    }
  }

  /** The headers of a part by which the service keeps it, if it keeps any. */
  #makeId() {
    return this.#patience.keeps === false ? {} : { [ID]: newId(), [FIRST_SENT]: new Date().toUTCString() }
  }

  /** Posts a document; returns what it is answered, or the failure in place of it. */
  async #post({ method, headers, body }, id) {
    const { url, fetch, timeout, headers: own } = this.#patience
    const request = { method, headers: { ...headers, ...own, ...id }, body }
    try {
      const answer = await this.#stop.within(timeout, async (wait) => {
        return validateAnswer(await fetch(url, { ...request, signal: wait?.signal }))
      })
      if (ID in id) this.#learn(answer)
      if (isSuccess(answer)) {
        const statuses = [...match(body, responseBytes(answer.body), { mode: this.#options.mode }).values()]
        this.#moved ||= statuses.some((status) => !SETTLES_NOTHING.includes(status))
      }
      return answer
    } catch (error) {
      return standIn(error)
    }
  }

  /** Notes whether the service keeps what it is posted. Once it has said so, a page of a proxy says nothing else. */
  #learn(answer) {
    const result = answer.headers[RESULT]
    if (result === 'accepted') this.#patience.keeps = true
    else if (isRejected(answer, [501])) this.#patience.keeps = false
    else if (isSuccess(answer) && result === undefined) this.#patience.keeps ??= false
  }

  /** Waits before more is posted; false if nothing more is, which it notes why. */
  async #pause(asked) {
    const { attempts, backoff, deadline } = this.#patience
    this.#idle = this.#moved ? 0 : this.#idle + 1
    this.#moved = false
    const wait = asked * 1000 + Math.random() * Math.min(backoff * 2 ** Math.min(this.#idle, 9), MOST_BACKOFF)
    if (this.#idle >= attempts) this.#reason = `the last ${attempts} attempts have brought nothing`
    else if (asked > MOST_ASKED) this.#reason = `the service asks to wait ${Math.round(asked)} seconds`
    else if (this.#stop.isOverAfter(wait)) this.#reason = `the deadline of ${deadline / 1000} seconds is over`
    else await new Promise((done) => setTimeout(done, wait))
    return this.#reason === ''
  }
}

/** An error in place of an answer, with the status and the headers that it stands for. Without a connection that is a 503. */
function standIn(raised) {
  const isUnsent = [raised?.code, raised?.cause?.code].some((code) => UNSENT.includes(code))
  const error = isUnsent ? new Refusal(503, 'Unreachable', 'there is no connection') : raised
  if (isUnsent) error.cause = raised
  return { headers: {}, ...(error instanceof Refusal && error.answer), error }
}

/** Returns an answer, or throws the error in place of it. */
function unwrap(tried) {
  if ('error' in tried) throw tried.error
  return tried
}

/** Whether a service that keeps batches has rejected one, by one of some statuses. */
function isRejected({ status, headers }, statuses) {
  return statuses.includes(status) && headers[RESULT] === 'rejected'
}

module.exports = { BatchClient }
