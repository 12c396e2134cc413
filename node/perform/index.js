'use strict'

// Performs batches: hands each request that may be sent to a function, waits for its answer, and reports that to the run. index.d.ts
// says what `perform` takes and returns.

const { MAX_REQUESTS, optionNumbers, requireOptions } = require('../calls/options.js')
const { openListed } = require('../calls/run.js')
const { documentBytes, kindName } = require('../documents/bytes.js')
const { Fault } = require('../errors/faults.js')
const { Refusal, toRefusal } = require('../errors/refusals.js')
const { validateAnswer } = require('../http/messages.js')
const { MAX_BODY_BYTES, toJson, toJsonString } = require('../http/bodies.js')
const { ReferenceResolver } = require('../http/references.js')
const { CONSTANTS } = require('../library/constants.js')
const { GroupTransaction } = require('./group.js')

const OPTIONS = ['mode', 'width', 'transaction', 'base', 'roots', 'timeout', 'deadline', 'limit', 'stop', 'log']
const MOST_MILLISECONDS = 2 ** 31 - 1
const TRANSACTION = '(group, body) => knex.transaction((trx) => storage.run(trx, body))'
// Of an answer these speak of its connection alone.
const NOT_SHOWN = new Set(CONSTANTS.headers.not_shown)

function logError(error, what) {
  console.error(`odb-batch: ${what}:`, error)
}

/** Throws unless an option is a time, or undefined. */
function requireTime(name, time) {
  if (time === undefined || (time > 0 && time <= MOST_MILLISECONDS)) return
  throw new TypeError(`${name} must be a number of milliseconds up to ${MOST_MILLISECONDS}, not ${String(time)}`)
}

/** Throws unless a transaction is a function that can wait for a body, or undefined. */
function requireTransaction(transaction) {
  if (transaction === undefined) return
  const kind = typeof transaction === 'function' ? kindName(transaction) : typeof transaction
  if (kind === 'Function' || kind === 'AsyncFunction') return
  throw new TypeError(`transaction must be a function, as ${TRANSACTION}, not a ${kind}`)
}

/** The options with their defaults; or a TypeError, or a RangeError. */
function performSettings(options) {
  const { limit = MAX_REQUESTS, timeout, deadline, transaction, ...rest } = requireOptions(options, OPTIONS)
  optionNumbers({ mode: rest.mode, width: rest.width })
  if (!Number.isInteger(limit) || limit < 0) throw new TypeError(`limit must be a whole number, not ${String(limit)}`)
  requireTime('timeout', timeout)
  requireTime('deadline', deadline)
  requireTransaction(transaction)
  return { mode: 'continue', width: 1, log: logError, ...rest, limit, timeout, deadline, transaction }
}

/** The headers that a response shows. */
function visibleHeaders(headers) {
  const found = { __proto__: null }
  for (const name in headers) if (!NOT_SHOWN.has(name)) found[name] = headers[name]
  return found
}

/** Headers of an answer that the library takes whatever they hold. */
function asciiHeaders(headers) {
  return Object.fromEntries(Object.entries(headers).filter((pair) => /^[\x00-\x7f]*$/.test(pair.join(''))))
}

/** The wait for one answer. Its signal is made for who asks for it: making one takes longer than a request in memory. */
class Wait {
  #controller
  /** Why the wait is over, or undefined. */
  reason
  /** Is called with the reason when the wait is over before an answer came. */
  onEnd

  get signal() {
    if (this.#controller === undefined) {
      this.#controller = new AbortController()
      if (this.reason !== undefined) this.#controller.abort(this.reason)
    }
    return this.#controller.signal
  }

  end(reason) {
    this.reason = reason
    this.#controller?.abort(reason)
    this.onEnd?.(reason)
  }
}

/**
 * Calls a function with the wait for its answer, which ends after a number of milliseconds: `onEnd` is called then. If they are
 * infinite, there is no wait.
 */
async function within(milliseconds, call, onEnd) {
  if (milliseconds === Infinity) return call()
  const wait = new Wait()
  let timer
  try {
    return await new Promise((resolve, reject) => {
      timer = setTimeout(() => {
        const reason = new DOMException('No answer came in time', 'TimeoutError')
        onEnd()
        reject(reason)
        wait.end(reason)
      }, milliseconds)
      call(wait).then(resolve, reject)
    })
  } finally {
    clearTimeout(timer)
  }
}

/** When nothing more of a batch starts: once a signal is aborted, or some milliseconds after now. */
class Stop {
  #signal
  #end

  constructor(signal, deadline = Infinity) {
    this.#signal = signal
    this.#end = performance.now() + deadline
  }

  get isOver() {
    return this.#signal?.aborted === true || this.#left <= 0
  }

  /** Has nothing more start. */
  end() {
    this.#end = 0
  }

  /** Whether nothing more starts that many milliseconds from now. */
  isOverAfter(milliseconds) {
    return this.#left <= milliseconds
  }

  /** Calls a function with the wait for its answer, which is not longer than up to the deadline, and than some milliseconds. */
  within(timeout = Infinity, call) {
    const left = this.#left
    if (left > timeout) return within(timeout, call, () => {})
    return within(left, call, () => this.end()) // the clock of timers is another one, and may be ahead
  }

  get #left() {
    return this.#end === Infinity ? Infinity : this.#end - performance.now()
  }
}

class Performer {
  #run
  #requests
  #resolver
  #send
  #settings
  #isStopped = false
  // How many requests are of units that have not begun.
  #left

  /** `send` is given a request, and the wait for its answer, if that has an end. */
  constructor({ run, requests }, send, settings) {
    this.#resolver = new ReferenceResolver(requests, settings.base, settings.roots)
    this.#requests = new Map(requests.map((request) => [request.id, request]))
    this.#run = run
    this.#left = requests.length
    this.#send = send
    this.#settings = settings
  }

  /** Performs one unit after another, as many at once as the width allows. */
  perform() {
    return new Promise((resolve, reject) => {
      let performing = 0
      const fill = () => {
        for (let ids; performing < this.#settings.width && (ids = this.#startUnit()) !== null; ) {
          performing++
          this.#performUnit(ids).then(() => {
            performing--
            fill()
          }).catch(reject)
        }
        if (performing === 0) resolve()
      }
      fill()
    })
  }

  /** The response document of the finished run. */
  response() {
    return this.#run.response()
  }

  /** Whether nothing starts any more. */
  get isStopped() {
    this.#heedStop()
    return this.#isStopped
  }

  /** Starts a request of a group: call it before it is sent. */
  start(id) {
    this.#heedStop()
    this.#run.start(id)
  }

  /** Sends a request, and returns its answer with its body as it is in a response. An exception is an answer, too. */
  async answer(id) {
    const { stop, timeout } = this.#settings
    try {
      const { status, headers, body } = await stop.within(timeout, (wait) => this.#send(this.#resolver.prepare(id), wait))
      return { status, headers, text: this.#requireFitting(this.#requests.get(id), toJson(body, headers)) }
    } catch (error) {
      return this.#explain(error, `the request ${id}`)
    }
  }

  /** Reports what a started request is answered. */
  report(id, { status, headers, text }) {
    this.#reportReadable(id, status, visibleHeaders(headers), text)
    if (this.#resolver.referred.has(id)) this.#resolver.record(id, headers, text)
    this.#isStopped ||= this.#settings.mode === 'stop' && status >= 400
  }

  /** The ids of the first unit that may begin, or null. Its first request is started, so that it does not begin twice. */
  #startUnit() {
    this.#heedStop()
    const ids = this.#left > 0 ? this.#run.nextUnit() : null
    if (ids === null) return null
    this.#run.start(ids[0])
    this.#left -= ids.length
    return ids
  }

  /** Stops once that is over. It is asked, since a signal that many batches share would warn of their listeners. */
  #heedStop() {
    if (this.#isStopped || !this.#settings.stop.isOver) return
    this.#isStopped = true
    this.#run.stop()
  }

  /** Performs a unit, whose first request has started. */
  async #performUnit(ids) {
    const [first] = ids
    const { group } = this.#requests.get(first)
    if (group === null) this.report(first, await this.answer(first))
    else await this.#performGroup(group, new GroupTransaction(this, group, ids))
  }

  async #performGroup(name, group) {
    const what = `the transaction of ${name}`
    let reason
    try {
      await this.#settings.transaction(name, () => group.perform())
      reason = group.shortcoming
    } catch (error) {
      reason = error ?? new Error(`${what} was rejected without a reason`)
    }
    const isKnown = await group.end(reason, (error) => this.#explain(error, what))
    if (!isKnown) this.#settings.log(reason, what)
  }

  /** The text of a body that is answered. If it is too long for a response a GET is refused, and any other request loses it. */
  #requireFitting({ method }, text) {
    if (text === undefined || text.length <= MAX_BODY_BYTES) return text
    if (method === 'GET') throw new Refusal(507, 'TooLong', 'The answer is too long for a batch')
    return undefined
  }

  /** What is answered in place of an exception, which is logged unless it is a refusal. */
  #explain(error, what) {
    if (!(error instanceof Refusal)) this.#settings.log(error, what)
    const { status, headers, body } = toRefusal(error).answer
    return { status, headers, text: toJson(body, headers) }
  }

  /**
   * Reports a body as JSON. What the run cannot read is left out as little as may be: a body that is not JSON, though its answer
   * claims it, is a string, unless that is too long; of headers that are not Unicode those in ASCII stay.
   */
  #reportReadable(id, status, headers, text) {
    if (this.#tryReport(id, status, headers, text)) return
    const string = text && toJsonString(text, {})
    const fitting = string?.length > MAX_BODY_BYTES ? undefined : string
    if (this.#tryReport(id, status, headers, fitting) || this.#tryReport(id, status, asciiHeaders(headers), text)) return
    this.#run.report(id, status, asciiHeaders(headers), fitting)
  }

  /** Reports an answer, and returns whether the run can read it. */
  #tryReport(id, status, headers, text) {
    try {
      this.#run.report(id, status, headers, text)
      return true
    } catch (error) {
      if (error instanceof Fault) return false
      throw error
    }
  }
}

/** Refuses a batch as a whole, before anything of it is sent. */
function requirePerformable(requests, { limit, transaction }) {
  if (requests.length > limit) throw new Refusal(413, 'BatchTooLong', `A batch may have ${limit} requests`)
  if (transaction === undefined && requests.some(({ group }) => group !== null)) {
    throw new Refusal(501, 'NoGroups', 'Atomicity groups are not supported here')
  }
}

/**
 * Performs a batch by a function that is given requests and the waits for their answers, and returns what `validateAnswer` does. `stop` of
 * the settings is a `Stop`.
 */
async function performBatch(batch, send, settings) {
  const { mode, width } = settings
  const opened = openListed(documentBytes(batch), { mode, width })
  try {
    requirePerformable(opened.requests, settings)
    const performer = new Performer(opened, send, settings)
    await performer.perform()
    return performer.response()
  } finally {
    opened.run.close()
  }
}

async function perform(batch, send, options = {}) {
  const withSignal = (request, wait) => ({
    ...request,
    get signal() {
      return wait?.signal
    },
  })
  const sendPublic = async (request, wait) => validateAnswer(await send(withSignal(request, wait)))
  const settings = performSettings(options)
  return performBatch(batch, sendPublic, { ...settings, stop: new Stop(settings.stop, settings.deadline) })
}

module.exports = { Stop, perform, performBatch, performSettings }
