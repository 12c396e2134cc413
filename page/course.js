'use strict'

// A run in the making: its events so far, over a live run of the library, which decides which of them may come.

const { Run } = require('../node/calls/run.js')
const { Fault, Refused } = require('../node/errors/faults.js')
const { STATES, usualStatus } = require('./states.js')
const { explain } = require('./verdict.js')

const encoder = new TextEncoder()

/** The text of an event in a document of events. Headers and body are JSON texts. */
function writeEvent({ id, status, headers, body }) {
  if (status === undefined) return `{"start": ${JSON.stringify(id)}}`
  const parts = [`"report": ${JSON.stringify(id)}`, `"status": ${status}`]
  if (headers) parts.push(`"headers": ${headers}`)
  if (body) parts.push(`"body": ${body}`)
  return `{${parts.join(', ')}}`
}

/** Headers as the library takes them, of a JSON text. */
function readHeaders(text) {
  if (!text) return null
  const found = JSON.parse(text)
  const isObject = typeof found === 'object' && found !== null && !Array.isArray(found)
  if (isObject && Object.values(found).every((value) => typeof value === 'string')) return found
  throw new SyntaxError('not an object of strings')
}

/** Why an event is refused, as the page shows it; throws what else went wrong. */
function readRefusal(error, id) {
  if (error instanceof Refused) return { code: error.code, name: error.causeName, id, explanation: explain(error.code) }
  if (error instanceof Fault) return { code: error.code, name: error.faultName, id, explanation: explain(error.code) }
  if (error instanceof SyntaxError) return { code: '', name: '', id, explanation: 'Headers must be a JSON object of strings.' }
  throw error
}

class Course {
  #batch
  #requests
  #methods
  #run
  /** The mode and the width. */
  options
  /** The events that came: `id`, and of a report `status`, and `headers` and `body` as JSON texts if there are any. */
  events = []

  constructor(batch, requests, options) {
    this.#batch = batch
    this.#requests = requests
    this.#methods = new Map(requests.map(({ id, method }) => [id, method]))
    this.options = options
    this.#run = new Run(batch, options)
  }

  /** Has an event come. Returns why it is refused, or undefined. */
  add(event) {
    try {
      this.#apply(event)
    } catch (error) {
      return readRefusal(error, event.id)
    }
    this.events.push(event)
    return undefined
  }

  #apply({ id, status, headers, body }) {
    if (status === undefined) return this.#run.start(id)
    // What is not a number is no status either, so that it is refused as 0 is.
    const number = Number.isInteger(status) ? status : 0
    return this.#run.report(id, number, readHeaders(headers), body ? encoder.encode(body) : null)
  }

  /** Takes the last event back: the others come anew in another run. */
  undo() {
    this.restart(this.events.slice(0, -1))
  }

  /** Begins anew, with events that may come. */
  restart(events = []) {
    this.#run.close()
    this.#run = new Run(this.#batch, this.options)
    this.events = events
    for (const event of events) this.#apply(event)
  }

  /** The next event of a run that plays by itself in an order, with what requests are answered; undefined if it is finished. */
  next(order, answers) {
    const next = this.#run.next(order)
    if (next === null) return undefined
    const { step, id } = next
    return step === 'start' ? { id } : { id, status: usualStatus(this.#methods.get(id)), ...answers[id] }
  }

  /** The event after which nothing starts any more, in the mode that stops at errors. */
  get stopped() {
    return this.options.mode === 'stop' ? this.events.find(({ status }) => status >= 400) : undefined
  }

  get finished() {
    return this.#run.finished
  }

  /** The response document, as text. */
  get response() {
    return this.#run.response().toString()
  }

  /** The events as a document. */
  get document() {
    return `{"events": [${this.events.map((event) => `\n  ${writeEvent(event)}`).join(',')}\n]}\n`
  }

  /** The states and the statuses of all requests, by their positions, and the ids of those that have to be undone. */
  snapshot() {
    const states = new Uint8Array(this.#requests.length)
    const statuses = new Uint16Array(this.#requests.length)
    this.#requests.forEach(({ id }, position) => {
      const { state, status } = this.#run.state(id)
      states[position] = STATES.indexOf(state)
      statuses[position] = status ?? 0
    })
    const { finished } = this
    return { states, statuses, finished, stopped: this.stopped, undone: finished ? this.#run.undone : [] }
  }

  close() {
    this.#run.close()
  }
}

module.exports = { Course }
