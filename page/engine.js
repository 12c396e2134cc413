'use strict'

// What the page asks of the library. It runs in a worker: it keeps the batch and its run, and does one job after another.

const commands = require('../node/calls/commands.js')
const { requests } = require('../node/calls/requests.js')
const { documentBytes } = require('../node/documents/bytes.js')
const { Course } = require('./course.js')
const { elementsAt, membersAt, skipSpace } = require('./json_scanner.js')
const { Lines, Places } = require('./places.js')
const { deriveAnswers } = require('./service_answers.js')
const { judge } = require('./verdict.js')

// How much of a document the page shows if it is too long to be edited, and how much of it before a place.
const EXCERPT = 20_000
const BEFORE = 2_000
// How many characters of a URL, and how many names of dependencies of all requests, go to the page.
const MOST_OF_URL = 400
const MOST_NAMES = 1_000_000
const KINDS = ['events', 'outcomes', 'responses']
const decoder = new TextDecoder('utf-8', { ignoreBOM: true })

/** The requests of a batch that is accepted, as the page shows them. */
function summarizeRequests(batch) {
  const sent = requests(batch)
  let names = 0
  return commands.plan(batch).map(({ position, id, level, group, needs }) => {
    const { method, url, reference } = sent[position]
    names += needs.length
    const listed = names > MOST_NAMES ? [] : needs
    return { position, id, level, group, needs: listed, method, url: url.slice(0, MOST_OF_URL), reference }
  })
}

/** A document: its bytes, its text, and the places of its faults. */
class Document {
  #text
  #lines
  #places

  /** `given` is a text, or bytes. */
  constructor(given) {
    this.bytes = documentBytes(given)
    this.#text = typeof given === 'string' ? given : undefined
  }

  get text() {
    this.#text ??= decoder.decode(this.bytes)
    return this.#text
  }

  get places() {
    this.#places ??= new Places(this.text, this.bytes)
    return this.#places
  }

  /** Where faults are, found only once there is one. */
  get lazyPlaces() {
    return { locate: (fault) => this.places.locate(fault) }
  }

  /** Some text around a place. */
  excerpt(at) {
    const { text } = this
    this.#lines ??= new Lines(text)
    let begin = Math.max(0, at - BEFORE)
    const next = text.indexOf('\n', begin)
    if (begin > 0 && next >= 0 && next < at) begin = next + 1
    return { text: text.slice(begin, begin + EXCERPT), begin, line: this.#lines.lineOf(begin), length: text.length }
  }
}

/** The events of a document of events, or the answers of one of outcomes or responses: `id`, and headers and body as JSON texts. */
function readElements(text, kind) {
  const list = membersAt(text, skipSpace(text, 0)).get(kind)
  return Array.from(elementsAt(text, list.value.start), ({ start }) => {
    const members = membersAt(text, start)
    const raw = (name) => {
      const value = members.get(name)?.value
      const found = value && text.slice(value.start, value.end)
      return found === 'null' ? undefined : found
    }
    const id = JSON.parse(kind === 'events' ? (raw('start') ?? raw('report')) : raw('id'))
    const status = raw('status')
    if (status === undefined) return { id }
    return { id, status: Number(status), ...dropUndefined({ headers: raw('headers'), body: raw('body') }) }
  })
}

function dropUndefined(values) {
  return Object.fromEntries(Object.entries(values).filter(([, value]) => value !== undefined))
}

/** What a text is by its member: events, outcomes or responses. */
function findKind(text) {
  try {
    const members = membersAt(text, skipSpace(text, 0))
    return KINDS.find((kind) => members.has(kind))
  } catch {
    return undefined // It is not JSON.
  }
}

class Engine {
  #batch
  #requests = []
  #course

  /** Checks a batch, which is a text or bytes, and begins a run of it. */
  check({ batch, options }) {
    const begun = performance.now()
    this.#batch = new Document(batch)
    this.#course?.close()
    this.#course = undefined
    const { bytes, lazyPlaces } = this.#batch
    const verdict = judge('check', [bytes], lazyPlaces)
    const took = performance.now() - begun
    this.#requests = verdict.accepted ? summarizeRequests(bytes) : []
    const run = verdict.accepted ? this.open(options) : undefined
    return { ...verdict, size: bytes.length, took, requests: this.#requests, run }
  }

  /** A part of the batch around a place. */
  excerpt({ at }) {
    return this.#batch.excerpt(at)
  }

  /** Begins a run with a mode and a width. */
  open({ mode, width }) {
    this.#course?.close()
    this.#course = new Course(this.#batch.bytes, this.#requests, { mode, width })
    return this.#state()
  }

  /** Has events come until one is refused. */
  add({ events }) {
    for (const event of events) {
      const refusal = this.#course.add(event)
      if (refusal) return { ...this.#state(), refusal }
    }
    return this.#state()
  }

  /** Has so many events come by themselves, in an order. */
  play({ order, answers, count }) {
    for (let i = 0; i < count; i++) {
      const event = this.#course.next(order, answers)
      if (event === undefined) break
      const refusal = this.#course.add(event)
      if (refusal) return { ...this.#state(), refusal }
    }
    return this.#state()
  }

  undo() {
    this.#course.undo()
    return this.#state()
  }

  restart() {
    this.#course.restart()
    return this.#state()
  }

  /** The events of the run as a document. */
  document() {
    return this.#course.document
  }

  /** The run as the page shows it, with its response and what `match` says of it once it is finished. */
  #state() {
    const course = this.#course
    const found = { ...course.snapshot(), events: course.events }
    if (!found.finished) return found
    const response = this.#response(course)
    return { ...found, response, match: this.#match(response) }
  }

  /** The response that `run` prints of the events, or that of the live run if `run` refuses a body, as one with 1.5 in it. */
  #response({ document, options, response }) {
    const given = new Document(document)
    const { accepted, text } = judge('run', [this.#batch.bytes, given.bytes], this.#locator(given), options)
    return accepted ? text : response
  }

  /** What `match` makes of responses, and the status of each by its id. */
  #match(responses, options) {
    const document = new Document(responses)
    const verdict = judge('match', [this.#batch.bytes, document.bytes], this.#locator(document), options)
    return { ...verdict, statuses: verdict.accepted ? readStatuses(verdict.text) : [] }
  }

  /** What `match` makes of the responses of a service, also with --strict, and what a run has to be answered to end so. */
  #matchService({ bytes, text }, mode) {
    const verdict = this.#match(bytes, { mode })
    if (!verdict.accepted) return verdict
    const { faults: [fault], text: line } = this.#match(bytes, { mode, strict: true })
    const impossible = fault && { line, explanation: fault.explanation }
    return { ...verdict, impossible, ...deriveAnswers(this.#requests, readElements(text, 'responses'), mode) }
  }

  /** The places of a second document; a fault may also be about a request of the batch. */
  #locator(document) {
    return {
      locate: (fault) => {
        const inBatch = fault.place.startsWith('/requests/')
        return { ...(inBatch ? this.#batch : document).places.locate(fault), inBatch }
      },
    }
  }

  /** Reads events, outcomes or responses, and does with them what the program does. */
  read({ document: given, kind, mode, width, order }) {
    const document = new Document(given)
    const found = findKind(document.text) ?? kind
    if (found === 'responses') return { kind: found, ...this.#matchService(document, mode) }
    const options = found === 'events' ? { mode, width } : { mode, width, order, trace: true }
    const command = found === 'events' ? 'run' : 'replay'
    const verdict = judge(command, [this.#batch.bytes, document.bytes], this.#locator(document), options)
    const isWhole = verdict.accepted || verdict.faults[0]?.code === 'F66'
    if (!isWhole) return { kind: found, ...verdict }
    const events = found === 'events' ? readElements(document.text, found) : this.#replay(document, options)
    this.#course.close()
    this.#course = new Course(this.#batch.bytes, this.#requests, { mode, width })
    return { kind: found, ...verdict, run: this.add({ events }) }
  }

  /** The events of a replay, with headers and bodies of the outcomes. */
  #replay({ text, bytes }, options) {
    const outcomes = new Map(readElements(text, 'outcomes').map((outcome) => [outcome.id, outcome]))
    const { steps } = commands.replay(this.#batch.bytes, bytes, options)
    return steps.map(({ step, id }) => (step === 'start' ? { id } : outcomes.get(id)))
  }
}

/** The pairs of id and status in the lines of a match. */
function readStatuses(text) {
  return text.split('\n').slice(1).map((line) => line.split(' ')).map(([id, status]) => [id, Number(status)])
}

module.exports = { Engine }
