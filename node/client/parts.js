'use strict'

// A batch that is sent in parts, which the library makes.

const { match } = require('../calls/commands.js')
const { MAX_REQUESTS } = require('../calls/options.js')
const { openListed } = require('../calls/run.js')
const { bodyBytes, documentBytes } = require('../documents/bytes.js')
const { readResponses } = require('../documents/responses.js')
const { Fault, Refused } = require('../errors/faults.js')
const { Refusal, badGateway, toRefusal } = require('../errors/refusals.js')
const { isSuccess } = require('../http/messages.js')
const { skipMark } = require('../http/bodies.js')
const { ReferenceResolver } = require('../http/references.js')

// What a request is answered that was not sent, or left out by a service that stops.
const SKIPPED = { status: 424, headers: {}, body: Buffer.alloc(0) }
// The library reads a batch for each part of it. One with more requests is cut into longer parts first, each a batch of its own.
const MANY = 1000

/** The bytes of a response document, without the mark that a text may begin with. */
function responseBytes(body) {
  return skipMark(Buffer.from(documentBytes(body)))
}

/** An answer with the bytes of its body, as they are on the wire. */
function onWire({ status, headers, body }) {
  return { status, headers, body: Buffer.from(typeof body === 'string' ? body : bodyBytes(body)) }
}

/** Throws unless a part may have as many requests as a limit, and each unit has a place in it. */
function requireLimit(limit, units) {
  if (!Number.isInteger(limit) || limit < 1 || limit > MAX_REQUESTS) {
    throw new RangeError(`limit must be a whole number from 1 to ${MAX_REQUESTS}, not ${String(limit)}`)
  }
  for (const [unit, { length }] of units) {
    if (length > limit) throw new RangeError(`the group ${unit} has ${length} requests, and a batch may have ${limit}`)
  }
}

/** Why a request is not sent whose URL refers to what has none that it may have. */
function noLocation({ id, reference }) {
  return new Refusal(424, 'NoLocation', `${reference} was answered without a URL that ${id} may have`, { target: reference })
}

class Parts {
  /** The document of the batch. */
  document
  /** What the requests were answered, by their ids, in the order of the batch. */
  answers
  /** The exception by which a part was not answered, or undefined. */
  error
  #limit
  #mode
  // How many requests a part has, which may be one that is cut again.
  #most
  #requests
  #run
  // The unit of each request, which is its group or its id, and the ids of each unit.
  #unitOf
  #units = new Map()
  #resolver
  // The part that is out, as the run gave it and as it is sent.
  #given
  #part
  #isStopped = false

  /** Throws a Fault for a batch that is refused, and a RangeError for a limit that cannot be kept. */
  constructor(document, { limit = MAX_REQUESTS, mode = 'continue' }) {
    this.#limit = limit
    this.#mode = mode
    this.document = document
    const { run, requests } = openListed(document, { mode })
    this.#run = run
    this.#requests = requests
    this.#unitOf = new Map(requests.map(({ id, group }) => [id, group ?? id]))
    for (const unit of this.#unitOf.values()) this.#units.set(unit, [])
    for (const [id, unit] of this.#unitOf) this.#units.get(unit).push(id)
    requireLimit(limit, this.#units)
    const count = requests.length
    this.#most = count <= Math.max(MANY, 4 * limit) ? limit : Math.floor(Math.sqrt(count * limit))
    this.#resolver = new ReferenceResolver(requests)
    this.answers = new Map(requests.map(({ id }) => [id, SKIPPED]))
  }

  /** Sends the batch; `post` is fulfilled with what a document is answered. */
  async send(post) {
    try {
      while (this.#next()) await (this.#part.ids.length > this.#limit ? this.#sendParts(post) : this.#sendPart(post))
    } finally {
      this.#run.close()
    }
  }

  async #sendPart(post) {
    const answer = await post(this.#part.document).catch((error) => this.#fail(error))
    if (answer !== undefined) this.#take(answer)
  }

  async #sendParts(post) {
    const parts = new Parts(this.#part.document, { limit: this.#limit, mode: this.#mode })
    await parts.send(post)
    this.error = parts.error
    this.#isStopped = parts.#isStopped
    this.#settle(parts.answers)
  }

  /** Makes the next part; false if nothing more is to be sent. */
  #next() {
    while (!this.#isStopped) {
      const part = this.#nextPart()
      if (part === null) return false
      if (part === undefined) continue
      this.#given = part
      // In one part the batch is sent as it is.
      this.#part = part.ids.length < this.answers.size ? part : { document: this.document, ids: part.ids }
      return true
    }
    return false
  }

  /** What the library gives as the next part; undefined if its first unit refers to what has no URL that it may have, or no ETag. */
  #nextPart() {
    try {
      return this.#run.part(this.document, this.#most)
    } catch (error) {
      if (!(error instanceof Fault)) throw error
      this.#refuseFrom(Number(error.place.split('/').at(-1)), error.code)
      return undefined
    }
  }

  /**
   * Answers the unit of the request at a position, which refers to what has no URL that it may have, or no ETag; in mode continue also
   * the units after it that refer to what was answered without one, and may begin.
   */
  #refuseFrom(position, code) {
    const [first, ...others] = this.#requests.slice(position)
    const pending = new Set([...this.answers.keys()].filter((id) => !isSuccess(this.answers.get(id))))
    const tagless = code === 'F90' ? undefined : (this.#refusalOf(first, pending) ?? this.#refusalOf(first, new Set(this.#unitWith(first.id))))
    const alike = this.#mode === 'stop' ? [] : others.map((request) => [request.id, this.#refusalOf(request, pending)])
    for (const [id, refusal] of [[first.id, tagless ?? noLocation(first)], ...alike]) {
      if (refusal !== undefined) this.#refuse(id, refusal)
    }
  }

  /** Answers the unit of a request that cannot be sent, if it may begin. */
  #refuse(id, { answer }) {
    try {
      this.#run.startUnit(id)
    } catch (error) {
      if (error instanceof Refused) return
      throw error
    }
    for (const member of this.#unitWith(id)) {
      this.answers.set(member, onWire(answer))
      this.#run.report(member, SKIPPED.status)
    }
  }

  /** Why a request cannot be sent: it refers to what was answered without a URL or an ETag, and is not pending; else undefined. */
  #refusalOf(request, pending) {
    const { id, reference } = request
    if (reference !== null && !pending.has(reference) && this.#recorded(reference).headers.location === undefined) return noLocation(request)
    try {
      this.#resolver.headers(id, pending)
    } catch (error) {
      if (error instanceof Refusal) return error
      throw error
    }
    return undefined
  }

  /** The ids of the unit of a request. */
  #unitWith(id) {
    return this.#units.get(this.#unitOf.get(id))
  }

  /** The group of a request, or null. */
  #groupOf(id) {
    const unit = this.#unitOf.get(id)
    return unit === id ? null : unit
  }

  /** Takes what the part that is out was answered. */
  #take(answer) {
    if (!isSuccess(answer)) {
      this.#end(answer)
      return
    }
    let found
    try {
      const text = responseBytes(answer.body)
      match(this.#part.document, text, { mode: this.#mode })
      found = readResponses(text)
    } catch (error) {
      this.#fail(error)
      return
    }
    this.#settle(found)
  }

  /** Takes the exception by which the part that is out was not answered. */
  #fail(error) {
    this.error = error
    this.#end(toRefusal(error, badGateway).answer)
  }

  /** Gives each request of the part that is out the same answer. Nothing more is sent. */
  #end(answer) {
    const same = onWire(answer)
    this.#isStopped = true
    this.#settle(new Map(this.#part.ids.map((id) => [id, same])))
  }

  /** Notes what the requests of the part that is out were answered, and has the run take it; one without an answer was skipped. */
  #settle(found) {
    const { ids } = this.#part
    for (const id of ids) {
      const answer = found.get(id) ?? SKIPPED
      this.answers.set(id, answer)
      if (isSuccess(answer) && this.#resolver.referred.has(id)) this.#resolver.record(id, answer.headers, answer.body)
    }
    if (!this.#isStopped) this.#run.take(this.#given, { responses: ids.map((id) => this.#recorded(id)) }, { mode: this.#mode })
  }

  /** The response to a request, with the URL and the ETag of what others refer to as headers. */
  #recorded(id) {
    const { status } = this.answers.get(id)
    return { id, status, atomicityGroup: this.#groupOf(id), headers: this.#resolver.recorded(id) }
  }

  /** The responses to the whole batch, as `match` accepts them: statuses, and of what others refer to the URL and the ETag. */
  responses() {
    return { responses: Array.from(this.answers.keys(), (id) => this.#recorded(id)) }
  }
}

module.exports = { Parts, responseBytes }
