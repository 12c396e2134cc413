'use strict'

// A batch that is made by calls. client.d.ts says what each takes and returns.

const { check } = require('../calls/commands.js')
const { requireOptions } = require('../calls/options.js')
const { requests } = require('../calls/requests.js')
const { writeBatch, writeRequest } = require('../documents/batch_text.js')
const { asBytes, kindName, toHeaderObject } = require('../documents/bytes.js')
const { Fault } = require('../errors/faults.js')
const { isJson, mediaType, toJson } = require('../http/bodies.js')
const { foldHeaders, validateAnswer } = require('../http/messages.js')
const { CONDITIONS } = require('../http/references.js')
const { firstSegment } = require('../http/urls.js')
const { CONSTANTS } = require('../library/constants.js')
const { Parts } = require('./parts.js')
const { restDocument } = require('./rest.js')
const { Results } = require('./results.js')

const OF_REQUEST = ['after', 'headers', 'id']
const OF_GROUP = ['id']
const OF_SEND = ['limit', 'mode']
// Ids to which no URL refers, since $ and such a name mean something else (OData URL Conventions 4.01).
const RESERVED = new Set(CONSTANTS.reserved_ids)
// Kinds of objects that JSON.stringify writes as {}, whatever they hold.
const WITHOUT_JSON = new Set(['Blob', 'File', 'FormData', 'Headers', 'Map', 'Promise', 'ReadableStream', 'Set', 'URLSearchParams'])

const COMMON = { 'content-type': 'application/json', accept: 'application/json' }

/** What later requests of a batch may depend on. */
class Named {
  #origin

  constructor(id, origin) {
    this.id = id
    this.#origin = origin
  }

  /** Its name in the batch of an origin. */
  static nameIn(origin, named) {
    if (typeof named === 'string') return named
    if (!(named instanceof Named)) throw new TypeError('a request or a group is named by what the batch returned, or by its id')
    if (named.#origin !== origin) throw new RangeError(`${named.id} is of another batch`)
    return named.id
  }
}

/** A request. As a text it is the reference `$id`. */
class Reference extends Named {
  toString() {
    return `$${this.id}`
  }
}

/** An atomicity group. */
class Group extends Named {}

/** The headers with which a batch is posted (OData Protocol 4.01, section 8.2.8.3). */
function batchHeaders(mode) {
  return mode === 'stop' ? { ...COMMON } : { ...COMMON, prefer: 'continue-on-error' }
}

/** Throws unless an id is a text. */
function requireId(id) {
  if (typeof id !== 'string') throw new TypeError(`an id must be a string, not ${String(id)}`)
}

/** Throws unless the bytes of a body are JSON: they are in the document as they are. */
function requireJson(bytes) {
  try {
    JSON.parse(new TextDecoder('utf-8', { fatal: true }).decode(bytes))
  } catch (error) {
    throw new TypeError('the body is not JSON', { cause: error })
  }
}

/** Throws for a body that is neither bytes nor a value that has a JSON. */
function requireBody(body) {
  const kind = kindName(body)
  if (WITHOUT_JSON.has(kind) || (ArrayBuffer.isView(body) && asBytes(body) === undefined)) {
    throw new TypeError(`a body must be a Uint8Array, an ArrayBuffer or a value that has a JSON, not of the kind ${kind}`)
  }
}

/** The text of a body in a document, or undefined if there is none. */
function bodyText(body, headers) {
  requireBody(body)
  const text = toJson(body, headers)
  if (text !== undefined && asBytes(body) !== undefined && isJson(mediaType(headers))) requireJson(text)
  return text
}

/** What follows a `$` at the beginning of a URL and of conditions. */
function findReferences(url, headers) {
  const values = [firstSegment(url), ...CONDITIONS.map((name) => headers[name] ?? '')]
  return values.filter((value) => value.startsWith('$')).map((value) => value.slice(1))
}

/** Calls a function. The message of a fault names the request, not its position. */
function withDetails(call) {
  try {
    return call()
  } catch (error) {
    if (error instanceof Fault) error.message = `${error.code} ${error.details}`
    throw error
  }
}

class Batch {
  // The text of each request, with its id, its group or null, and its operation.
  #requests = []
  // The group of each request, or null, by its id, and of each group itself: what is taken as a name.
  #names = new Map()
  // The names of the batch of which this is the rest: a reference to it means the same in both.
  #spent = new Set()
  // Likewise, of the group that is made: they are added to the others once it is.
  #own = this.#names
  // By the prefix of a name, up to which number names are taken.
  #numbers = {}
  #group = null
  // What a Reference and a Group have in common with the batches that they may be used in.
  #origin = Symbol('batch')

  static read(document) {
    const batch = new Batch()
    for (const request of requests(document)) batch.#append(request)
    return batch
  }

  get size() {
    return this.#requests.length
  }

  get(url, options) {
    return this.request('GET', url, undefined, options)
  }

  post(url, body, options) {
    return this.request('POST', url, body, options)
  }

  put(url, body, options) {
    return this.request('PUT', url, body, options)
  }

  patch(url, body, options) {
    return this.request('PATCH', url, body, options)
  }

  delete(url, options) {
    return this.request('DELETE', url, undefined, options)
  }

  request(method, url, body, options = {}) {
    const { after = [], headers = {}, id = this.#freeName('', this.size) } = requireOptions(options, OF_REQUEST)
    requireId(id)
    if (RESERVED.has(id)) throw new RangeError(`no URL can refer to a request with the id ${id}`)
    const place = this.#urlText(url)
    const folded = this.#foldHeaders(headers)
    const isThere = body !== undefined && body !== null
    if (isThere) folded['content-type'] ??= 'application/json'
    const text = isThere ? bodyText(body, folded) : undefined
    const needs = this.#findNeeds(after, place, folded)
    this.#append({ id, group: this.#group?.id ?? null, method, url: place, headers: folded, needs, body: text })
    return new Reference(id, this.#origin)
  }

  group(add, options = {}) {
    const { id = this.#freeName('g', 0) } = requireOptions(options, OF_GROUP)
    requireId(id)
    if (this.#group !== null) throw new Error('a group cannot be in another one')
    const [size, numbers, group] = [this.size, { ...this.#numbers }, new Group(id, this.#origin)]
    this.#group = group
    this.#own = new Map()
    this.#takeGroup(id)
    try {
      if (typeof add(group)?.then === 'function') throw new TypeError('the function of a group must not be async')
      for (const [name, own] of this.#own) this.#names.set(name, own)
    } catch (error) {
      this.#requests.length = size
      this.#numbers = numbers
      throw error
    } finally {
      this.#group = null
      this.#own = this.#names
    }
    return group
  }

  document() {
    return writeBatch(this.#requests.map(({ text }) => text))
  }

  check() {
    return withDetails(() => check(this.document()))
  }

  async send(post, options = {}) {
    const { mode, limit } = requireOptions(options, OF_SEND)
    if (typeof post !== 'function') throw new TypeError('what posts a batch must be a function')
    const parts = withDetails(() => new Parts(this.document(), { mode, limit }))
    await parts.send(async (body) => validateAnswer(await post({ method: 'POST', headers: batchHeaders(mode), body })))
    const requests = new Map(this.#requests.map((request) => [request.id, request]))
    const sent = { document: parts.document, requests, findName: (named) => Named.nameIn(this.#origin, named) }
    return new Results(sent, parts.answers, () => this.#readRest(restDocument(parts.document, parts.responses())), parts)
  }

  /** The batch of a document with requests of this one, for which the same references hold. */
  #readRest(document) {
    const batch = Batch.read(document)
    batch.#origin = this.#origin
    batch.#spent = new Set([...this.#spent, ...this.#names.keys()])
    return batch
  }

  /** The first name with a number that is not taken. */
  #freeName(prefix, least) {
    let count = Math.max(least, this.#numbers[prefix] ?? 0)
    const isTaken = (name) => [this.#own, this.#names, this.#spent].some((names) => names.has(name))
    while (isTaken(`${prefix}${count + 1}`)) count++
    this.#numbers[prefix] = count
    return `${prefix}${count + 1}`
  }

  #append(request) {
    const { id, group, method, url } = request
    const operation = `${method.toUpperCase()} ${url.split('?', 1)[0]}`
    this.#requests.push({ id, group, operation, text: writeRequest(request) })
    this.#own.set(id, group)
    if (group !== null) this.#takeGroup(group)
  }

  #takeGroup(name) {
    if (this.#groupOf(name) === undefined) this.#own.set(name, name)
  }

  /** The group of what has a name, or null; undefined if nothing has it. */
  #groupOf(name) {
    return this.#own.get(name) ?? this.#names.get(name)
  }

  /** A URL, in which a request of this batch stands for its reference. */
  #urlText(url) {
    if (url instanceof Reference) return `$${Named.nameIn(this.#origin, url)}`
    if (typeof url !== 'string') throw new TypeError(`a URL is a string or a reference, not ${String(url)}`)
    return url
  }

  /** Headers by their names in lower case, in which a request of this batch stands for its reference. */
  #foldHeaders(headers) {
    const all = toHeaderObject(headers) ?? {}
    for (const value of Object.values(all)) if (value instanceof Named) Named.nameIn(this.#origin, value)
    return foldHeaders(all)
  }

  /** The names that a request depends on: those that it lists, what it refers to, and the groups of these. */
  #findNeeds(after, url, headers) {
    const listed = (Array.isArray(after) ? after : [after]).map((named) => Named.nameIn(this.#origin, named))
    const names = [...listed, ...findReferences(url, headers).filter((name) => this.#groupOf(name) !== undefined)]
    const groups = names.map((name) => this.#groupOf(name)).filter((group) => group && group !== this.#group?.id)
    return [...new Set([...names, ...groups])]
  }
}

module.exports = { Batch, Group, Reference }
