'use strict'

// What the requests of a batch refer to: URLs and ETags that other requests were answered.

const { Refusal } = require('../errors/refusals.js')
const { readEntity: entityOf, toWire } = require('./bodies.js')
const { targetsOf } = require('./targets.js')

// In these headers `$` and an id stand for the ETag that the request was answered (OData JSON Format 4.01, section 19.3).
const CONDITIONS = ['if-match', 'if-none-match']

const PLACES = ['location', 'odata-entityid']
const PLACES_IN_BODY = ['@id', '@odata.id']
const CONTEXTS = ['@context', '@odata.context']
const TAGS_IN_BODY = ['@etag', '@odata.etag']

const NONE = new Set()

/** The first of some members that an object has that is a string, and not empty. */
function textAmong(object, names) {
  return names.map((name) => object[name]).find((value) => typeof value === 'string' && value !== '')
}

/** What a call returns, or the refusal that it throws, as a function. */
function outcomeOf(call) {
  try {
    const value = call()
    return () => value
  } catch (error) {
    if (!(error instanceof Refusal)) throw error
    return () => {
      throw error
    }
  }
}

/** What a call returns, or undefined for a refusal. */
function foundBy(call) {
  try {
    return call()
  } catch (error) {
    if (error instanceof Refusal) return undefined
    throw error
  }
}

class ReferenceResolver {
  #requests
  #targets
  /** The ids of the requests that others refer to. */
  referred
  // Of these, functions that return their URLs, and what they were answered.
  #urls = new Map()
  #answers = new Map()

  /** `base` and `roots` say where requests may lead; see `targetsOf`. */
  constructor(requests, base, roots) {
    this.#targets = targetsOf(base, roots)
    this.#requests = new Map(requests.map((request) => [request.id, request]))
    this.referred = new Set(requests.flatMap(({ reference, headers }) => [reference, ...this.#tagsIn(headers).map(([, id]) => id)]))
  }

  /** The request with an id, as it is in the batch. */
  of(id) {
    return this.#requests.get(id)
  }

  /** Keeps what a request was answered to which others refer: its headers, and the JSON of its body. */
  record(id, headers, text) {
    this.#answers.set(id, { headers, text })
    this.#urlOf(id)
  }

  /** What others may refer to of what a request was answered, as headers: its URL and its ETag, where it has them. */
  recorded(id) {
    if (!this.#answers.has(id)) return {}
    const [location, etag] = [() => this.#below(id, ''), () => this.#etag(id)].map(foundBy)
    return { ...(location !== undefined && { location }), ...(etag !== undefined && { etag }) }
  }

  /** A request as it is to be sent, or a refusal if nothing can be sent. */
  prepare(id) {
    const request = this.#requests.get(id)
    const { method, group, body } = request
    const [headers, url] = [this.headers(id), this.url(id)]
    if (body === undefined) return { id, method, url, headers, body, group }
    headers['content-type'] ??= 'application/json'
    return { id, method, url, headers, body: toWire(body, headers), group }
  }

  /** The URL to which a request is sent, or a refusal. */
  url(id) {
    return this.referred.has(id) ? this.#urlOf(id)() : this.#makeUrl(id)
  }

  #makeUrl(id) {
    const { url, reference, rest } = this.of(id)
    return reference === null ? this.#targets.target(url) : this.#below(reference, rest)
  }

  /** The headers of a request with ETags in place of references, but for those to the ids that are kept; or a refusal. */
  headers(id, kept = NONE) {
    const { headers } = this.of(id)
    const found = { ...headers }
    for (const [name, other] of this.#tagsIn(headers)) if (!kept.has(other)) found[name] = this.#etag(other)
    return found
  }

  /** What returns the URL of a request that others refer to. It is kept, so that a long chain of them needs no deep stack. */
  #urlOf(id) {
    if (!this.#urls.has(id)) this.#urls.set(id, outcomeOf(() => this.#makeUrl(id)))
    return this.#urls.get(id)
  }

  /** The headers of a request that refer to an ETag, each with the id that it names. */
  #tagsIn(headers) {
    const pairs = CONDITIONS.filter((name) => headers[name]?.startsWith('$')).map((name) => [name, headers[name].slice(1)])
    return pairs.filter(([, id]) => this.#requests.has(id))
  }

  /** The URL of what a request has created or returned, and what follows a reference to it. */
  #below(id, rest) {
    const { place, context } = this.#location(id)
    return this.#targets.below(this.url(id), place, context, rest)
  }

  /** The URL of what a request has created or returned, if its answer has one, and what that is relative to, if not to its own. */
  #location(id) {
    const { headers, text } = this.#answers.get(id)
    const inHeaders = textAmong(headers, PLACES)
    if (inHeaders !== undefined) return { place: inHeaders }
    const entity = entityOf(text)
    const place = textAmong(entity, PLACES_IN_BODY)
    if (place === undefined && this.of(id).method === 'POST') {
      throw new Refusal(424, 'NoLocation', `${id} was answered without the URL of what it has created`, { target: id })
    }
    // The URLs in a body are relative to its context, if it has one (OData JSON Format 4.01, section 4.6.1).
    return { place, context: textAmong(entity, CONTEXTS) }
  }

  #etag(id) {
    const { headers, text } = this.#answers.get(id) ?? {}
    if (headers === undefined) {
      throw new Refusal(400, 'NoETag', `${id} is not answered yet; it has to be in dependsOn`, { target: id })
    }
    const tag = headers.etag ?? textAmong(entityOf(text), TAGS_IN_BODY)
    if (tag === undefined) throw new Refusal(424, 'NoETag', `${id} was answered without an ETag`, { target: id })
    return tag
  }
}

module.exports = { CONDITIONS, ReferenceResolver }
