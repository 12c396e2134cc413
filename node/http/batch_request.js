'use strict'

// The HTTP request that carries a batch: its mode, its base and its roots, and the headers that its requests have.

const { validateHeaderValue } = require('node:http')
const { Refusal } = require('../errors/refusals.js')
const { CONSTANTS } = require('../library/constants.js')
const { mediaType } = require('./bodies.js')
const { decodePart } = require('./urls.js')

const FORWARDED = /host="?([^";,\s]+)/gi
// How many hosts of a header count. There are as many as proxies; a client may send thousands, and each URL is compared with all.
const MOST_HOSTS = 16
const HOST = /^([a-z0-9._~-]+|\[[0-9a-f:.]+\])(:[0-9]{1,5})?$/i
const PREFERENCES = /(?:[^,"]|"[^"]*"?)+/g
const NOT_INHERITED = new Set(CONSTANTS.headers.not_inherited)
const PREFIXES_NOT_INHERITED = CONSTANTS.headers.not_inherited_prefixes
// Others could be those by which a proxy tells the service who the client is.
const { allowed: ALLOWED, allowed_prefixes: ALLOWED_PREFIXES } = CONSTANTS.headers
// What clients set on each request by themselves: of a request of a batch it is dropped. The first are of a connection, which such
// a request has not; the others may be allowed.
const { of_connection: OF_CONNECTION, usually_dropped: USUALLY_DROPPED } = CONSTANTS.headers
// How many names the log says at most, since clients choose them.
const MOST_NAMES = 100

/** The path of a URL without its last segment. */
function folder(path) {
  return path.slice(0, path.lastIndexOf('/') + 1)
}

/** Whether a URL may have a host. */
function isHost(host) {
  try {
    return HOST.test(host) && new URL(`http://${host}`).host !== ''
  } catch {
    return false
  }
}

/** A URL with a decoded path, or a refusal if the host is none. */
function absoluteUrl(scheme, host, path) {
  if (!isHost(host)) throw new Refusal(400, 'BadHost', 'The host is not a name with a port', { target: 'host' })
  return `${scheme}://${host}${encodeURI(path)}`
}

/** The hosts that a client has asked, by what proxies say. */
function forwardedHosts({ 'x-forwarded-host': names = '', forwarded = '' }) {
  const inForwarded = Array.from(forwarded.matchAll(FORWARDED), ([, host]) => host)
  const named = [...names.split(',', MOST_HOSTS), ...inForwarded.slice(0, MOST_HOSTS)]
  return named.map((host) => host.trim()).filter(isHost)
}

/** The preferences of a request (RFC 7240), each with its name, its value and its text. */
function readPreferences({ prefer = '' }) {
  return (prefer.match(PREFERENCES) ?? []).map((part) => {
    const [name, ...value] = part.split(';', 1)[0].split('=')
    const folded = name.trim().toLowerCase().replace(/^odata\./, '')
    return { name: folded, value: value.join('=').trim().replace(/^"|"$/g, '').toLowerCase(), text: part.trim() }
  })
}

/** The headers that the requests of a batch have from the request that carries it. */
function inheritHeaders(headers) {
  const isInherited = (name) => !NOT_INHERITED.has(name) && !PREFIXES_NOT_INHERITED.some((prefix) => name.startsWith(prefix))
  return Object.fromEntries(Object.entries(headers).filter(([name]) => isInherited(name)))
}

/** Which headers requests of batches may have for themselves. */
class HeaderPolicy {
  #allowed
  #dropped
  #log
  #refused = new Set()

  /** `allowed` has further names; throws if no request may have one. A name that is refused is logged once. */
  constructor(allowed, log) {
    const added = allowed.map((name) => name.toLowerCase())
    const wrong = added.find((name) => OF_CONNECTION.includes(name))
    if (wrong !== undefined) throw new TypeError(`allowed: no request of a batch may have the header ${wrong}`)
    this.#allowed = new Set([...ALLOWED, ...added])
    this.#dropped = new Set([...OF_CONNECTION, ...USUALLY_DROPPED.filter((name) => !added.includes(name))])
    this.#log = log
  }

  /** The headers of a request with an id; or a refusal. `preferences` are those of the batch that hold for it. */
  apply(id, headers, preferences) {
    const found = {}
    for (const [name, value] of Object.entries(headers)) {
      if (this.#dropped.has(name)) continue
      this.#require(id, name, value)
      found[name] = name === 'prefer' ? [value, ...preferences].join(', ') : value
    }
    return found
  }

  #require(id, name, value) {
    const target = { target: name }
    if (!this.#allowed.has(name) && !ALLOWED_PREFIXES.some((prefix) => name.startsWith(prefix))) {
      const refusal = new Refusal(400, 'HeaderNotAllowed', `A request of a batch may not have the header ${name}`, target)
      this.#note(id, name, refusal)
      throw refusal
    }
    try {
      validateHeaderValue(name, value)
    } catch {
      throw new Refusal(400, 'BadHeader', `The header ${name} has a character that no header may have`, target)
    }
  }

  #note(id, name, refusal) {
    if (this.#refused.has(name) || this.#refused.size === MOST_NAMES) return
    this.#refused.add(name)
    this.#log(refusal, `the request ${id} (the option allowed adds headers, and this is said once)`)
  }
}

class BatchRequest {
  #policy
  // The preferences that are not about the batch.
  #ofRequests
  #inherited
  #path
  /** The mode, as the preference continue-on-error says (OData Protocol 4.01, section 8.2.8.3). */
  mode
  /** The URL that those of the requests are relative to. */
  base
  /**
   * What the URL of each request begins with. A client and the app may write it with the scheme and the host that a proxy in front
   * has; a request is answered here, whatever they are.
   */
  roots

  /**
   * `path` is that of the batch, `root` that with which those of its requests begin, and `policy` says which headers they may have for
   * themselves. Throws the refusal of a request that carries no batch.
   */
  constructor({ method, headers, socket, protocol = socket.encrypted ? 'https' : 'http' }, path, root, policy) {
    if (method !== 'POST') {
      throw new Refusal(405, 'NotAllowed', `${method} does not apply to a batch`, { headers: { allow: 'POST' } })
    }
    if (mediaType(headers) !== 'application/json') {
      throw new Refusal(415, 'BadMediaType', 'A batch is in application/json', { headers: { accept: 'application/json' } })
    }
    const preferences = readPreferences(headers)
    const value = preferences.find(({ name }) => name === 'continue-on-error')?.value
    this.mode = value === '' || value === 'true' ? 'continue' : 'stop'
    const { host = 'localhost' } = headers
    this.base = absoluteUrl(protocol, host, folder(path))
    const hosts = [...new Set([host, ...forwardedHosts(headers)])]
    this.roots = hosts.flatMap((name) => ['http', 'https'].map((scheme) => absoluteUrl(scheme, name, root)))
    this.#path = path
    this.#policy = policy
    this.#ofRequests = preferences.filter(({ name }) => !CONSTANTS.preferences.includes(name)).map(({ text }) => text)
    this.#inherited = inheritHeaders(headers)
    if (this.#ofRequests.length > 0) this.#inherited.prefer = this.#ofRequests.join(', ')
  }

  /** A request of the batch as the service has it, with what it inherits; or a refusal if it may not be sent. */
  serviceRequest({ id, method, url: absolute, headers, body }) {
    const url = absolute.slice(absolute.indexOf('/', absolute.indexOf('://') + '://'.length))
    const [path] = url.split('?', 1)
    if ((path.includes('%') ? decodePart(path) : path) === this.#path) throw new Refusal(400, 'NestedBatch', 'A batch has no batches')
    return { method, url, headers: { ...this.#inherited, ...this.#policy.apply(id, headers, this.#ofRequests) }, body }
  }
}

module.exports = { BatchRequest, HeaderPolicy, folder }
