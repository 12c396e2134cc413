'use strict'

// Where the requests of a batch are sent: below roots, which the library sees to, or anywhere.

const { callError } = require('../errors/faults.js')
const { Refusal } = require('../errors/refusals.js')
const library = require('../library/index.js')
const { decodePart } = require('./urls.js')

// What the library returns for a URL that has a control character, or leads out of the roots.
const REFUSED = [31, 32]

// What a URL without scheme, host and leading slash is joined to, where there is no base.
const NOWHERE = 'relative://nowhere/'
const SURROGATE = /[\ud800-\udfff]/
const LONE_SURROGATE = /\p{Surrogate}/u
const NOTHING = new Uint8Array()
// What `URL` leaves in a path, and no URL has.
const NOT_IN_PATHS = /[[\]^|]/g

function unreadable() {
  return new Refusal(400, 'BadUrl', 'The URL cannot be read')
}

function isAbsolute(url) {
  return /^[a-z][a-z0-9+.-]*:/i.test(url)
}

/** Whether a text has half of a surrogate pair. */
function hasHalf(text) {
  return SURROGATE.test(text) && LONE_SURROGATE.test(text)
}

function bytesOf(text) {
  return text === '' ? NOTHING : Buffer.from(text)
}

/** A URL that is relative to another one, which is absolute. */
function joinUrl(url, base) {
  try {
    return new URL(url, base)
  } catch {
    throw unreadable()
  }
}

/** A URL that is relative to another one, which may be relative, too. */
function followUrl(url, from) {
  if (isAbsolute(url)) return url
  if (isAbsolute(from)) return joinUrl(url, from).href
  if (url.startsWith('/')) return url
  const slash = from.startsWith('/') ? '/' : ''
  return slash + joinUrl(url, NOWHERE + from.slice(slash.length)).href.slice(NOWHERE.length)
}

/** The URL of a resource, to which more segments may be appended: without a query, a fragment and slashes at its end. */
function entityUrl(url) {
  let end = url.search(/[?#]|$/)
  while (url[end - 1] === '/') end--
  return url.slice(0, end)
}

/** A URL that an option names: absolute, and with a slash at its end. */
function folderOf(name, text) {
  let url
  try {
    url = new URL(text)
  } catch {
    url = undefined
  }
  if (url === undefined || !url.pathname.endsWith('/') || url.search + url.hash !== '') {
    throw new TypeError(`the ${name} must be a URL that ends with /, not ${String(text)}`)
  }
  return url
}

/** The scheme and the host of a root, and its path. */
function rootParts(name, text) {
  const { protocol, username, password, host, pathname } = folderOf(name, text)
  if (username + password !== '' || host === '') {
    throw new TypeError(`the ${name} must be a URL with a host, and without user information, not ${String(text)}`)
  }
  return [`${protocol}//${host}`, pathname.replace(NOT_IN_PATHS, encodeURIComponent)]
}

/** Where requests are sent that may lead below roots alone: `odb_resolve` has the rules. */
class ServiceTargets {
  #base
  #roots
  // The hosts of the roots, as roots.
  #hosts
  // Of the first root, decoded.
  #path

  /** URLs are relative to `base`; without it they are absolute. Each begins with one of `roots`. All of these end with a slash. */
  constructor(base, roots) {
    const parts = roots.map((root) => rootParts('roots', root))
    this.#base = bytesOf(base === '' ? '' : rootParts('base', base).join(''))
    this.#roots = Buffer.from(parts.map((part) => part.join('')).join('\n'))
    this.#hosts = Buffer.from(parts.map(([host]) => `${host}/`).join('\n'))
    this.#path = decodePart(parts[0][1])
  }

  /** Where a request with a URL is sent; or a refusal. */
  target(url) {
    return this.#resolve(this.#base, this.#roots, url, { given: url })
  }

  /**
   * Where a request is sent that refers to another, which was sent to `sent`; or a refusal. `place` is the URL of what that one has
   * created or returned, if its answer has one; it is relative to `context`, if there is one, else to `sent`. `rest` is what follows
   * the reference.
   */
  below(sent, place = '', context, rest) {
    const isRelative = context !== undefined && place !== '' && !isAbsolute(place)
    const from = isRelative ? this.#resolve(Buffer.from(sent), this.#hosts, context) : sent
    return this.#resolve(this.#base, this.#roots, rest, { sent: from, location: place })
  }

  #resolve(base, roots, url, { sent = '', location = '', given = '' } = {}) {
    if (hasHalf(url) || hasHalf(location)) throw unreadable()
    const found = library.resolve(base, roots, bytesOf(url), bytesOf(sent), bytesOf(location))
    if (typeof found === 'string') return found
    throw REFUSED.includes(found) ? this.#outside(given) : callError('resolve', found)
  }

  #outside(given) {
    const isElsewhere = /^\/(?!\/)/.test(given) && !decodePart(given).startsWith(this.#path)
    const hint = isElsewhere ? ': drop the / that it begins with' : ''
    return new Refusal(404, 'NotFound', `The URL leads out of the service${hint}`)
  }
}

/** Where requests are sent that may lead anywhere: as their URLs are, or relative to a base. Its methods are those of the other. */
class AnyTargets {
  #base

  constructor(base) {
    this.#base = base === '' ? undefined : folderOf('base', base)
  }

  target(url) {
    if (hasHalf(url)) throw unreadable()
    if (this.#base === undefined) return url
    const found = joinUrl(url, this.#base)
    found.hash = ''
    return found.href
  }

  below(sent, place = '', context = '', rest) {
    const url = followUrl(place, place === '' ? sent : followUrl(context, sent))
    // An empty URL is the folder that URLs are relative to, and an empty Location is none.
    return this.target(entityUrl(url) + rest || url.split(/[?#]/, 1)[0] || '.')
  }
}

/** Where requests are sent: below the roots, which are the base if there are none given, or anywhere if there is none. */
function targetsOf(base = '', roots = base === '' ? [] : [base]) {
  return roots.length > 0 ? new ServiceTargets(base, roots) : new AnyTargets(base)
}

module.exports = { targetsOf }
