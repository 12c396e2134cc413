'use strict'

// Documents, events and parts of reports: what callers pass, and the bytes that the library reads.

const { CONSTANTS } = require('../library/constants.js')

// How deep a document may nest.
const MOST_LEVELS = CONSTANTS.limits.document_levels

const NO_BIGINT = 'a BigInt has no JSON: pass the JSON text as bytes'
const LONE_SURROGATE = /\p{Surrogate}/u
const BUFFERS = ['ArrayBuffer', 'SharedArrayBuffer']
const NOTHING = new Uint8Array()

// Gives the name of the class of a typed array, also of a subclass and of another realm, and undefined for any other value.
const { get: arrayClass } = Object.getOwnPropertyDescriptor(Object.getPrototypeOf(Uint8Array.prototype), Symbol.toStringTag)

/** What kind of object a value is, as `Object`, `Map` or `Uint16Array`; `Object` also of an instance of a class. */
function kindName(value) {
  return Object.prototype.toString.call(value).slice('[object '.length, -1)
}

/** The bytes of a text. For one that is not Unicode, bytes that are refused as not UTF-8. */
function utf8Bytes(text) {
  const bytes = Buffer.from(text)
  return LONE_SURROGATE.test(text) ? Buffer.concat([bytes, Buffer.of(0xff)]) : bytes
}

/** Whether a value nests deeper than a document may. */
function isTooDeep(value) {
  let level = new Set([value])
  for (let depth = 0; depth <= MOST_LEVELS; depth++) {
    const objects = [...level].filter((member) => typeof member === 'object' && member !== null)
    level = new Set(objects.flatMap((member) => Object.values(member)))
  }
  return level.size > 0
}

/** The text that JSON.stringify writes. For a value that is too deep for it, a text that is refused as too deep, too. */
function stringify(value) {
  try {
    return JSON.stringify(value)
  } catch (error) {
    // Else it is the caller's stack that is used up.
    if (error instanceof RangeError && isTooDeep(value)) return '['.repeat(MOST_LEVELS + 1)
    if (error instanceof TypeError && error.message.includes('BigInt')) throw new TypeError(NO_BIGINT, { cause: error })
    throw error
  }
}

/** The JSON of a value, or a TypeError if it has none. */
function writeJson(value) {
  const text = stringify(value)
  if (text === undefined) throw new TypeError(`${typeof value} has no JSON`)
  return Buffer.from(text)
}

/** The bytes of a buffer. One that was handed to another thread has none: a TypeError, before any call of the library. */
function viewBuffer(buffer) {
  try {
    return new Uint8Array(buffer)
  } catch (error) {
    throw new TypeError('the bytes of a detached ArrayBuffer are gone', { cause: error })
  }
}

/** The bytes of an array of bytes, or undefined if a value is something else. Bytes that other threads share are copied. */
function asBytes(value) {
  const bytes = BUFFERS.includes(kindName(value)) ? viewBuffer(value) : value
  if (arrayClass.call(bytes) !== 'Uint8Array') return undefined
  if (bytes.length === 0) viewBuffer(bytes.buffer)
  return kindName(bytes.buffer) === 'SharedArrayBuffer' ? new Uint8Array(bytes) : bytes
}

/** The bytes of a document. */
function documentBytes(document) {
  const bytes = asBytes(document)
  if (bytes !== undefined) return bytes
  if (typeof document === 'string') return utf8Bytes(document)
  if (kindName(document) === 'Object') return writeJson(document)
  throw new TypeError(`a document must be a Uint8Array, an ArrayBuffer, a string or a plain object, not ${kindName(document)}`)
}

/** The object of headers: of one, or of the pairs of a Headers, a Map or an array. */
function toHeaderObject(headers) {
  const arePairs = typeof headers === 'object' && headers !== null && Symbol.iterator in headers
  return arePairs ? Object.fromEntries(headers) : headers
}

/** The JSON of a body in a report, which bytes are already; nothing if there is none. */
function bodyBytes(body) {
  return body === undefined || body === null ? NOTHING : asBytes(body) ?? writeJson(body)
}

/** The JSON of the headers and the body of a report; nothing of what it does not have. */
function reportBytes(headers, body) {
  return [bodyBytes(toHeaderObject(headers)), bodyBytes(body)]
}

/** The element of a document of events. */
function eventElement(event) {
  if (event?.step === 'start') return { start: event.id }
  if (event?.step === 'report') {
    if (asBytes(event.body) !== undefined) throw new TypeError('the body of an event must be a value, not bytes')
    return { report: event.id, status: event.status, headers: toHeaderObject(event.headers), body: event.body }
  }
  throw new TypeError('the step of an event must be start or report')
}

/** The bytes of a document of events. */
function eventBytes(events) {
  return Array.isArray(events) ? writeJson({ events: events.map(eventElement) }) : documentBytes(events)
}

module.exports = { asBytes, bodyBytes, documentBytes, eventBytes, kindName, reportBytes, toHeaderObject, writeJson }
