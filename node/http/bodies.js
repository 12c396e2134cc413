'use strict'

// Bodies between the wire and a batch (OData JSON Format 4.01, sections 19.1 and 19.5). A body of JSON is in a batch as it is,
// one of text as a string, and any other in base64url.

const { asBytes, writeJson } = require('../documents/bytes.js')
const { Refusal } = require('../errors/refusals.js')
const { CONSTANTS } = require('../library/constants.js')

// How long the text of a body may be in a response.
const MAX_BODY_BYTES = CONSTANTS.limits.document_bytes
const MARK = Buffer.from([0xef, 0xbb, 0xbf])

// The names of Node for character sets in which a text can be written.
const ENCODINGS = new Map([
  ['utf-8', 'utf8'],
  ['utf8', 'utf8'],
  ['us-ascii', 'ascii'],
  ['iso-8859-1', 'latin1'],
  ['latin1', 'latin1'],
  ['utf-16le', 'utf16le'],
])

/** The media type of a message in lower case, without parameters; empty if it names none. */
function mediaType(headers) {
  return (headers['content-type'] ?? '').split(';', 1)[0].trim().toLowerCase()
}

/** The character set that a message names, in lower case, or UTF-8. */
function charset(headers) {
  return /;\s*charset="?([\w-]+)/i.exec(headers['content-type'] ?? '')?.[1].toLowerCase() ?? 'utf-8'
}

/** Whether a body of a media type is JSON, as one without a type is. */
function isJson(type) {
  return type === '' || type === 'application/json' || type.endsWith('+json')
}

/** The bytes of a text in a character set, or a refusal if that has not all of its characters. */
function encode(text, name) {
  const encoding = ENCODINGS.get(name)
  const bytes = encoding === undefined ? undefined : Buffer.from(text, encoding)
  if (bytes?.toString(encoding) === text) return bytes
  throw new Refusal(400, 'BadCharset', `The body cannot be written in ${name}`, { target: 'content-type' })
}

/** The text of bytes. Where they are not of their character set, each byte is a character. */
function decode(bytes, name) {
  try {
    return new TextDecoder(name, { fatal: true }).decode(bytes)
  } catch {
    return Buffer.from(bytes).toString('latin1')
  }
}

/** The bytes on the wire of a body, by its text in the batch and its headers. JSON stays byte for byte as it is. */
function toWire(text, headers) {
  const type = mediaType(headers)
  if (isJson(type)) return text
  const value = JSON.parse(text.toString())
  return type.startsWith('text/') ? encode(value, charset(headers)) : Buffer.from(value, 'base64url')
}

/** Bytes of a text, without the mark that it may begin with. */
function skipMark(bytes) {
  const hasMark = bytes[0] === MARK[0] && bytes.subarray(0, MARK.length).equals(MARK)
  return hasMark ? bytes.subarray(MARK.length) : bytes
}

/**
 * The text in the response of a body, by the headers of its answer; undefined if it has none. Bytes that claim to be JSON are
 * not looked at: the report of the run reads them.
 */
function toJson(body, headers) {
  if (body === undefined || body === null) return undefined
  const bytes = body instanceof Buffer ? body : asBytes(body)
  if (bytes === undefined) return writeJson(body)
  const wire = Buffer.from(bytes.buffer, bytes.byteOffset, bytes.length)
  if (wire.length === 0) return undefined
  const type = mediaType(headers)
  if (isJson(type)) return skipMark(wire)
  return type.startsWith('text/') ? toJsonString(wire, headers) : writeJson(wire.toString('base64url'))
}

/** Bytes as a string of JSON, whatever they are. */
function toJsonString(wire, headers) {
  return writeJson(decode(wire, charset(headers)))
}

/** The members of a body by its text; none if it is not an object of JSON. */
function readEntity(text) {
  try {
    const value = JSON.parse(text)
    return typeof value === 'object' && value !== null ? value : {}
  } catch {
    return {}
  }
}

module.exports = { MAX_BODY_BYTES, isJson, mediaType, readEntity, skipMark, toJson, toJsonString, toWire }
