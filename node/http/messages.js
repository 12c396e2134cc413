'use strict'

// What requests are answered, and the headers of messages by their names in lower case.

const { toHeaderObject } = require('../documents/bytes.js')

const LEAST_STATUS = 200
const MOST_STATUS = 599
const BAD_GATEWAY = 502

/** The text of a header; several values of one are joined. */
function valueText(value) {
  return Array.isArray(value) ? value.join(', ') : String(value)
}

/** Headers by their names in lower case, as strings. Values of one name are joined by commas. */
function foldHeaders(headers) {
  const found = { __proto__: null } // so that each name is free
  for (const [given, value] of Object.entries(toHeaderObject(headers) ?? {})) {
    if (value === undefined || value === null) continue
    const name = given.toLowerCase()
    found[name] = name in found ? `${found[name]}, ${valueText(value)}` : valueText(value)
  }
  return found
}

/** A status that may be reported. */
function finalStatus(status) {
  return status >= LEAST_STATUS && status <= MOST_STATUS ? status : BAD_GATEWAY
}

function isSuccess({ status }) {
  return status >= 200 && status <= 299
}

/**
 * The answer in what a function that sends returns: an answer, or the response of a fetch, whose body is read. Throws for a status
 * that is not a whole number: what is no answer must not commit a group.
 */
async function validateAnswer(returned) {
  if (typeof returned !== 'object' || returned === null) throw new TypeError(`send must return an answer, not ${String(returned)}`)
  const { status } = returned
  if (!Number.isInteger(status)) {
    throw new TypeError(`the status of an answer must be a whole number, not the ${typeof status} ${String(status)}`)
  }
  const body = typeof returned.arrayBuffer === 'function' ? Buffer.from(await returned.arrayBuffer()) : returned.body
  return { status: finalStatus(status), headers: foldHeaders(returned.headers), body }
}

module.exports = { finalStatus, foldHeaders, isSuccess, validateAnswer }
