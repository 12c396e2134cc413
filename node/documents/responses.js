'use strict'

// The responses of a service, with the bytes of their bodies as they are in the document.

const { responses } = require('../calls/responses.js')
const { Refusal } = require('../errors/refusals.js')
const { isJson, mediaType, toWire } = require('../http/bodies.js')
const { finalStatus, foldHeaders } = require('../http/messages.js')

/** The headers of a response; what is not a text or a number is left out, since no rule asks for them. */
function readHeaders(members) {
  const all = typeof members === 'object' && members !== null ? Object.entries(members) : []
  return foldHeaders(Object.fromEntries(all.filter(([, value]) => ['string', 'number'].includes(typeof value))))
}

/** Whether a text is base64url, or base64, with its `=` or without. */
function isBase64(text) {
  return /^[\w+/-]*={0,2}$/.test(text) && text.replace(/=+$/, '').length % 4 !== 1
}

/** The bytes on the wire of a body; where it is not what its media type says, those of its JSON or its text. */
function wireBytes(text, headers) {
  const type = mediaType(headers)
  if (isJson(type)) return text
  const value = JSON.parse(text.toString())
  if (typeof value !== 'string') return text
  if (!type.startsWith('text/') && !isBase64(value)) return Buffer.from(value)
  try {
    return toWire(text, headers)
  } catch (error) {
    if (!(error instanceof Refusal)) throw error
    return Buffer.from(value)
  }
}

/**
 * What each request was answered, by its id: header names in lower case, the body as bytes on the wire. The responses are a
 * document that `match` accepts (OData JSON Format 4.01, section 19.5).
 */
function readResponses(document) {
  return new Map(responses(document).map((response) => {
    const headers = readHeaders(response.headers && JSON.parse(response.headers.toString()))
    const body = response.body === undefined ? Buffer.alloc(0) : wireBytes(response.body, headers)
    return [response.id, { status: finalStatus(response.status), headers, body }]
  }))
}

module.exports = { readResponses }
