'use strict'

// The text of a batch that is made of requests (OData JSON Format 4.01, section 19.1).

const { writeJson } = require('./bytes.js')

const END = Buffer.from('}')
const BODY = Buffer.from(',"body":')
const COMMA = Buffer.from(',')
const [BEGIN_OF_BATCH, END_OF_BATCH] = ['{"requests":[', ']}'].map((text) => Buffer.from(text))

/** The text of a request in a batch. Its body is the bytes that it has. */
function writeRequest({ id, group, needs, method, url, headers, body }) {
  const text = writeJson({
    id,
    atomicityGroup: group ?? undefined,
    dependsOn: needs.length > 0 ? needs : undefined,
    method: method.toLowerCase(),
    url,
    headers: Object.keys(headers).length > 0 ? headers : undefined,
  })
  return body === undefined ? text : Buffer.concat([text.subarray(0, -1), BODY, body, END])
}

/** The text of the batch with these texts of requests. */
function writeBatch(requests) {
  const parts = requests.flatMap((text, at) => (at > 0 ? [COMMA, text] : [text]))
  return Buffer.concat([BEGIN_OF_BATCH, ...parts, END_OF_BATCH])
}

module.exports = { writeBatch, writeRequest }
