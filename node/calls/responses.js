'use strict'

// What a service has answered each request of a batch, as it is in the document.

const { DONE, callError } = require('../errors/faults.js')
const library = require('../library/index.js')
const { slicer, toBuffer } = require('./requests.js')

// How many numbers a response has: a start and a length for each of four parts, and a status.
const NUMBERS = 9

/**
 * The responses in the document of a service, in its order: the id, the group or null, the status, the bytes of the headers and of
 * the body, which are undefined if there are none. They need not fit a batch.
 */
function responses(given) {
  const document = toBuffer(given)
  const [status, text, all] = library.responses(document)
  if (status !== DONE) throw callError('responses', status, text, given)
  const slice = slicer(text)
  const bytes = (start, length) => (start < 0 ? undefined : document.subarray(start, start + length))
  return Array.from({ length: all.length / NUMBERS }, (_, at) => {
    const own = all.subarray(NUMBERS * at, NUMBERS * (at + 1))
    return { id: slice(own[0], own[1]), group: slice(own[2], own[3]), status: own[8], headers: bytes(own[4], own[5]), body: bytes(own[6], own[7]) }
  })
}

module.exports = { responses }
