'use strict'

// What is to be sent of each request of a batch. index.d.ts says what the call takes and returns.

const { documentBytes } = require('../documents/bytes.js')
const { DONE, callError } = require('../errors/faults.js')
const library = require('../library/index.js')

// How many numbers a request has: a start and a length for each of eight parts, and a position.
const NUMBERS = 17

/** The request whose parts lie there, from a number on; its reference is missing yet. `slice` is a text by start and length. */
function readRequest(document, slice, all, from) {
  const [id, method, url, rest, headers, group, names] = [0, 2, 4, 6, 8, 10, 12].map((at) => slice(all[from + at], all[from + at + 1]))
  const [start, length] = [all[from + 14], all[from + 15]]
  const body = start < 0 ? undefined : document.subarray(start, start + length)
  const needs = names === '' ? [] : names.split(',')
  return { id, method, url, reference: null, rest, headers: JSON.parse(headers), group, needs, body }
}

/** What returns the part of a text by its start and its length in bytes; null if there is no such part. */
function slicer(text) {
  const all = text.toString()
  if (all.length === text.length) return (start, length) => (start < 0 ? null : all.slice(start, start + length))
  return (start, length) => (start < 0 ? null : text.toString('utf8', start, start + length))
}

/** The requests of a document, by the text and the numbers that a call has listed. */
function readRequests(document, text, all) {
  const slice = slicer(text)
  const found = Array.from({ length: all.length / NUMBERS }, (_, at) => readRequest(document, slice, all, NUMBERS * at))
  found.forEach((request, at) => {
    const reference = all[NUMBERS * (at + 1) - 1]
    if (reference >= 0) request.reference = found[reference].id
  })
  return found
}

/** The bytes of a document, of which bodies are parts. */
function toBuffer(document) {
  return Buffer.from(document.buffer, document.byteOffset, document.length)
}

function requests(batch) {
  const given = documentBytes(batch)
  const document = toBuffer(given)
  const [status, text, all] = library.requests(document)
  if (status !== DONE) throw callError('requests', status, text, given)
  return readRequests(document, text, all)
}

module.exports = { readRequests, requests, slicer, toBuffer }
