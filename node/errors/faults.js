'use strict'

// Why a call does not do what it is asked for.

const { Findings } = require('./findings.js')
const library = require('../library/index.js')

const NUMBERS = 4 // of an odb_position
const OF_FAULT = 6 + NUMBERS // of an odb_fault: a start and a length for each of three words, and a position

const DONE = 0
const REFUSED = 1
const WRONG_OPTION = 2
const OUT_OF_MEMORY = 4

// What the library says of codes, once that was asked for.
const explained = new Map()

/** What a code means, and the name of the fault or the cause; nothing of one that is no code. */
function explain(code) {
  if (!explained.has(code)) {
    const [status, text] = library.explain(Buffer.from(String(code)))
    const [, name, meaning] = /^\S+ (\S+).*\n([^]*)\nrefused: /.exec(status === DONE ? text.toString() : '') ?? []
    explained.set(code, { name, meaning: meaning ?? '' })
  }
  return explained.get(code)
}

class Fault extends Error {
  // What the document says, if there is one, and where the place is in it, once that is known.
  #findings
  #position

  /** `document` is its bytes, or what it says, which all its faults share. */
  constructor(code, faultName, place, document, position) {
    super(`${code} ${faultName} ${place}`)
    this.name = 'Fault'
    this.code = code
    this.faultName = faultName
    this.place = place
    this.#findings = document === undefined || document instanceof Findings ? document : new Findings(document)
    this.#position = position
  }

  get line() {
    return this.#numbers[0]
  }

  get column() {
    return this.#numbers[1]
  }

  get offset() {
    return this.#numbers[2]
  }

  get end() {
    return this.#numbers[3]
  }

  get explanation() {
    return explain(this.code).meaning
  }

  get details() {
    const begin = this.#findings?.describe(this.code, this.place) ?? ''
    return `${begin}${this.faultName}: ${this.explanation.replace(/\s+/g, ' ').trim()}`
  }

  get #numbers() {
    this.#position ??= this.#findings === undefined ? [] : findPlace(this.#findings.document, this.place)
    return this.#position
  }
}

/** The line, the column, the offset and the end of a place in a document; nothing if it is none. */
function findPlace(document, place) {
  const numbers = new Float64Array(NUMBERS)
  const status = library.where(document, Buffer.from(place), numbers)
  if (status === OUT_OF_MEMORY) throw errorWithCode('ERR_ODB_OUT_OF_MEMORY', 'out of memory')
  return status === DONE ? [...numbers] : []
}

class Refused extends Error {
  constructor(code, causeName, id) {
    super(`${code} ${causeName} ${id}`)
    this.name = 'Refused'
    this.code = code
    this.causeName = causeName
    this.id = id
  }

  get explanation() {
    return explain(this.code).meaning
  }
}

// The letters of the codes of causes, by the tens of their statuses: 11 is S1, and 21 is P1.
const OF_CAUSES = { 1: 'S', 2: 'P' }

/** What a start or a report throws that is refused; undefined for another status. */
function refusedError(status, id) {
  const letter = OF_CAUSES[Math.floor(status / 10)]
  if (letter === undefined) return undefined
  const code = `${letter}${status % 10}`
  return new Refused(code, explain(code).name, id)
}

function errorWithCode(code, message, Kind = Error) {
  return Object.assign(new Kind(message), { code })
}

/** The fault of a line, in one of the documents: the batch, and maybe a second one. */
function readFault(line, documents) {
  const [, code, name, place] = line.split(' ')
  const isInBatch = place === 'batch' || place.startsWith('/requests/')
  return new Fault(code, name, place, documents[isInBatch ? 0 : documents.length - 1])
}

/** The faults whose words lie in a text of ASCII, by the numbers of each: all faults of a batch. */
function listedFaults(batch, text, numbers) {
  const findings = new Findings(batch)
  return Array.from({ length: numbers.length / OF_FAULT }, (_, i) => {
    const own = numbers.subarray(OF_FAULT * i, OF_FAULT * (i + 1))
    const words = [0, 2, 4].map((at) => text.slice(own[at], own[at] + own[at + 1]))
    return new Fault(...words, findings, [...own.subarray(6)])
  })
}

/** What a call over documents throws that is not done. */
function callError(name, status, text, ...documents) {
  if (status === REFUSED) return readFault(text.toString().trimEnd(), documents)
  if (status === OUT_OF_MEMORY) return errorWithCode('ERR_ODB_OUT_OF_MEMORY', 'out of memory')
  return errorWithCode('ERR_ODB_STATUS', `${name} returned the status ${status}`)
}

module.exports = { DONE, Fault, REFUSED, Refused, WRONG_OPTION, callError, errorWithCode, explain, listedFaults, readFault, refusedError }
