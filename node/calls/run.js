'use strict'

// Live runs. index.d.ts says what each call takes and returns.

const { documentBytes, eventBytes, reportBytes } = require('../documents/bytes.js')
const { DONE, Fault, REFUSED, WRONG_OPTION, callError, errorWithCode, refusedError } = require('../errors/faults.js')
const { CONSTANTS } = require('../library/constants.js')
const library = require('../library/index.js')
const { MAX_REQUESTS, optionNumbers, orderNumber, requireOptions } = require('./options.js')
const { readRequests, requests, toBuffer } = require('./requests.js')

const OPTIONS = ['mode', 'width', 'events']
const MOST = 2 ** 32 - 1

/** Throws what a start or a report returns but that it is done. */
function requireTaken(name, status, id) {
  if (status === DONE) return
  throw refusedError(status, id) ?? callError(name, status, '')
}

/** Why headers or a body are refused: the fault that the same report has as a recorded event. */
function findFault(headers, body) {
  const [status, line] = library.reportFault(headers, body)
  const error = callError('reportFault', status, line)
  return error instanceof Fault ? new Fault(error.code, error.faultName, 'report') : error
}

/** @type {{ states: import('../index').RequestState['state'][], steps: import('../index').NextStep['step'][] }} */
const { states: STATES, steps: STEPS } = CONSTANTS // by their numbers

/**
 * Opens a run of which all requests are sent: the run, and what is to be sent. The batch is read once.
 *
 * @type {(batch: any, options: object) => { run: Run, requests: any[] }}
 */
let openListed

class Run {
  #run
  #ids
  #positions
  #listed
  #size
  #batch
  #requests

  static {
    openListed = (batch, options) => {
      const run = new Run(batch, options, true)
      return { run, requests: run.#requests }
    }
  }

  /** `isListed`: whether what is to be sent of the requests is read with the batch. */
  constructor(batch, options = {}, isListed = false) {
    const { mode, width, events = [] } = requireOptions(options, OPTIONS)
    const [modeNumber, widthNumber] = optionNumbers({ mode, width })
    const [document, recorded] = [documentBytes(batch), eventBytes(events)]
    // How many bytes the response is made of.
    this.#size = document.length + recorded.length
    // For who asks what is to be sent of the requests.
    this.#batch = document
    const openings = [document, recorded, modeNumber, widthNumber]
    // The ids of the requests by their positions, and the positions by the ids.
    this.#ids = isListed ? this.#openListed(...openings) : this.#openAlone(...openings)
    this.#positions = new Map(this.#ids.map((id, position) => [id, position]))
    // Room for all positions, so that a list of some always fits.
    this.#listed = new Uint32Array(Math.max(this.#ids.length, 1))
  }

  /** Opens the run; returns the ids of its requests. */
  #openAlone(...openings) {
    const [document, recorded] = openings
    const [status, text, opened] = library.open(...openings)
    if (status !== DONE) throw callError('open', status, text, document, recorded)
    this.#run = opened
    const [listed, lines] = library.ids(opened, document.length >> 3)
    if (listed !== DONE) throw callError('ids', listed, lines)
    return lines.toString('latin1').split('\n').slice(0, -1)
  }

  /** The same with what is to be sent of them, by one reading of the batch. */
  #openListed(...openings) {
    const [document, recorded] = openings
    const [status, text, numbers, opened] = library.openListed(...openings)
    if (status !== DONE) throw callError('open', status, text, document, recorded)
    this.#run = opened
    this.#requests = readRequests(toBuffer(document), text, numbers)
    return this.#requests.map(({ id }) => id)
  }

  /** The run, or an error if it is closed. */
  get #open() {
    if (this.#run === undefined) throw errorWithCode('ERR_ODB_CLOSED', 'the run is closed')
    return this.#run
  }

  /** The position of a request, or an error if the batch has none with this id. */
  #position(id) {
    const position = this.#positions.get(id)
    if (position === undefined) {
      throw errorWithCode('ERR_ODB_UNKNOWN_ID', `the batch has no request with the id ${String(id)}`, RangeError)
    }
    return position
  }

  /** The positions that a call lists. What is undone it lists only at the end. */
  #listPositions(name) {
    const [status, count] = library[name](this.#open, this.#listed)
    if (status === REFUSED) throw new Fault('F66', 'Unfinished', 'events')
    if (status !== DONE) throw callError(name, status, '')
    return this.#listed.subarray(0, count)
  }

  /** The ids of the requests at positions. */
  #idsAt(positions) {
    const ids = []
    for (const position of positions) ids.push(this.#ids[position])
    return ids
  }

  get ready() {
    return this.#idsAt(this.#listPositions('ready').sort())
  }

  get running() {
    return this.#idsAt(this.#listPositions('running').sort())
  }

  get undone() {
    return this.#idsAt(this.#listPositions('undone'))
  }

  get finished() {
    return library.finished(this.#open) === 1
  }

  nextUnit() {
    const positions = this.#listPositions('nextUnit')
    return positions.length > 0 ? this.#idsAt(positions) : null
  }

  next(order = 'first') {
    const numbers = new Uint32Array(2)
    const status = library.next(this.#open, orderNumber(order), numbers)
    if (status !== DONE) throw callError('next', status, '')
    const [step, position] = numbers
    return step > 0 ? { step: STEPS[step], id: this.#ids[position] } : null
  }

  request(id) {
    if (this.#open) this.#requests ??= requests(this.#batch)
    return this.#requests[this.#position(id)]
  }

  state(id) {
    const numbers = new Uint32Array(2)
    requireTaken('state', library.state(this.#open, this.#position(id), numbers), id)
    const [state, status] = numbers
    return { state: STATES[state], status: status > 0 ? status : null }
  }

  stop() {
    library.stop(this.#open)
  }

  start(id) {
    requireTaken('start', library.start(this.#open, this.#position(id)), id)
  }

  startUnit(id) {
    requireTaken('startUnit', library.startUnit(this.#open, this.#position(id)), id)
  }

  part(batch, limit = MAX_REQUESTS) {
    const run = this.#open
    if (!Number.isInteger(limit) || limit < 1 || limit > MAX_REQUESTS) {
      throw new RangeError(`limit must be a whole number from 1 to ${MAX_REQUESTS}, not ${String(limit)}`)
    }
    const given = documentBytes(batch)
    const [status, text, count] = library.part(run, given, limit, this.#listed)
    if (status === WRONG_OPTION) {
      throw new RangeError('it is another batch than that of the run, or a group has more requests than the limit')
    }
    if (status !== DONE) throw callError('part', status, text, given)
    return count > 0 ? { document: text, ids: this.#idsAt(this.#listed.subarray(0, count)) } : null
  }

  take(part, responses, options = {}) {
    const [mode] = optionNumbers(requireOptions(options, ['mode']))
    const [given, answered] = [documentBytes(part.document), documentBytes(responses)]
    const [status, line] = library.take(this.#open, given, answered, mode)
    if (status === WRONG_OPTION) {
      throw new RangeError('a request is running, or the part was not given by this run or has started')
    }
    if (status !== DONE) throw callError('take', status, line, given, answered)
    this.#size += answered.length
  }

  report(id, status, headers, body) {
    if (!Number.isInteger(status)) throw new TypeError(`a status must be a whole number, not ${String(status)}`)
    const position = this.#position(id)
    const [head, text] = reportBytes(headers, body)
    const end = library.report(this.#open, position, Math.min(Math.max(status, 0), MOST), head, text)
    if (end === DONE) this.#size += head.length + text.length
    if (end === REFUSED) throw findFault(head, text)
    requireTaken('report', end, id)
  }

  response() {
    const [status, text] = library.response(this.#open, Math.min(this.#size, MOST))
    if (status !== DONE) throw callError('response', status, text)
    return text.subarray(0, -1)
  }

  close() {
    if (this.#run !== undefined) library.close(this.#run)
    this.#run = undefined
  }
}

// Where the language has it, `using` closes a run.
if (Symbol.dispose) Run.prototype[Symbol.dispose] = Run.prototype.close

module.exports = { Run, openListed }
