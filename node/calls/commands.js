'use strict'

// The commands. index.d.ts says what each takes and returns.

const { documentBytes, eventBytes } = require('../documents/bytes.js')
const { DONE, REFUSED, callError, listedFaults } = require('../errors/faults.js')
const library = require('../library/index.js')
const { optionNumbers, requireOptions, valueNumber } = require('./options.js')

const COMMANDS = ['check', 'plan', 'canon', 'match', 'run', 'replay', 'rest']
const NEWLINE = 10

// The second document of a command that takes one alone.
const NONE = ''

// The names of the options of a call.
const OF_REST = ['mode']
const OF_MATCH = [...OF_REST, 'strict']
const OF_RUN = ['mode', 'width']
const OF_REPLAY = [...OF_RUN, 'order', 'trace']
const OF_OUTPUT = [...OF_REPLAY, 'strict', 'form']

/** The pair of the status and the text of a command over the bytes of documents. */
function callCommand(command, batch, second, options) {
  return library.call(COMMANDS.indexOf(command), batch, second, ...optionNumbers(options))
}

/** The text that a command writes; throws what else it returns. */
function commandText(command, batch, second, options = {}) {
  const documents = [batch, second].map(documentBytes)
  const [status, text] = callCommand(command, ...documents, options)
  if (status !== DONE) throw callError(command, status, text, ...documents)
  return text
}

/** The lines of a text that ends with a newline, or is empty. */
function splitLines(text) {
  return text.toString().split('\n').slice(0, -1)
}

function check(batch) {
  const [, requests, , groups] = commandText('check', batch, NONE).toString().split(' ')
  return { requests: Number(requests), groups: Number(groups) }
}

function faults(batch) {
  const document = documentBytes(batch)
  const [status, text, numbers] = library.faults(document)
  if (status !== DONE && status !== REFUSED) throw callError('check --all', status, text)
  return listedFaults(document, text.toString(), numbers)
}

function plan(batch) {
  return splitLines(commandText('plan', batch, NONE)).map((line) => {
    const [position, id, , level, , group, , needs] = line.split(' ')
    return {
      position: Number(position),
      id,
      level: Number(level),
      group: group === '*' ? null : group,
      needs: needs === '*' ? [] : needs.split(','),
    }
  })
}

function canon(batch) {
  return commandText('canon', batch, NONE).subarray(0, -1)
}

function match(batch, responses, options = {}) {
  const lines = splitLines(commandText('match', batch, responses, requireOptions(options, OF_MATCH))).slice(1)
  return new Map(lines.map((line) => line.split(' ')).map(([id, status]) => [id, Number(status)]))
}

function rest(batch, responses, options = {}) {
  return commandText('rest', batch, responses, requireOptions(options, OF_REST)).subarray(0, -1)
}

function run(batch, events, options = {}) {
  return commandText('run', batch, eventBytes(events), requireOptions(options, OF_RUN)).subarray(0, -1)
}

/** The step of a line of a trace. */
function readStep(line) {
  const [step, id, status] = line.split(' ')
  return step === 'report' ? { step, id, status: Number(status) } : { step, id }
}

function replay(batch, outcomes, options = {}) {
  const text = commandText('replay', batch, outcomes, requireOptions(options, OF_REPLAY)).subarray(0, -1)
  const end = text.lastIndexOf(NEWLINE)
  const lines = end < 0 ? [] : splitLines(text.subarray(0, end + 1)).map(readStep)
  return {
    response: text.subarray(end + 1),
    steps: lines.filter(({ step }) => step !== 'undo'),
    undone: lines.filter(({ step }) => step === 'undo').map(({ id }) => id),
  }
}

function output(command, batch, second, options = {}) {
  const { mode, width, order, trace, strict, form = 'json' } = requireOptions(options, OF_OUTPUT)
  const takesTwo = valueNumber(COMMANDS, 'command', command) > 2
  if (takesTwo !== (second !== undefined && second !== null)) {
    throw new TypeError(`${command} takes ${takesTwo ? 'a' : 'no'} second document`)
  }
  const given = takesTwo ? eventBytes(second) : documentBytes(NONE)
  const [status, text] = callCommand(command, documentBytes(batch), given, { mode, width, order, trace, strict, form })
  if (status !== DONE && status !== REFUSED) throw callError(command, status, text)
  return { accepted: status === DONE, text }
}

module.exports = { canon, check, faults, match, output, plan, replay, rest, run }
