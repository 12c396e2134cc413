'use strict'

// What the library says of a document: the line that the program prints of it, and its faults with their places.

const commands = require('../node/calls/commands.js')
const { explain: explainCode, readFault } = require('../node/errors/faults.js')

/** The words of an explanation, without the ends of its lines. */
function explain(code) {
  return explainCode(code).meaning.replaceAll('\n', ' ')
}

/** A fault for the page: what it is, why, and where. */
function locateFault(fault, places) {
  const { code, faultName: name, place } = fault
  return { code, name, place, explanation: explain(code), ...places.locate(fault) }
}

/** What a command makes of documents: its text, and the faults by which they are refused. */
function judge(command, documents, places, options = {}) {
  try {
    const [batch, second] = documents
    const { accepted, text } = commands.output(command, batch, second, { form: 'lines', ...options })
    const line = text.toString().trimEnd()
    return accepted ? { accepted, text: line, faults: [] } : refuse(line, documents, places)
  } catch (error) {
    if (error.code !== 'ERR_ODB_OUT_OF_MEMORY') throw error
    return { accepted: false, text: 'error: memory', faults: [] }
  }
}

function refuse(line, documents, places) {
  const faults = documents.length === 1 ? commands.faults(documents[0]) : [readFault(line, documents)]
  return { accepted: false, text: line, faults: faults.map((fault) => locateFault(fault, places)) }
}

module.exports = { explain, judge }
