'use strict'

// Answers the calls that test_worked.py writes, a line each, as the program prints them, by the module in a folder.

const readline = require('node:readline')
const odb = require(process.argv[2])

/** What the program prints of a result. */
function textOf(command, result) {
  if (command === 'check') return `ok ${result.requests} requests ${result.groups} groups\n`
  if (command === 'plan') {
    return result
      .map((it) => `${it.position} ${it.id} level ${it.level} group ${it.group ?? '*'} needs ${it.needs.join(',') || '*'}\n`)
      .join('')
  }
  if (command === 'match') {
    return `ok ${result.size} responses\n` + [...result].map(([id, status]) => `${id} ${status}\n`).join('')
  }
  if (command !== 'replay') return Buffer.concat([result, Buffer.from('\n')])
  const steps = result.steps.map((it) => `${it.step} ${it.id}${it.step === 'report' ? ` ${it.status}` : ''}\n`)
  const undone = result.undone.map((id) => `undo ${id}\n`)
  return Buffer.concat([Buffer.from([...steps, ...undone].join('')), result.response, Buffer.from('\n')])
}

/** The answer to a call. */
function answerOf([command, documents, options]) {
  try {
    const given = documents.map((it) => Buffer.from(it, 'base64'))
    if (options.form) return odb.output(command, given[0], given[1], options).text
    return textOf(command, odb[command](...given, ...(given.length > 1 ? [options] : [])))
  } catch (error) {
    if (!(error instanceof odb.Fault)) throw error
    return `fault ${error.message}\n`
  }
}

readline.createInterface({ input: process.stdin, terminal: false }).on('line', (line) => {
  process.stdout.write(Buffer.from(answerOf(JSON.parse(line))).toString('base64') + '\n')
})
