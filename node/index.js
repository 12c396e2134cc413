'use strict'

// odb_batch in this process. index.d.ts says what each call takes and returns.

const { canon, check, faults, match, output, plan, replay, rest, run } = require('./calls/commands.js')
const { requests } = require('./calls/requests.js')
const { Run } = require('./calls/run.js')
const { Fault, Refused } = require('./errors/faults.js')
const { GroupFailed, Refusal } = require('./errors/refusals.js')
const library = require('./library/index.js')
const { perform } = require('./perform/index.js')

/** The version of the library, MAJOR.MINOR.PATCH. */
const version = [library.version / 10000, library.version / 100, library.version].map((part) => Math.floor(part) % 100).join('.')

module.exports = {
  Fault,
  GroupFailed,
  Refusal,
  Refused,
  Run,
  canon,
  check,
  faults,
  match,
  output,
  perform,
  plan,
  replay,
  requests,
  rest,
  run,
  version,
}
