'use strict'

// What a run has to be answered so that it ends with the responses of a service.

const { usualStatus } = require('./states.js')
const { isSuccess } = require('./reasons.js')

const SKIPPED = 424
// How many characters headers and bodies may have together: they go to the engine with each step of the run.
const MOST_PARTS = 1_000_000

/** The headers of a response as a report takes them: an object of strings. */
function readHeaders(text) {
  const found = JSON.parse(text)
  if (typeof found !== 'object' || Array.isArray(found)) return undefined
  const given = Object.entries(found)
  if (given.every(([, value]) => typeof value === 'string')) return text
  const kept = given.filter(([, value]) => ['string', 'number'].includes(typeof value))
  return JSON.stringify(Object.fromEntries(kept.map(([name, value]) => [name, String(value)])))
}

/** The ids of the requests whose 424 a run finds by itself: something that they need was not answered 2xx, or another member of
 * their group was not, or the run has stopped. Of a group that has no such cause one member answered 424 itself. */
function findSkipped(requests, statusOf, mode) {
  const lost = new Set(requests.filter((request) => !isSuccess(statusOf(request))).flatMap(({ id, group }) => [id, group]))
  const isError = (status) => status >= 400 && status !== SKIPPED
  const hasStopped = mode === 'stop' && requests.some((request) => isError(statusOf(request)))
  const hasCause = ({ needs }) => hasStopped || needs.some((name) => lost.has(name))
  const isFailed = (request) => hasCause(request) || (statusOf(request) !== SKIPPED && !isSuccess(statusOf(request)))
  const groups = new Set(requests.filter((request) => request.group !== null && isFailed(request)).map(({ group }) => group))
  const skipped = new Set()
  for (const request of requests.filter((each) => statusOf(each) === SKIPPED)) {
    const { id, group } = request
    if (hasCause(request) || groups.has(group)) skipped.add(id)
    else if (group !== null) groups.add(group)
  }
  return skipped
}

/** What requests are to be answered, by their ids, and whether headers and bodies are left out, since they are long. */
function deriveAnswers(requests, responses, mode) {
  const served = new Map(responses.map((response) => [response.id, response]))
  const skipped = findSkipped(requests, ({ id }) => served.get(id)?.status ?? SKIPPED, mode)
  const size = responses.reduce((sum, { headers = '', body = '' }) => sum + headers.length + body.length, 0)
  const isCut = size > MOST_PARTS
  const answers = {}
  for (const { id, method } of requests) {
    const { status, headers, body } = served.get(id) ?? {}
    if (status === undefined || skipped.has(id)) continue
    const parts = isCut ? {} : { headers: headers && readHeaders(headers), body }
    if (status !== usualStatus(method) || parts.headers || parts.body) answers[id] = { status, ...parts }
  }
  return { answers, isCut }
}

module.exports = { deriveAnswers }
