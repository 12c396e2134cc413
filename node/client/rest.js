'use strict'

// The rest of a batch: what failed for now or was skipped, and may be sent again.

const { rest } = require('../calls/commands.js')
const { requests } = require('../calls/requests.js')
const { Fault } = require('../errors/faults.js')
const { CONDITIONS } = require('../http/references.js')

/** Why the URL of a request of the rest cannot be replaced. */
function describeMissingPlace({ id, reference, rest }, recorded) {
  const { location } = recorded.get(reference)
  if (location === undefined) return `${id} refers to ${reference}, which was answered without a Location`
  return `${id} refers to ${reference}, whose Location cannot be used: ${location}${rest}`
}

/** Why a condition of a request of the rest cannot be replaced. */
function describeMissingTag({ id, headers }, recorded) {
  const values = CONDITIONS.map((name) => headers[name] ?? '')
  const referred = values.filter((value) => value.startsWith('$')).map((value) => value.slice(1))
  const other = referred.find((name) => recorded.has(name) && recorded.get(name).etag === undefined)
  return `${id} refers to ${other}, which was answered without an ETag`
}

/**
 * The document of the rest of a batch, or a RangeError. The responses record the Location and the ETag of what others refer to.
 */
function restDocument(document, responses) {
  try {
    return rest(document, responses)
  } catch (error) {
    if (!(error instanceof Fault) || !['F90', 'F91'].includes(error.code)) throw error
    const request = requests(document)[Number(error.place.split('/').at(-1))]
    const recorded = new Map(responses.responses.map(({ id, headers }) => [id, headers]))
    const describe = error.code === 'F90' ? describeMissingPlace : describeMissingTag
    throw new RangeError(describe(request, recorded))
  }
}

module.exports = { restDocument }
