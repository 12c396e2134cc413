'use strict'

// What the page and its worker both know of requests.

// The states of a request, by the numbers that a snapshot of a run has.
const STATES = ['waiting', 'ready', 'running', 'reported', 'skipped', 'undone']

// What a request is answered in a run that plays by itself, unless something else is asked for.
const USUAL = { POST: 201, GET: 200 }

function usualStatus(method) {
  return USUAL[method] ?? 204
}

/** The requests for each of the names that `names` returns of one. */
function indexRequests(requests, names) {
  const found = new Map()
  for (const request of requests) {
    for (const name of names(request)) {
      if (!found.has(name)) found.set(name, [])
      found.get(name).push(request)
    }
  }
  return found
}

/** The names by which others may depend on a request. */
function ownNames({ id, group }) {
  return group === null ? [id] : [id, group]
}

/** The names that a request depends on. */
function neededNames({ needs }) {
  return needs
}

module.exports = { STATES, indexRequests, neededNames, ownNames, usualStatus }
