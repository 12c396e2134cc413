'use strict'

// What the requests of a plan need, and what needs them, directly or not.

const { indexRequests, neededNames, ownNames } = require('./states.js')

class Graph {
  #requests
  #members
  #dependents

  constructor(requests) {
    this.#requests = requests
    this.#members = indexRequests(requests, ownNames)
    this.#dependents = indexRequests(requests, neededNames)
  }

  /** The positions of all that a request needs. */
  needed(position) {
    return this.#reach(position, neededNames, this.#members)
  }

  /** The positions of all that needs a request. */
  dependents(position) {
    return this.#reach(position, ownNames, this.#dependents)
  }

  #reach(position, namesOf, requestsOf) {
    const [found, seen, open] = [new Set(), new Set(), [this.#requests[position]]]
    while (open.length > 0) {
      for (const name of namesOf(open.pop())) {
        if (seen.has(name)) continue
        seen.add(name)
        for (const request of requestsOf.get(name) ?? []) {
          if (found.has(request.position) || request.position === position) continue
          found.add(request.position)
          open.push(request)
        }
      }
    }
    return found
  }
}

module.exports = { Graph }
