'use strict'

// What the page says of requests: their states in words, and why a request waits or is skipped.

const { cut } = require('./dom.js')
const { STATES, indexRequests, ownNames } = require('./states.js')

// The sign of each state, which does not depend on colours.
const SIGNS = { waiting: '·', ready: '○', running: '▶', success: '✓', failure: '✕', skipped: '–', undone: '↶' }
const MOST_NAMES = 6

function isSuccess(status) {
  return status >= 200 && status < 300
}

/** The state as the page colours it: a request that has reported is a success or a failure. */
function stateKind(state, status) {
  if (STATES[state] !== 'reported') return STATES[state]
  return isSuccess(status) ? 'success' : 'failure'
}

/** Some names in a row, of which the last come after an 'and'. */
function joinNames(names) {
  if (names.length > MOST_NAMES) return `${names.slice(0, MOST_NAMES).join(', ')} and ${names.length - MOST_NAMES} more`
  return names.length > 1 ? `${names.slice(0, -1).join(', ')} and ${names.at(-1)}` : (names[0] ?? '')
}

/** A batch and its run, as far as reasons need them. */
class Reasons {
  #members
  #run

  constructor(requests) {
    this.#members = indexRequests(requests, ownNames)
  }

  /** Takes the snapshot of a run. */
  set run(run) {
    this.#run = run
  }

  kind({ position }) {
    return stateKind(this.#run.states[position], this.#run.statuses[position])
  }

  /** The requests that a name stands for. */
  members(name) {
    return this.#members.get(name) ?? []
  }

  /** A name, which is that of a request or of a group. */
  #nameWithKind(name) {
    return this.members(name)[0]?.group === name ? `the group ${name}` : name
  }

  status({ position }) {
    return this.#run.statuses[position]
  }

  /** A number that changes when the state or the status of a request does. */
  key({ position }) {
    return this.#run.states[position] * 1000 + this.#run.statuses[position]
  }

  /** Whether a request has failed, or never starts. */
  #isLost(request) {
    return ['failure', 'skipped', 'undone'].includes(this.kind(request))
  }

  /** What a request is in, in words. */
  words(request) {
    const kind = this.kind(request)
    const status = this.status(request)
    const plain = { waiting: 'waiting', ready: 'may start', running: 'running', skipped: 'not started', undone: 'to be undone' }
    if (kind === 'success' || kind === 'failure') return `answered ${status}`
    if (this.#run.finished && status) return `${plain[kind]}, answered ${status}`
    return plain[kind]
  }

  /** Why a request is in its state; empty if there is nothing to say. */
  why(request) {
    const kind = this.kind(request)
    if (kind === 'waiting') {
      const open = request.needs.filter((name) => !this.members(name).every((member) => this.kind(member) === 'success'))
      if (open.length === 0) return 'as many requests run as may run at once'
      return `waits for ${joinNames(open.map((name) => this.#nameWithKind(name)))}`
    }
    if (kind === 'skipped') return this.#whySkipped(request)
    if (kind !== 'undone') return ''
    return `${this.#describeLost(request.group, request)}, and the group ${request.group} is applied as a whole or not at all`
  }

  #whySkipped(request) {
    const { stopped } = this.#run
    if (stopped) return `the run has stopped, since ${stopped.id} was answered ${stopped.status}`
    const lost = request.needs.find((name) => this.members(name).some((member) => this.#isLost(member)))
    if (lost !== undefined) return `it needs ${this.#nameWithKind(lost)}, and ${this.#describeLost(lost)}`
    const others = request.group === null ? [] : this.members(request.group).filter((member) => member !== request)
    const hasLost = others.some((member) => this.#isLost(member))
    return hasLost ? `${this.#describeLost(request.group, request)} in its group ${request.group}` : ''
  }

  /** What has failed of a name. */
  #describeLost(name, but) {
    const members = this.members(name).filter((member) => member !== but)
    const failed = members.find((member) => this.kind(member) === 'failure')
    if (failed) return `${failed.id} was answered ${this.status(failed)}`
    const lost = members.find((member) => this.#isLost(member))
    return lost ? `${lost.id} was not started` : `${name} has failed`
  }
}

/** What a request asks for. */
function describeRequest({ method, url }, most = 60) {
  return `${method} ${cut(url, most)}`
}

module.exports = { Reasons, SIGNS, describeRequest, isSuccess, joinNames }
