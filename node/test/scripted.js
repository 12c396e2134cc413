'use strict'

// A service that answers by a script and by a schedule, for tests of clients.

const { Run } = require('..')

const RESULT = 'repeatability-result'

/**
 * A service that answers by a script: a status or an answer, or an array of them, one for each time, of which the last stays.
 *
 * The schedule has what becomes of the first batches: a status or an answer to one as a whole, 'answer', 'hang up' before
 * anything is performed, or 'lose' the answer after it. A service that is repeatable keeps batches by their ids; one that is not
 * answers them 501, or takes no notice of ids if that is undefined. `performed` counts how often each request was performed.
 */
class Service {
  documents = []
  performed = {}
  #script
  #schedule
  #repeatable
  #kept = new Map()

  constructor(script = {}, { schedule = [], repeatable } = {}) {
    this.#script = Object.fromEntries(Object.entries(script).map(([id, it]) => [id, [it].flat()]))
    this.#schedule = [...schedule]
    this.#repeatable = repeatable
  }

  post = async ({ body, headers = {} }) => {
    this.documents.push(body)
    const happening = this.#schedule.shift() ?? 'answer'
    if (typeof happening === 'number') return { status: happening, headers: { 'Retry-After': '0' } }
    if (typeof happening === 'object') return happening
    if (happening === 'hang up') throw new TypeError('fetch failed')
    const answered = this.#answered(String(body), headers)
    if (happening === 'lose') throw new TypeError('fetch failed')
    return answered
  }

  /** Answers as a `fetch` does. */
  fetch = async (url, request) => {
    const { status, headers = {}, body = '' } = await this.post(request)
    return new Response(status === 204 ? null : body, { status, headers })
  }

  /** Answers a batch, or answers it again. */
  #answered(body, headers) {
    const [id, sent] = ['repeatability-request-id', 'repeatability-first-sent'].map((name) => headers[name])
    if (id === undefined || this.#repeatable === undefined) return this.#performedBatch(body)
    if (!this.#repeatable) return { status: 501, headers: { [RESULT]: 'rejected' } }
    if (!this.#kept.has(id)) this.#kept.set(id, { body, sent, answer: this.#performedBatch(body) })
    const kept = this.#kept.get(id)
    if (kept.body !== body || kept.sent !== sent) return { status: 422, headers: { [RESULT]: 'rejected' } }
    return { ...kept.answer, headers: { [RESULT]: 'accepted' } }
  }

  #performedBatch(body) {
    const run = new Run(body, { width: 1 })
    for (let ids; (ids = run.nextUnit()) !== null; ) this.#perform(run, ids)
    const response = run.response()
    run.close()
    for (const { id, status } of JSON.parse(response).responses) {
      if (status < 300) this.performed[id] = (this.performed[id] ?? 0) + 1
    }
    return { status: 200, body: response }
  }

  /** Performs the requests of a unit, up to the first that fails. */
  #perform(run, ids) {
    for (const id of ids) {
      const { status, headers } = this.#answer(run.request(id))
      run.start(id)
      run.report(id, status, headers)
      if (status >= 300) return
    }
  }

  #answer({ id, method }) {
    const left = this.#script[id] ?? [method === 'POST' ? 201 : 200]
    const given = left.length > 1 ? left.shift() : left[0]
    if (typeof given === 'object') return given
    const made = { ETag: '"1"', ...(method === 'POST' && { Location: `/Made('${id}')` }) }
    return { status: given, headers: given < 300 ? made : { 'Retry-After': '1' } }
  }
}

module.exports = { Service }
