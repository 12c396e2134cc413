'use strict'

// What is seen of the requests of a batch from outside: a line of the log for each, and a hook around it.

const { toRefusal } = require('../errors/refusals.js')

let batches = 0

/** Logs each request of one batch, and calls the hook around it. */
class BatchObserver {
  #onRequest
  #requestLog
  #log
  #number = ++batches

  /** The hook and the log of requests are functions, or undefined; `log` takes what the hook throws after an answer. */
  constructor(onRequest, requestLog, log) {
    this.#onRequest = onRequest
    this.#requestLog = requestLog
    this.#log = log
  }

  /** Whether there is anything to call. */
  get isNeeded() {
    return this.#onRequest !== undefined || this.#requestLog !== undefined
  }

  /** Returns what a function answers a request. What the hook throws before is the answer. */
  async observe(request, call) {
    const onAnswer = this.#onRequest?.(request)
    const began = performance.now()
    let answer
    try {
      answer = await call()
      return answer
    } catch (error) {
      ;({ answer } = toRefusal(error))
      throw error
    } finally {
      this.#end(request, answer, performance.now() - began, onAnswer)
    }
  }

  #end({ method, url }, answer, milliseconds, onAnswer) {
    const { pathname } = new URL(url)
    try {
      this.#requestLog?.(`batch ${this.#number}: ${method} ${pathname} ${answer.status} ${milliseconds.toFixed(1)} ms`)
      if (typeof onAnswer === 'function') onAnswer(answer)
    } catch (error) {
      this.#log(error, 'the hook after a request')
    }
  }
}

module.exports = { BatchObserver }
