'use strict'

// How the page reaches the engine: in a worker, so that it never waits for the library, or here where there are no workers.

class EngineClient {
  #worker
  #engine
  #waiting = new Map()
  #count = 0

  /** `source` is the script of the page, which is that of the worker, too. */
  constructor(source, module) {
    try {
      const url = URL.createObjectURL(new Blob([source], { type: 'text/javascript' }))
      this.#worker = new Worker(url)
      this.#worker.onmessage = ({ data }) => this.#answer(data)
      this.#worker.onerror = ({ message }) => this.#end(message)
      this.#worker.postMessage({ module })
    } catch {
      this.#worker = undefined
      globalThis.compiled = module
      const { Engine } = require('./engine.js')
      this.#engine = new Engine()
    }
  }

  /** Asks for a job of the engine: a promise of its result. */
  ask(job, values = {}) {
    if (this.#engine) return new Promise((resolve) => resolve(this.#engine[job](values)))
    const number = this.#count++
    return new Promise((resolve, reject) => {
      this.#waiting.set(number, { resolve, reject })
      this.#worker.postMessage({ number, job, values })
    })
  }

  /** Rejects what is asked for, since the worker has ended. */
  #end(message) {
    for (const { reject } of this.#waiting.values()) reject(new Error(message))
    this.#waiting.clear()
  }

  #answer({ number, result, error }) {
    const { resolve, reject } = this.#waiting.get(number)
    this.#waiting.delete(number)
    if (error === undefined) resolve(result)
    else reject(new Error(error))
  }
}

module.exports = { EngineClient }
