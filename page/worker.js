'use strict'

// The worker of the page: it gets the compiled module first, and then does jobs, each answered in its order.

let engine

onmessage = ({ data: { module, number, job, values } }) => {
  if (module) {
    globalThis.compiled = module
    const { Engine } = require('./engine.js')
    engine = new Engine()
    return
  }
  try {
    postMessage({ number, result: engine[job](values) })
  } catch (error) {
    postMessage({ number, error: `${error.name}: ${error.message}` })
  }
}
