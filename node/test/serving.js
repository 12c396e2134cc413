'use strict'

// What the tests of the middleware share: servers with a $batch, and requests to them over HTTP.

const http = require('node:http')
const { once } = require('node:events')
const { batch } = require('../middleware/index.js')

const PATH = '/odata/$batch'
const JSON_TYPE = { 'content-type': 'application/json' }
const CONTINUES = { ...JSON_TYPE, prefer: 'continue-on-error' }

/** Express, or undefined if it is not installed. */
function express() {
  try {
    return require('express')
  } catch (error) {
    if (error.code !== 'MODULE_NOT_FOUND') throw error
    return undefined
  }
}

// How a handler gets its $batch, by names of what it is used in.
const MOUNTS = {
  'node:http': (handler, options) => batch(handler, options),
  express: (handler, options) => {
    const app = express()().set('env', 'test') // else it writes errors to standard error
    return app.use(batch(app, options)).use(handler)
  },
}

/** Calls a function with a server: with its origin, and with what sends a document as a batch. */
async function listening(listener, use) {
  const server = http.createServer(listener)
  await once(server.listen(0, '127.0.0.1'), 'listening')
  const { port } = server.address()
  const origin = `http://127.0.0.1:${port}`
  const post = (body, headers = CONTINUES) => fetch(origin + PATH, { method: 'POST', headers, body })
  try {
    await use({ origin, port, post })
  } finally {
    server.closeAllConnections()
    server.close()
  }
}

/** Calls a function with a server of a handler that has a $batch, and with the errors that this logs. */
function serving(mount, handler, options, use) {
  const errors = []
  const log = (error, what) => errors.push([error, what])
  return listening(MOUNTS[mount](handler, { path: PATH, log, ...options }), (server) => {
    const responses = async (document, headers) => {
      const answer = await server.post(JSON.stringify(document), headers)
      return Object.fromEntries((await answer.json()).responses.map(({ id, ...rest }) => [id, rest]))
    }
    return use({ ...server, errors, responses })
  })
}

module.exports = { CONTINUES, JSON_TYPE, MOUNTS, PATH, express, listening, serving }
