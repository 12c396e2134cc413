'use strict'

// A $batch for Express, or any handler of node:http: `app.use(batch(app, { path: '/odata/$batch' }))`.
// middleware.d.ts says what it takes and returns.

const { requireOptions } = require('../calls/options.js')
const { Fault } = require('../errors/faults.js')
const { Refusal, toRefusal } = require('../errors/refusals.js')
const { BatchRequest, HeaderPolicy, folder } = require('../http/batch_request.js')
const { MAX_BODY_BYTES } = require('../http/bodies.js')
const { decodePart } = require('../http/urls.js')
const { Stop, performBatch, performSettings } = require('../perform/index.js')
const { BodyBudget } = require('./body_budget.js')
const { ClientConnection, readBody } = require('./connection.js')
const { appCaller, isRead } = require('./dispatch.js')
const { BatchObserver } = require('./observation.js')

const OPTIONS = [
  'path', 'root', 'allowed', 'inspect', 'onRequest', 'requestLog', 'maxSize', 'memory', 'limit', 'width', 'transaction', 'timeout',
  'deadline', 'stop', 'log',
]
const MOST_REQUESTS = 1000
// For how long an answer is waited for, unless an option says so.
const MOST_MILLISECONDS = 30000
// How many bytes all batches may have together, unless two alone may have more.
const USUAL_MEMORY = 268435456

/** Throws unless options are numbers of bytes, with memory for one batch. */
function requireBytes({ maxSize, memory }) {
  for (const [name, size] of Object.entries({ maxSize, memory })) {
    if (!Number.isInteger(size) || size < 0) throw new TypeError(`${name} must be a whole number, not ${String(size)}`)
  }
  if (memory < maxSize) throw new TypeError(`memory must be at least maxSize, ${maxSize}, not ${memory}`)
}

/** The options with their defaults, or a TypeError. */
function batchSettings(options) {
  const { path = '/$batch', root = folder(path), allowed = [], inspect, onRequest, requestLog, ...more } = options
  const { maxSize = MAX_BODY_BYTES, ...others } = more
  const { memory = Math.max(USUAL_MEMORY, 2 * maxSize), limit = MOST_REQUESTS, timeout = MOST_MILLISECONDS, ...rest } = others
  for (const [name, value] of Object.entries({ path, root })) {
    if (!String(value).startsWith('/')) throw new TypeError(`the ${name} must begin with /, not ${String(value)}`)
  }
  if (!root.endsWith('/')) throw new TypeError(`the root must end with /, not ${root}`)
  const hooks = { inspect, onRequest, requestLog }
  for (const [name, hook] of Object.entries(hooks)) {
    if (!['undefined', 'function'].includes(typeof hook)) throw new TypeError(`${name} must be a function, not ${String(hook)}`)
  }
  requireBytes({ maxSize, memory })
  const perform = performSettings({ ...rest, limit, timeout })
  return { path, root, policy: new HeaderPolicy(allowed, perform.log), hooks, maxSize, memory: new BodyBudget(memory), perform }
}

/** The answer to a request that carries a batch. */
async function answerBatch(callApp, req, client, memory, { path, root, policy, hooks, maxSize, perform }) {
  const batchRequest = new BatchRequest(req, path, root, policy)
  const { mode, base, roots } = batchRequest
  const document = await readBody(req, maxSize, memory)
  const budget = new BodyBudget(maxSize, memory)
  const observer = new BatchObserver(hooks.onRequest, hooks.requestLog, perform.log)
  const { isNeeded } = observer
  const call = async (request, wait) => {
    const prepared = batchRequest.serviceRequest(request)
    const seen = () => ({ ...request, headers: { ...prepared.headers } })
    if (hooks.inspect !== undefined) {
      await hooks.inspect(seen())
      client.requireWanted(wait)
    }
    const dispatch = () => callApp(req.socket, prepared, budget, wait)
    const answer = await (isNeeded ? observer.observe(seen(), dispatch) : dispatch())
    if (answer.shortage !== undefined) perform.log(answer.shortage, `the request ${request.id}, whose answer loses its body`)
    return answer
  }
  const send = async (request, wait) => {
    if (isRead(request) && request.group === null) client.reads.add(wait)
    try {
      return await call(request, wait)
    } finally {
      client.reads.delete(wait)
    }
  }
  const stop = new Stop(perform.stop, perform.deadline)
  client.stopWith(stop)
  const body = await performBatch(document, send, { ...perform, stop, mode, base, roots })
  if (client.hasLeft) perform.log(new Error('the client left before the answer: what had not started was not sent'), 'the batch')
  return batchResponse(body, mode)
}

/** The answer to a batch that was performed. */
function batchResponse(body, mode) {
  const applied = mode === 'continue' ? { 'preference-applied': 'continue-on-error' } : {}
  return { status: 200, headers: { 'content-type': 'application/json', ...applied }, body }
}

/** The answer to a batch that was not. One that is refused is answered with its first fault. */
function errorResponse(error, log) {
  if (error instanceof Fault) return errorResponse(new Refusal(400, error.code, error.details, { target: error.place }), log)
  if (!(error instanceof Refusal)) log(error, 'the batch')
  const { status, headers, body } = toRefusal(error).answer
  return { status, headers, body: Buffer.from(JSON.stringify(body)) }
}

function batch(app, options = {}) {
  const callApp = appCaller(app)
  const settings = batchSettings(requireOptions(options, OPTIONS))
  const { log } = settings.perform
  return function handleBatch(req, res, next = () => app(req, res)) {
    const [path] = (req.originalUrl ?? req.url).split('?', 1)
    if ((path.includes('%') ? decodePart(path) : path) !== settings.path) return next()
    const client = new ClientConnection(res, settings.perform.timeout)
    const memory = new BodyBudget(Infinity, settings.memory) // of this batch, to be given back as a whole
    answerBatch(callApp, req, client, memory, settings)
      .catch((error) => errorResponse(error, log))
      .then((answer) => client.answer(answer))
      .catch((error) => log(error, 'the response to a batch'))
      .finally(() => client.whenClosed(() => memory.close()))
  }
}

module.exports = { batch }
