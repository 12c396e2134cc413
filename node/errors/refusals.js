'use strict'

// What is answered in place of an answer: refusals, and those that stand for an exception.

const { foldHeaders } = require('../http/messages.js')

const MOST_STATUS = 599
const BAD_GATEWAY = 502

// The names of what a fetch is rejected with that a signal ends, as one of `AbortSignal.timeout` does.
const OF_SIGNALS = ['AbortError', 'TimeoutError']
// The codes of errors of Node, and of its fetch, by which no answer came in time, or the connection broke before it came.
const LATE = /^(ETIMEDOUT|ESOCKETTIMEDOUT|UND_ERR_(CONNECT|HEADERS|BODY)_TIMEOUT)$/
const BROKEN = /^(ECONN(REFUSED|RESET|ABORTED)|EPIPE|ENOTFOUND|EAI_AGAIN|EHOSTUNREACH|ENETUNREACH|UND_ERR_SOCKET)$/

class Refusal extends Error {
  constructor(status, code, message, /** @type {{ target?: string, headers?: object }} */ { target, headers = {} } = {}) {
    if (!Number.isInteger(status) || status < 400 || status > MOST_STATUS) {
      throw new RangeError(`the status of a refusal must be one from 400 to ${MOST_STATUS}, not ${String(status)}`)
    }
    super(message)
    this.name = 'Refusal'
    this.code = code
    const error = target === undefined ? { code, message } : { code, message, target }
    this.answer = { status, headers: { 'content-type': 'application/json', ...foldHeaders(headers) }, body: { error } }
  }
}

class GroupFailed extends Error {
  constructor(group) {
    super(`a request of the group ${group} has failed`)
    this.name = 'GroupFailed'
    this.group = group
  }
}

function badGateway() {
  return new Refusal(BAD_GATEWAY, 'BadGateway', 'The connection broke before an answer came')
}

function internalError() {
  return new Refusal(500, 'InternalError', 'The request failed; the log says why')
}

/** The refusal in place of an exception; `makeOther` makes the one for an exception that says nothing of the connection. */
function toRefusal(error, makeOther = internalError) {
  if (error instanceof Refusal) return error
  const codes = [error?.code, error?.cause?.code].map(String)
  const names = [error?.name, error?.cause?.name]
  if (names.some((name) => OF_SIGNALS.includes(name)) || codes.some((code) => LATE.test(code))) {
    return new Refusal(504, 'Timeout', 'No answer came in time')
  }
  return codes.some((code) => BROKEN.test(code)) ? badGateway() : makeOther()
}

module.exports = { GroupFailed, Refusal, badGateway, toRefusal }
