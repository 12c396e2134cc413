'use strict'

// The options of calls: their names, their values, and the numbers by which the library takes them.

const { kindName } = require('../documents/bytes.js')
const { CONSTANTS } = require('../library/constants.js')

const { forms: FORMS, modes: MODES, orders: ORDERS } = CONSTANTS
const { requests: MAX_REQUESTS, width: MAX_WIDTH } = CONSTANTS.limits

/** The number of a named value. */
function valueNumber(values, option, value) {
  const number = values.indexOf(value)
  if (number < 0) throw new RangeError(`${option} must be one of ${values.join(', ')}, not ${String(value)}`)
  return number
}

/** The options that a caller passes, which have to be an object with no other names. */
function requireOptions(options, names) {
  if (kindName(options) !== 'Object') throw new TypeError(`the options must be an object, not ${kindName(options)}`)
  const unknown = Object.keys(options).find((name) => !names.includes(name))
  if (unknown !== undefined) throw new TypeError(`an option must be one of ${names.join(', ')}, not ${unknown}`)
  return options
}

/** The numbers of the options. */
function optionNumbers(options) {
  const { mode = 'continue', width = MAX_WIDTH, order = 'first', trace = false, strict = false, form = 'lines' } = options
  if (!Number.isInteger(width) || width < 1 || width > MAX_WIDTH) {
    throw new RangeError(`width must be a whole number from 1 to ${MAX_WIDTH}, not ${String(width)}`)
  }
  return [valueNumber(MODES, 'mode', mode), width, orderNumber(order), trace ? 1 : 0, strictNumber(strict), valueNumber(FORMS, 'form', form)]
}

/** The number of how strict a match is. */
function strictNumber(strict) {
  return typeof strict === 'string' ? 2 + valueNumber(['units'], 'strict', strict) : Number(Boolean(strict))
}

/** The number of an order. */
function orderNumber(order) {
  return valueNumber(ORDERS, 'order', order)
}

module.exports = { MAX_REQUESTS, optionNumbers, orderNumber, requireOptions, valueNumber }
