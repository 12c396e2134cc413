'use strict'

// What the library says of itself: the names of its numbers, its limits, and the headers and ids that are treated apart.

const library = require('./index.js')

const CONSTANTS = JSON.parse(library.constants()[1].toString())

module.exports = { CONSTANTS }
