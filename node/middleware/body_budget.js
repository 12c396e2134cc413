'use strict'

// How many bytes are kept in memory: of the answers to one batch, and of all batches together.

const { Refusal } = require('../errors/refusals.js')

/** A number of bytes that may be taken, and given back. What is taken of a budget is taken of the one that it is part of, too. */
class BodyBudget {
  #size
  #whole
  #taken = 0
  #isClosed = false

  constructor(size, whole) {
    this.#size = size
    this.#whole = whole
  }

  /** Takes some bytes if they are left, and returns whether they were. */
  take(count) {
    if (this.#isClosed || this.#taken + count > this.#size || this.#whole?.take(count) === false) return false
    this.#taken += count
    return true
  }

  giveBack(count) {
    if (this.#isClosed) return
    this.#taken -= count
    this.#whole?.giveBack(count)
  }

  /** Gives back all that is taken. What comes later, as an answer that nobody waits for any more, takes and gives nothing. */
  close() {
    this.giveBack(this.#taken)
    this.#isClosed = true
  }

  /** Why some bytes were not taken. */
  shortage(count) {
    if (this.#taken + count > this.#size) return new Refusal(507, 'TooLong', 'The answers to the batch are too long together')
    return busyRefusal()
  }
}

/** The refusal of what would need more memory than all batches may have together. */
function busyRefusal() {
  return new Refusal(503, 'Busy', 'Other batches have taken the memory', { headers: { 'retry-after': 1 } })
}

module.exports = { BodyBudget, busyRefusal }
