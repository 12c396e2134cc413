'use strict'

// A group in its transaction. Its last member is reported after the commit: so what needs the group starts later, and that
// member is answered a commit that fails.

const { Refused } = require('../errors/faults.js')
const { GroupFailed, Refusal } = require('../errors/refusals.js')
const { isSuccess } = require('../http/messages.js')

class GroupTransaction {
  #performer
  #name
  #ids
  // What is started and not reported, and what the last member is answered.
  #open
  #answer
  // A promise of the members, once the transaction has called for it, and why it has failed.
  #members
  #failure
  #isDone = false
  #isOver = false

  /** The first member has started. */
  constructor(performer, name, ids) {
    this.#performer = performer
    this.#name = name
    this.#ids = ids
    this.#open = ids[0]
  }

  /** Performs the members. A transaction calls it once, and commits if it is fulfilled. */
  perform() {
    if (this.#isOver || this.#members !== undefined) {
      this.#failure ??= new Error(`the transaction of ${this.#name} must call its body once, before it ends`)
      const refused = Promise.reject(this.#failure)
      refused.catch(() => {}) // also where the transaction does not look at it, here and below
      return refused
    }
    this.#members = this.#performMembers()
    this.#members.catch((error) => (this.#failure = error))
    return this.#members
  }

  async #performMembers() {
    for (const id of this.#ids) {
      if (id !== this.#open) this.#start(id)
      if (this.#isOver) return
      const answer = await this.#send(id)
      if (id === this.#ids.at(-1) && isSuccess(answer)) this.#answer = answer
      else this.#report(id, answer)
    }
    this.#isDone = true
  }

  #start(id) {
    this.#performer.start(id)
    this.#open = id
  }

  #send(id) {
    if (this.#performer.isStopped) throw new Refusal(424, 'Stopped', 'The batch had stopped before the request was sent')
    return this.#performer.answer(id)
  }

  #report(id, answer) {
    this.#open = undefined
    this.#performer.report(id, answer)
    if (!isSuccess(answer)) throw new GroupFailed(this.#name)
  }

  /** Why a transaction that is fulfilled has not committed the group, or undefined. */
  get shortcoming() {
    if (this.#failure !== undefined || this.#isDone) return this.#failure
    return new Error(`the transaction of ${this.#name} must call its body, and wait for it`)
  }

  /**
   * Ends the group after its transaction, which was rolled back for a reason, or was committed if that is undefined. `explain`
   * makes an answer of a reason. Returns whether the reason says no more than the response does.
   */
  async end(reason, explain) {
    this.#isOver = true
    await this.#members?.catch(() => {})
    if (this.#open === undefined) return reason instanceof GroupFailed || reason instanceof Refused
    this.#performer.report(this.#open, reason === undefined ? this.#answer : explain(this.#failure ?? reason))
    return true
  }
}

module.exports = { GroupTransaction }
