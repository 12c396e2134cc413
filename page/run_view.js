'use strict'

// The run of a batch: its buttons and options, the table of its requests, and what is shown of it elsewhere.

const { byId, copy, count } = require('./dom.js')
const { showComparison, showResponse } = require('./response_view.js')
const { Table } = require('./table.js')
const { showTimeline } = require('./timeline.js')
const { Reasons, joinNames } = require('./reasons.js')

const MOST_WIDTH = 10_000
const OF_FRAME = 16 // milliseconds
const AT_ONCE = 1000 // the speed at which so many events come at a time
const MANY = 500
const BAD_STATUS = 'P2'

class RunView {
  #engine
  #picture
  #table
  #requests = []
  #reasons
  #run
  // What `match` makes of the responses of a service, once some were read.
  #service = {}
  #isPlaying = false
  // The id of the request whose status was refused last, while the page says so.
  #badStatus

  constructor(engine, picture) {
    this.#engine = engine
    this.#picture = picture
    this.#table = new Table(byId('requests'), {
      start: (request) => this.#add(request, undefined),
      report: (request) => this.#add(request, this.#table.answer(request)),
      focused: (request) => this.#picture.choose(request.position),
      mended: (request) => this.#sayMended(request),
    })
    byId('play').addEventListener('click', () => this.#play())
    byId('step').addEventListener('click', () => this.#step())
    byId('undo').addEventListener('click', () => this.#undo())
    byId('restart').addEventListener('click', () => this.#restart())
    for (const id of ['width', 'stop']) byId(id).addEventListener('change', () => this.#reopen())
  }

  /** The mode and the width. */
  get options() {
    const width = Number(byId('width').value.replaceAll(',', ''))
    const isWidth = Number.isInteger(width) && width >= 1 && width <= MOST_WIDTH
    byId('width').setAttribute('aria-invalid', String(!isWidth))
    return { mode: byId('stop').checked ? 'stop' : 'continue', width: isWidth ? width : MOST_WIDTH }
  }

  /** The events of the run so far. */
  get events() {
    return this.#run?.events ?? []
  }

  get order() {
    return byId('order').value
  }

  /** Shows the requests of a batch that was accepted, and its run, in which nothing has happened. */
  show(requests, run) {
    this.#isPlaying = false
    this.#requests = requests
    this.#reasons = new Reasons(requests)
    this.#reasons.run = run
    this.#run = run
    this.#service = {}
    this.#picture.show(requests, this.#reasons)
    this.#table.show(requests, this.#reasons)
    this.#showRun(run)
    this.#say(this.#describe(''))
  }

  /** Shows that there is no batch to run. */
  empty() {
    this.#isPlaying = false
    this.#run = undefined
    this.#requests = []
    this.#reasons = new Reasons([])
    this.#table.show([], this.#reasons)
    this.#say('There is no run: the batch is not accepted.')
    showTimeline(byId('timeline'), { events: [], undone: [] })
    showResponse(byId('response'), { finished: false })
    showComparison(byId('comparison'), {}, [], {})
    this.#buttons()
  }

  /** Shows a run that was read from a document. */
  replace(run) {
    this.#isPlaying = false
    this.#showRun(run)
    this.#say(this.#describe('Read. '))
  }

  /** Has the events of an earlier run come again. */
  async restore(events) {
    if (events.length > 0 && (await this.#ask('add', { events }))) this.#say(this.#describe('The run is back. '))
  }

  /** Shows what a service has answered, and answers the requests so from now on; or shows that nothing was read of one. */
  compare(service) {
    this.#service = service
    if (!this.#run) return
    if (service.answers) this.#table.take(service.answers)
    showComparison(byId('comparison'), service, this.#requests, this.#run)
  }

  /** Copies the events of the run as a document, and says so in a note. */
  async copyEvents(note) {
    if (this.#run) await copy(await this.#engine.ask('document'), note)
  }

  /** Goes to a request in the table. */
  goTo(position) {
    this.#table.goTo(this.#requests[position])
  }

  /** Has a job done, and shows the run after it; returns undefined if there is none, or no longer. */
  async #ask(job, values) {
    if (!this.#run) return undefined
    const of = this.#requests
    try {
      const run = await this.#engine.ask(job, values)
      if (of !== this.#requests) return undefined
      this.#showRun(run)
      return run
    } catch (error) {
      if (of === this.#requests) this.#say(`The library has ended: ${error.message}`, true)
      return undefined
    }
  }

  async #add({ id }, answer) {
    this.#isPlaying = false
    const run = await this.#ask('add', { events: [{ id, ...answer }] })
    if (!run) return
    if (run.refusal) this.#sayRefused(run.refusal, answer)
    else this.#say(this.#describe(answer ? `Reported ${id}: ${answer.status}. ` : `Started ${id}. `))
  }

  #sayRefused({ code, name, id, explanation }, answer) {
    this.#say(`${answer ? 'The report' : 'The start'} of ${id} is refused: ${code} ${name}. ${explanation}`, true)
    if (code === BAD_STATUS) this.#badStatus = id
  }

  /** Says no longer that a status is refused, once it is one. */
  #sayMended({ id }) {
    if (id === this.#badStatus) this.#say(this.#describe(''))
  }

  /** The last event, and what may come now. */
  #describe(begin) {
    const ready = this.#requests.filter((request) => this.#reasons.kind(request) === 'ready').map(({ id }) => id)
    const running = this.#requests.filter((request) => this.#reasons.kind(request) === 'running').map(({ id }) => id)
    if (this.#run.finished) return `${begin}The run is finished. ${this.#describeEnd()}`
    const parts = [['May start', ready], ['Running', running]].filter(([, ids]) => ids.length > 0)
    return `${begin}${parts.map(([title, ids]) => `${title}: ${joinNames(ids)}.`).join(' ')}`
  }

  /** How the run has ended. */
  #describeEnd() {
    const kinds = this.#requests.map((request) => this.#reasons.kind(request))
    const number = (kind) => kinds.filter((each) => each === kind).length
    const parts = [['success', 'succeeded'], ['failure', 'failed'], ['skipped', 'not started and answered 424']]
    const counted = parts.map(([kind, word]) => [number(kind), word]).filter(([found]) => found > 0)
    const words = counted.map(([found, word]) => `${count(found, 'request')} ${word}`)
    const { undone } = this.#run
    if (undone.length > 0) words.push(`${count(undone.length, 'request')} to be undone: ${joinNames(undone)}`)
    return words.length > 0 ? `${words.join(', ')}.` : ''
  }

  #lastEvent({ events }) {
    const { id, status } = events.at(-1) ?? {}
    if (id === undefined) return ''
    return status === undefined ? `Started ${id}. ` : `Reported ${id}: ${status}. `
  }

  async #step() {
    if (this.#run?.finished) return
    this.#isPlaying = false
    await this.#next(1)
  }

  /** Has so many events come; returns whether more may come. */
  async #next(number) {
    const run = await this.#ask('play', { order: this.order, answers: this.#table.answers, count: number })
    if (!run) return false
    if (run.refusal) this.#sayRefused(run.refusal, {})
    else this.#say(this.#describe(this.#lastEvent(run)))
    return !run.refusal && !run.finished
  }

  /** Plays until the run is finished, or stops playing. */
  async #play() {
    this.#isPlaying = !this.#isPlaying
    this.#buttons()
    if (this.#isPlaying && this.#run?.finished) await this.#ask('restart')
    while (this.#isPlaying) {
      const speed = Number(byId('speed').value)
      const wait = Math.max(1000 / speed, OF_FRAME)
      // At once is many events at a time, so that the page can be used meanwhile.
      if (!(await this.#next(speed >= AT_ONCE ? MANY : 1))) this.#isPlaying = false
      else await new Promise((resolve) => setTimeout(resolve, wait))
    }
    this.#buttons()
  }

  async #undo() {
    this.#isPlaying = false
    if (this.events.length === 0) return
    const { id, status } = this.events.at(-1)
    const what = status === undefined ? 'the start' : 'the report'
    if (await this.#ask('undo')) this.#say(this.#describe(`Took back ${what} of ${id}. `))
  }

  async #restart() {
    this.#isPlaying = false
    if (await this.#ask('restart')) this.#say(this.#describe('The run begins anew. '))
  }

  async #reopen() {
    this.#isPlaying = false
    if (await this.#ask('open', this.options)) this.#say(this.#describe('The run begins anew with these options. '))
  }

  #showRun(run) {
    this.#run = run
    this.#reasons.run = run
    this.#picture.paint()
    this.#table.paint()
    showTimeline(byId('timeline'), run, (id) => this.#reasons.kind(this.#reasons.members(id)[0]))
    showResponse(byId('response'), run, (note) => this.copyEvents(note))
    showComparison(byId('comparison'), this.#service, this.#requests, run)
    this.#buttons()
  }

  #buttons() {
    const isFinished = this.#run?.finished
    byId('play').textContent = this.#isPlaying ? 'Pause' : isFinished ? 'Play again' : 'Play'
    const begun = this.events.length > 0
    for (const id of ['undo', 'restart']) byId(id).setAttribute('aria-disabled', String(!begun))
    byId('play').setAttribute('aria-disabled', String(!this.#run))
    byId('step').setAttribute('aria-disabled', String(!this.#run || isFinished))
  }

  #say(words, isRefused = false) {
    this.#badStatus = undefined
    byId('said').className = isRefused ? 'said refused' : 'said'
    byId('said').textContent = words
  }
}

module.exports = { RunView }
