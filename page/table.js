'use strict'

// The table of a run: a row a request, with its state, what it is to be answered, and the buttons that start and report it. Rows
// stay as they are while the run goes on, so that the focus stays where it is.

const { count, element } = require('./dom.js')
const { usualStatus } = require('./states.js')
const { SIGNS, describeRequest } = require('./reasons.js')

const MOST_ROWS = 100
const FILTERS = {
  all: ['all requests', () => true],
  now: ['that may start or are running', (kind) => kind === 'ready' || kind === 'running'],
  lost: ['that failed, were not started or are undone', (kind) => ['failure', 'skipped', 'undone'].includes(kind)],
}
const TITLES = ['Request', 'State', 'Answer with', 'Events']
const OPEN = ['waiting', 'ready', 'running']
const MOVES = { ArrowUp: -1, ArrowDown: 1 }
const SIDES = { ArrowLeft: -1, ArrowRight: 1 }

/** Whether a number is a status that a request can be answered. */
function isStatus(number) {
  return Number.isInteger(number) && number >= 200 && number <= 599
}

class Table {
  #place
  #listener
  #requests = []
  #reasons
  #rows = new Map()
  #answers = {}
  #body
  #note
  #find
  #filter
  #table

  /** `listener` has `start`, `report`, `focused` and `mended`, the last of a status; each is called with a request. */
  constructor(place, listener) {
    this.#place = place
    this.#listener = listener
    this.#find = element('input', { type: 'text', size: '12', oninput: () => this.#fill() })
    const options = Object.entries(FILTERS).map(([value, [title]]) => element('option', { value }, title))
    this.#filter = element('select', { onchange: () => this.#fill() }, ...options)
    this.#note = element('p', { class: 'note more' })
    this.#body = element('tbody', { role: 'rowgroup', onkeydown: (event) => this.#key(event) })
    const heads = TITLES.map((title) => element('th', { scope: 'col', role: 'columnheader' }, title))
    // Roles are named, since a narrow window shows the rows as blocks.
    const head = element('thead', { role: 'rowgroup' }, element('tr', { role: 'row' }, ...heads))
    const about = { class: 'requests', role: 'table', 'aria-label': 'The requests of the run' }
    const table = element('table', about, head, this.#body)
    const labels = [element('label', {}, 'Show ', this.#filter), element('label', {}, 'with the id ', this.#find)]
    this.bar = element('div', { class: 'bar', hidden: true }, ...labels)
    this.#table = element('div', { class: 'table' }, table)
    place.replaceChildren(this.bar, this.#table, this.#note)
  }

  /** What requests are to be answered otherwise than usual: `status`, and `headers` and `body` as texts, by their ids. */
  get answers() {
    return this.#answers
  }

  /** Shows the requests of a batch. Answers of requests that are still there stay. */
  show(requests, reasons) {
    const ids = new Set(requests.map(({ id }) => id))
    this.#answers = Object.fromEntries(Object.entries(this.#answers).filter(([id]) => ids.has(id)))
    this.#requests = requests
    this.#reasons = reasons
    this.#rows = new Map()
    this.#table.hidden = requests.length === 0
    this.bar.hidden = requests.length <= MOST_ROWS / 4
    this.#fill()
  }

  /** Takes what requests are to be answered, in place of all that was chosen. */
  take(answers) {
    this.#answers = answers
    this.#rows = new Map()
    this.#fill()
  }

  /** What a request is answered if it is reported now. */
  answer({ id, method }) {
    return { status: usualStatus(method), ...this.#answers[id] }
  }

  /** Makes the rows that are shown. */
  #fill() {
    const [, isShown] = FILTERS[this.#filter.value]
    const words = this.#find.value.trim().toLowerCase()
    const fitting = this.#requests.filter((each) => each.id.toLowerCase().includes(words) && isShown(this.#reasons.kind(each)))
    const shown = fitting.slice(0, MOST_ROWS)
    this.#body.replaceChildren(...shown.flatMap((request) => this.#row(request).rows))
    for (const request of shown) this.#update(request)
    this.#note.textContent = fitting.length > MOST_ROWS ? `The first ${MOST_ROWS} of ${count(fitting.length, 'request')}.` : ''
  }

  #row(request) {
    const { id, position } = request
    if (this.#rows.has(id)) return this.#rows.get(id)
    const state = element('span', { class: 'state' })
    const why = element('span', { class: 'why' })
    const status = this.#status(request)
    const start = this.#button('Start', `Start ${id}`, () => this.#listener.start(request))
    const report = this.#button('Report', `Report ${id}`, () => this.#listener.report(request))
    const parts = this.#parts(request)
    const more = this.#button('Headers, body of the answer', `Headers and body that ${id} is answered with`, () => {
      parts.hidden = !parts.hidden
      more.setAttribute('aria-expanded', String(!parts.hidden))
    })
    more.setAttribute('aria-expanded', 'false')
    const asks = element('small', { title: describeRequest(request, 400) }, describeRequest(request))
    const row = element(
      'tr', { role: 'row', 'data-position': position, onfocusin: () => this.#listener.focused(request) },
      element('th', { scope: 'row', role: 'rowheader' }, element('b', {}, id), asks),
      element('td', { role: 'cell' }, state, why), element('td', { role: 'cell', class: 'status' }, status),
      element('td', { role: 'cell', class: 'does' }, start, report, more),
    )
    const made = { rows: [row, parts], state, why, status, start, report }
    this.#rows.set(id, made)
    return made
  }

  /** The field for the status of an answer: what has the focus is selected, so that typing replaces it. */
  #status(request) {
    const { id } = request
    const mark = (number) => field.setAttribute('aria-invalid', String(!isStatus(number)))
    const select = () => field.select()
    const read = () => {
      const status = Number(field.value) || 0
      this.#changeAnswer(id, { status })
      mark(status)
      if (isStatus(status)) this.#listener.mended(request)
    }
    const { status } = this.answer(request)
    const field = element('input', {
      type: 'text', inputmode: 'numeric', size: '3', maxlength: '3', value: String(status),
      'aria-label': `The status that ${id} is answered`, onfocus: select, onclick: select, oninput: read,
    })
    mark(status)
    return field
  }

  #button(title, label, act) {
    return element('button', { type: 'button', 'aria-label': label, onclick: act }, title)
  }

  /** The row for the headers and the body of an answer. */
  #parts({ id }) {
    const field = (name, title, example) => element('label', {}, title, element('textarea', {
      spellcheck: 'false', placeholder: example, 'aria-label': `${title} of the answer to ${id}`,
      oninput: ({ target }) => this.#changeAnswer(id, { [name]: target.value.trim() || undefined }),
    }, this.#answers[id]?.[name]))
    const fields = [field('headers', 'Headers', '{"Location": "Loans(1)"}'), field('body', 'Body', '{"Due": "2026-12-01"}')]
    const cell = element('td', { role: 'cell', colspan: TITLES.length }, element('div', {}, ...fields))
    return element('tr', { class: 'parts', role: 'row', hidden: true }, cell)
  }

  #changeAnswer(id, change) {
    this.#answers[id] = { ...this.#answers[id], ...change }
  }

  /** Shows the states that the run has now. */
  paint() {
    if (this.#filter.value !== 'all' && !this.#body.contains(document.activeElement)) this.#fill()
    for (const row of this.#body.rows) if (row.dataset.position) this.#update(this.#requests[row.dataset.position])
  }

  #update(request) {
    const { state, why, status, start, report } = this.#rows.get(request.id)
    const kind = this.#reasons.kind(request)
    state.className = `state state-${kind}`
    state.replaceChildren(element('span', { class: 'sign', 'aria-hidden': 'true' }, SIGNS[kind]), this.#reasons.words(request))
    why.textContent = this.#reasons.why(request)
    status.readOnly = !OPEN.includes(kind)
    // They can be pressed all the same: then the library says why not.
    start.setAttribute('aria-disabled', String(kind !== 'ready'))
    report.setAttribute('aria-disabled', String(kind !== 'running'))
  }

  /** Goes to the row of a request: to the button that does something now. */
  goTo(request) {
    if (!this.#rows.get(request.id)?.rows[0].isConnected) {
      this.#filter.value = 'all'
      this.#find.value = this.#requests.length > MOST_ROWS ? request.id : ''
      this.#fill()
    }
    const { start, report } = this.#rows.get(request.id)
    const button = this.#reasons.kind(request) === 'running' ? report : start
    button.focus()
    button.scrollIntoView({ block: 'nearest' })
  }

  /** Arrow keys: another row, or another part of the row. In a status they go to another row alone. */
  #key(event) {
    const { target, key } = event
    if (target.tagName === 'TEXTAREA' || event.ctrlKey || event.altKey || event.metaKey) return
    const row = target.closest('tr')
    const parts = [...row.querySelectorAll('input, button')]
    const at = parts.indexOf(target)
    if (key in MOVES) {
      const rows = [...this.#body.rows].filter(({ dataset }) => dataset.position)
      rows[rows.indexOf(row) + MOVES[key]]?.querySelectorAll('input, button')[at]?.focus()
    } else if (key in SIDES && target.tagName === 'BUTTON') {
      parts[at + SIDES[key]]?.focus()
    } else {
      return
    }
    event.preventDefault()
  }
}

module.exports = { Table }
