'use strict'

// The response of a finished run, what `match` says of it, and a comparison with the response of a service.

const { copy, count, element } = require('./dom.js')
const { joinNames } = require('./reasons.js')

const MOST_SHOWN = 100_000 // characters
const MOST_ROWS = 200
const ROLLED_BACK = 'They were carried out, but their group failed: the service rolls them back and answers 424.'

/** Shows the response of a run, or that there is none yet. `copyEvents` copies the events of the run, and says so in a note. */
function showResponse(place, { finished, response = '', match = undefined, undone = [] }, copyEvents) {
  if (!finished) {
    place.replaceChildren(element('p', { class: 'empty' }, 'There is a response once the run is finished.'))
    return
  }
  const note = element('span', { class: 'note', role: 'status' })
  const button = (title, act) => element('button', { type: 'button', onclick: act }, title)
  const own = button('Copy the response', () => copy(response, note))
  const bar = element('div', { class: 'bar' }, own, button('Copy the events of the run', () => copyEvents(note)), note)
  const shown = response.length > MOST_SHOWN ? `${response.slice(0, MOST_SHOWN)}…` : response
  place.replaceChildren(
    bar,
    element('pre', { class: 'text', tabindex: '0', 'aria-label': 'The response document', id: 'response-text' }, shown),
    element('p', { class: 'note' }, ...describeVerdict(match)),
    undone.length > 0 ? element('p', {}, `To be undone, in this order: ${joinNames(undone)}. ${ROLLED_BACK}`) : '',
  )
}

/** Whether the response fits, in words. */
function describeVerdict({ accepted, text, statuses }) {
  if (accepted) return [`The response fits the batch: ${count(statuses.length, 'response')}.`]
  return ['The response does not fit the batch: match prints ', element('code', {}, text.split('\n', 1)[0]), '.']
}

/** What a comparison has found. */
function describeDifferences(differing, isFinished) {
  if (!isFinished) return 'Play the run to see why each request is answered so.'
  if (differing.length === 0) return 'The run and the service answered every request with the same status.'
  const verb = differing.length === 1 ? 'was' : 'were'
  const words = `${count(differing.length, 'request')} ${verb} answered otherwise: ${joinNames(differing.map(({ id }) => id))}.`
  return `${words} Play again to run the batch with what the service answered.`
}

/** What the page has done with the responses of a service, in words. */
function describeUse({ impossible, isCut }) {
  const words = [`Answer with has what the service answered${isCut ? ', without headers and bodies, since these are long' : ''}. `]
  if (!impossible) return words
  const { line, explanation } = impossible
  const title = 'No run of the batch ends with these statuses: match --strict prints '
  return [...words, title, element('code', {}, line), `. ${explanation} `]
}

/** Compares the statuses of a service with those of the run, by the ids of the requests. */
function showComparison(place, served, requests, run) {
  const { statuses = [] } = served
  if (statuses.length === 0) {
    place.replaceChildren()
    return
  }
  const positions = new Map(requests.map(({ id, position }) => [id, position]))
  const rows = statuses.map(([id, status]) => {
    const own = run.finished ? run.statuses[positions.get(id)] : 0
    return { id, status, own, differs: run.finished && own !== status }
  })
  const differing = rows.filter(({ differs }) => differs)
  const shown = [...differing, ...rows.filter(({ differs }) => !differs)].slice(0, MOST_ROWS)
  const heads = ['Request', 'The service', 'The run'].map((title) => element('th', { scope: 'col' }, title))
  const cells = shown.map(({ id, status, own, differs }) => element(
    'tr', {}, element('th', { scope: 'row' }, element('b', {}, id)),
    element('td', { class: differs ? 'differs' : undefined }, String(status)),
    element('td', {}, own ? String(own) : '–', differs ? ' (differs)' : ''),
  ))
  const label = 'The statuses of the service and of the run'
  const head = element('thead', {}, element('tr', {}, ...heads))
  const table = element('table', { 'aria-label': label }, head, element('tbody', {}, ...cells))
  const words = element('p', {}, ...describeUse(served), describeDifferences(differing, run.finished))
  place.replaceChildren(words, element('div', { class: 'table' }, table))
}

module.exports = { showComparison, showResponse }
