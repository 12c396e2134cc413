'use strict'

// The verdict on a document, and the list of its faults with their places.

const { count, element } = require('./dom.js')

const MOST_LISTED = 200

/** A fault of the list. A click on its place leads there. */
function makeItem(fault, goTo) {
  const { code, name, place, id, explanation, line, column } = fault
  const where = fault.inBatch ? `${place} of the batch, line ${line}` : `line ${line}, column ${column}`
  const link = element('button', { type: 'button', class: 'link', onclick: () => goTo(fault) }, where)
  const about = id === undefined ? ' · ' : ` (${id}) · `
  const title = element('b', {}, `${code} ${name}`)
  return element('li', {}, title, ' ', element('code', {}, place), about, link, element('p', {}, explanation))
}

/** Shows whether a document is accepted, and why not. `about` is what else there is to say. */
function showVerdict(place, list, { accepted, text, faults }, about, goTo) {
  const line = text.split('\n', 1)[0]
  const words = accepted ? 'Accepted' : faults.length > 1 ? `Refused: ${count(faults.length, 'fault')}` : 'Refused'
  const first = faults[0] ? ` Line ${faults[0].line}, column ${faults[0].column}.` : ''
  place.className = `verdict ${accepted ? 'accepted' : 'refused'}`
  place.replaceChildren(`${words}: `, element('span', { class: 'line' }, line), `.${first} ${about}`)
  const items = faults.slice(0, MOST_LISTED).map((fault) => makeItem(fault, goTo))
  if (faults.length > MOST_LISTED) items.push(element('li', {}, `and ${count(faults.length - MOST_LISTED, 'more fault')}`))
  list.replaceChildren(items.length > 0 ? element('ol', { class: 'faults' }, ...items) : '')
}

/** Shows that there is no verdict, and why. */
function showNote(place, list, words) {
  place.className = 'verdict'
  place.textContent = words
  list.replaceChildren()
}

module.exports = { showNote, showVerdict }
