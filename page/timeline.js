'use strict'

// The time line of a run: a bar a request, from the event that starts it to the one that reports it.

const { count, cut, drawElement, element } = require('./dom.js')
const { joinNames } = require('./reasons.js')

const ROW = 24
const LEFT = 130 // pixels for the ids
const RIGHT = 70 // pixels for the status of a bar that ends last
const EDGE = 20 // pixels for a scroll bar
const MOST_ROWS = 200
const MOST_MARKS = 100
const APART = 30 // pixels between marks of steps
const TOP = 22
const MOST_HIGH = 352 // pixels of the picture before it scrolls
const STEPS = { least: 6, most: 64, all: 560 } // pixels of a step, and of all of them if the page has no room yet

/** When each request starts and reports, in the order of the starts. */
function collectBars(events) {
  const bars = new Map()
  events.forEach(({ id, status }, at) => {
    if (status === undefined) bars.set(id, { id, begin: at })
    else Object.assign(bars.get(id), { end: at, status })
  })
  return [...bars.values()]
}

function drawBar({ id, begin, end, status }, row, { kind, width, now }) {
  const x = LEFT + begin * width
  const y = TOP + row * ROW
  const long = Math.max(((end ?? now) - begin) * width, 4)
  const label = status === undefined ? 'running' : kind === 'undone' ? `${status} ↶` : String(status)
  return drawElement(
    'g', {},
    drawElement('text', { x: LEFT - 8, y: y + 15, 'text-anchor': 'end' }, cut(id, 16)),
    drawElement('rect', { class: `bar-shape bar-${kind}`, x, y: y + 2, width: long, height: ROW - 6, rx: 3 }),
    drawElement('text', { class: 'small', x: x + long + 4, y: y + 14 }, label),
  )
}

/** What the picture shows, as a sentence for all that it has. */
function describeRun(bars, undone) {
  const ran = `${count(bars.length, 'request')} started.`
  return undone.length > 0 ? `${ran} To be undone, in this order: ${joinNames(undone)}.` : ran
}

/** Shows when the requests of a run ran. `kindOf` is the state of one by its id. */
function showTimeline(place, { events, undone }, kindOf) {
  if (events.length === 0) {
    place.replaceChildren(element('p', { class: 'empty' }, 'Nothing has started yet.'))
    return
  }
  const bars = collectBars(events)
  const shown = bars.slice(0, MOST_ROWS)
  const now = events.length
  const room = place.clientWidth > 0 ? place.clientWidth - LEFT - RIGHT - EDGE : STEPS.all
  const width = Math.min(Math.max(room / now, STEPS.least), STEPS.most)
  const size = { width: LEFT + now * width + RIGHT, height: TOP + shown.length * ROW + 6 }
  const every = Math.max(Math.ceil(APART / width), Math.ceil(now / MOST_MARKS))
  const marks = Array.from({ length: Math.floor(now / every) + 1 }, (_, at) => {
    const x = LEFT + at * every * width
    const line = drawElement('path', { class: 'step', d: `M${x} ${TOP}V${size.height}` })
    const step = drawElement('text', { class: 'small', x, y: 14, 'text-anchor': 'middle' }, String(at * every))
    return drawElement('g', {}, line, step)
  })
  const rows = shown.map((bar, row) => drawBar(bar, row, { kind: kindOf(bar.id), width, now }))
  const label = `The time line. ${describeRun(bars, undone)}`
  const picture = drawElement('svg', { ...size, role: 'img', 'aria-label': label }, ...marks, ...rows)
  const more = bars.length > MOST_ROWS ? ` The first ${MOST_ROWS} are shown.` : ''
  const words = 'Each bar begins where its request starts and ends where it is reported, counted in events.'
  const style = `height: ${Math.min(size.height + 20, MOST_HIGH)}px`
  place.replaceChildren(
    element('p', { class: 'note' }, `${words} ${describeRun(bars, undone)}${more}`),
    element('div', { class: 'scroll', tabindex: '0', role: 'group', 'aria-label': 'The time line', style }, picture),
  )
}

module.exports = { showTimeline }
