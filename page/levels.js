'use strict'

// The plan of very many requests: a box a level, or some levels in a row, with counts of its requests by their states.

const { count, drawElement } = require('./dom.js')
const { SIGNS } = require('./reasons.js')

const BOX = { width: 176, high: 24, gap: 40 }
const TOP = 10
const MOST = 200 // boxes
const LINES = {
  ready: 'may start', running: 'running', success: 'succeeded', failure: 'failed', skipped: 'not started', undone: 'to be undone',
}
const HEIGHT = 62 + BOX.high * Object.keys(LINES).length
const BAR = { x: 8, height: 10, y: 46 }

/** Ranges of levels, no more than can be drawn, each with its requests. */
function splitLevels(requests) {
  const last = requests.reduce((most, { level }) => Math.max(most, level), 0)
  const size = Math.ceil((last + 1) / MOST)
  const ranges = Array.from({ length: Math.ceil((last + 1) / size) }, (_, at) => {
    return { first: at * size, last: Math.min(last, (at + 1) * size - 1), requests: [] }
  })
  for (const request of requests) ranges[Math.floor(request.level / size)].requests.push(request)
  return ranges
}

/** The box of a range, with what paints it anew. */
function drawBox({ first, last, requests }, at, reasons) {
  const x = 14 + at * (BOX.width + BOX.gap)
  const groups = new Set(requests.map(({ group }) => group).filter((group) => group !== null)).size
  const title = first === last ? `level ${first}` : `levels ${first} to ${last}`
  const about = `${count(requests.length, 'request')}${groups > 0 ? `, ${count(groups, 'group')}` : ''}`
  const lines = drawElement('g')
  const box = drawElement(
    'g', { class: 'box' },
    drawElement('rect', { x, y: TOP, width: BOX.width, height: HEIGHT, rx: 5 }),
    drawElement('text', { class: 'level', x: x + 8, y: TOP + 18 }, title),
    drawElement('text', { x: x + 8, y: TOP + 36 }, about),
    lines,
  )
  return { box, paint: () => lines.replaceChildren(...drawCounts(requests, reasons, x)) }
}

/** The lines of a box: how many requests are in which state. */
function drawCounts(requests, reasons, x) {
  const found = {}
  for (const request of requests) {
    const kind = reasons.kind(request)
    found[kind] = (found[kind] ?? 0) + 1
  }
  const kinds = Object.keys(LINES).filter((kind) => found[kind])
  let begin = x + BAR.x
  return kinds.flatMap((kind, row) => {
    const width = (found[kind] / requests.length) * (BOX.width - 2 * BAR.x)
    const fill = `fill: var(--${kind === 'undone' ? 'failure' : kind})`
    const bar = drawElement('rect', { class: 'bar-shape', x: begin, y: TOP + BAR.y, width, height: BAR.height, style: fill })
    const words = `${SIGNS[kind]} ${found[kind].toLocaleString('en')} ${LINES[kind]}`
    begin += width
    return [bar, drawElement('text', { x: x + 8, y: TOP + 78 + row * BOX.high }, words)]
  })
}

/** The picture of the levels, its size, and what paints it for the run as it is now. */
function drawLevels(requests, reasons) {
  const ranges = splitLevels(requests)
  const boxes = ranges.map((range, at) => drawBox(range, at, reasons))
  const middle = TOP + HEIGHT / 2
  const arrows = ranges.slice(1).flatMap((_, at) => {
    const x = 14 + at * (BOX.width + BOX.gap) + BOX.width
    const line = drawElement('path', { class: 'arrow', d: `M${x} ${middle}h${BOX.gap - 8}` })
    return [line, drawElement('path', { class: 'head', d: `M${x + BOX.gap} ${middle}l-9 -4.5v9z` })]
  })
  const picture = drawElement('svg', { 'aria-hidden': 'true' }, ...arrows, ...boxes.map(({ box }) => box))
  const size = { width: 28 + ranges.length * (BOX.width + BOX.gap) - BOX.gap, height: 2 * TOP + HEIGHT }
  return { picture, size, paint: () => boxes.forEach(({ paint }) => paint()) }
}

module.exports = { drawLevels }
