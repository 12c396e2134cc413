'use strict'

// Where the boxes of a plan are: levels from left to right, groups framed, and in a level of many requests several columns. A
// group with members of several levels has one frame over all of them.

const BOX = { width: 164, height: 38 }
const [GAP_X, GAP_Y] = [14, 12] // between boxes
const BETWEEN = 64 // levels, where the arrows are
const FRAME = { side: 8, top: 24, bottom: 8 }
const HEAD = 30 // where the levels are named
const MARGIN = 14
const LEAST_ROWS = 12

/** The units of the requests: groups, and requests without one, with their members by level. */
function groupUnits(requests) {
  const units = new Map()
  for (const request of requests) {
    const key = request.group === null ? `/${request.position}` : request.group
    if (!units.has(key)) units.set(key, { group: request.group, levels: new Map() })
    const { levels } = units.get(key)
    if (!levels.has(request.level)) levels.set(request.level, [])
    levels.get(request.level).push(request)
  }
  return Array.from(units.values(), ({ group, levels }) => {
    return { group, levels, first: Math.min(...levels.keys()), last: Math.max(...levels.keys()) }
  })
}

/** How many boxes a column may have: a plan is about two and a half times as wide as it is high. */
function mostRows(requests, levels) {
  const widest = Math.max(...levels)
  return Math.max(LEAST_ROWS, Math.ceil(Math.sqrt((requests.length / levels.length) * 3)), Math.ceil(Math.sqrt(widest * 1.5)))
}

class Layout {
  boxes = []
  frames = []
  levels = []
  #heights = []
  // The height of the middle of each name's box or frame.
  #middles = new Map()

  constructor(requests) {
    const sizes = []
    for (const { level } of requests) sizes[level] = (sizes[level] ?? 0) + 1
    this.rows = mostRows(requests, sizes)
    this.#columns(sizes)
    const begun = sizes.map(() => [])
    for (const unit of groupUnits(requests)) begun[unit.first].push(unit)
    for (const units of begun) this.#placeLevel(units)
    this.height = Math.max(HEAD + BOX.height, ...this.#heights.flat()) + MARGIN
  }

  /** The columns of each level, and where they are. */
  #columns(sizes) {
    let x = MARGIN
    for (const size of sizes) {
      const columns = Math.ceil(size / this.rows)
      const width = columns * BOX.width + (columns - 1) * (GAP_X + 2 * FRAME.side)
      this.levels.push({ x: x + FRAME.side, width, columns, size })
      this.#heights.push(new Array(columns).fill(HEAD))
      x += width + 2 * FRAME.side + BETWEEN
    }
    this.width = x - BETWEEN + MARGIN
  }

  /** Places the units that begin in a level: first those that other levels share, then the others near what they need. */
  #placeLevel(units) {
    const middle = (unit) => {
      const names = [...unit.levels.values()].flat().flatMap(({ needs }) => needs)
      const known = names.map((name) => this.#middles.get(name)).filter((at) => at !== undefined)
      return known.length > 0 ? known.reduce((sum, at) => sum + at, 0) / known.length : Infinity
    }
    const keyed = units.map((unit) => ({ unit, isLong: unit.last > unit.first, at: middle(unit) }))
    keyed.sort((a, b) => b.isLong - a.isLong || (a.at === b.at ? 0 : a.at - b.at))
    for (const { unit } of keyed) this.#place(unit)
  }

  #place(unit) {
    const isFramed = unit.group !== null
    const { columns, rows } = this.#shape(unit)
    const height = rows * (BOX.height + GAP_Y) + (isFramed ? FRAME.top + FRAME.bottom : 0)
    const from = columns === undefined ? 0 : this.#column(unit.first, columns, height)
    const y = this.#take(unit, from, columns, height)
    const top = y + (isFramed ? FRAME.top : 0)
    for (const [level, all] of unit.levels) {
      all.forEach((request, n) => this.#box(request, level, from + Math.floor(n / rows), top + (n % rows) * (BOX.height + GAP_Y)))
    }
    if (isFramed) this.#frame(unit, from, columns, y, height)
  }

  /** How many columns and rows a unit takes: as few columns as it fits into, or, over several levels, all that these have. */
  #shape({ first, last, levels }) {
    if (last > first) {
      return { rows: Math.max(...Array.from(levels, ([level, all]) => Math.ceil(all.length / this.levels[level].columns))) }
    }
    const size = levels.get(first).length
    const columns = Math.ceil(size / this.rows)
    return { columns, rows: Math.ceil(size / columns) }
  }

  /** The first of so many columns of a level with room for a unit, or those with the least height. */
  #column(level, columns, height) {
    const heights = this.#heights[level]
    const most = HEAD + this.rows * (BOX.height + GAP_Y)
    let best = 0
    for (let at = 0; at + columns <= heights.length; at++) {
      const top = Math.max(...heights.slice(at, at + columns))
      if (top + height <= most) return at
      if (top < Math.max(...heights.slice(best, best + columns))) best = at
    }
    return best
  }

  /** Takes the room of a unit; returns where it begins. */
  #take({ first, last }, from, columns, height) {
    let y = HEAD
    const each = (change) => {
      for (let level = first; level <= last; level++) {
        const heights = this.#heights[level]
        for (let at = from; at < (columns === undefined ? heights.length : from + columns); at++) change(heights, at)
      }
    }
    each((heights, at) => (y = Math.max(y, heights[at])))
    each((heights, at) => (heights[at] = y + height))
    return y
  }

  #columnX(level, column) {
    return this.levels[level].x + column * (BOX.width + GAP_X + 2 * FRAME.side)
  }

  #box({ position, id }, level, column, y) {
    const x = this.#columnX(level, column)
    this.boxes[position] = { x, y, ...BOX, column }
    this.#middles.set(id, y + BOX.height / 2)
  }

  #frame({ group, first, last }, from, columns, y, height) {
    const to = columns === undefined ? this.levels[last].columns - 1 : from + columns - 1
    const x = this.#columnX(first, from) - FRAME.side
    const width = this.#columnX(last, to) + BOX.width + FRAME.side - x
    this.frames.push({ group, x, y: y + 4, width, height: height - GAP_Y + 2 })
    this.#middles.set(group, y + height / 2)
  }
}

/** An arrow from the right of a box or a frame to the left of a box: its line, and its head. */
function arrow(from, to) {
  const [x, y] = [from.x + from.width, from.y + from.height / 2]
  const [left, middle] = [to.x - 7, to.y + to.height / 2]
  const bend = left > x ? Math.min(Math.max((left - x) / 2, 20), 120) : 60
  const line = `M${x} ${y}C${x + bend} ${y} ${left - bend} ${middle} ${left} ${middle}`
  return { line, head: `M${to.x} ${middle}l-9 -4.5v9z` }
}

module.exports = { BOX, Layout, arrow }
