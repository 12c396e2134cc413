'use strict'

// The plan as a picture: a box a request, a frame a group, an arrow a dependency. Requests that are too many for that are shown
// by their levels, with counts.

const { cut, count, drawElement, element } = require('./dom.js')
const { Graph } = require('./graph.js')
const { Layout, arrow } = require('./layout.js')
const { drawLevels } = require('./levels.js')
const { Scroll } = require('./scroll.js')
const { SIGNS, describeRequest, joinNames } = require('./reasons.js')

const MOST_BOXES = 2000
const MOST_ARROWS = 6000
const OF_PART = 16 // requests
const MOST_BESIDE = 200 // requests of a plan in which those beside one are named
const [OF_ID, OF_URL] = [16, 24] // characters
const ARROWS = { ArrowLeft: [-1, 0], ArrowRight: [1, 0], ArrowUp: [0, -1], ArrowDown: [0, 1] }
const ZOOMS = { '+': 1, '=': 1, '-': -1 }

class Picture {
  #place
  #about
  #onOpen
  #scroll
  #window
  #requests = []
  #boxes = []
  #kinds = []
  #reasons
  #layout
  #graph
  #frames = new Map()
  #lit
  #chosen
  #paintLevels

  /** `about` shows what is known of the request that is pointed at, and `onOpen` is called with the one that is entered. */
  constructor(place, about, onOpen) {
    this.#place = place
    this.#about = about
    this.#onOpen = onOpen
  }

  /** Draws the plan of some requests. `reasons` has their states. */
  show(requests, reasons) {
    this.#requests = requests
    this.#reasons = reasons
    this.#boxes = []
    this.#kinds = []
    this.#chosen = undefined
    this.#paintLevels = undefined
    this.#about.textContent = ''
    if (requests.length === 0) {
      this.#place.replaceChildren(element('p', { class: 'empty' }, 'There is no plan.'))
      return
    }
    const label = `The plan: ${count(requests.length, 'request')}. Arrow keys go from one to another.`
    this.#window = element('div', {
      class: 'scroll', tabindex: '0', role: 'application', 'aria-label': label, 'aria-describedby': this.#about.id,
    })
    this.#scroll = new Scroll(this.#window)
    this.#place.replaceChildren(this.#window)
    if (requests.length > MOST_BOXES) this.#showLevels()
    else this.#showBoxes()
    this.paint()
  }

  empty(words) {
    this.#requests = []
    this.#place.replaceChildren(element('p', { class: 'empty' }, words))
    this.#about.textContent = ''
  }

  zoom(steps) {
    if (this.#requests.length > 0) this.#scroll.zoom(steps)
  }

  fit() {
    if (this.#requests.length > 0) this.#scroll.fit()
  }

  #showLevels() {
    const { picture, size, paint } = drawLevels(this.#requests, this.#reasons)
    this.#paintLevels = paint
    this.#scroll.show(picture, size)
    this.#window.addEventListener('keydown', (event) => this.#zoomKey(event))
    this.#about.textContent = `${count(this.#requests.length, 'request')} are too many for boxes: their levels are shown.`
  }

  #showBoxes() {
    const layout = new Layout(this.#requests)
    this.#layout = layout
    this.#graph = new Graph(this.#requests)
    this.#frames = new Map(layout.frames.map((frame) => [frame.group, frame]))
    const picture = drawElement('svg', { 'aria-hidden': 'true' })
    this.#lit = drawElement('g')
    picture.append(...this.#levelNames(), ...layout.frames.map((frame) => this.#frame(frame)), ...this.#arrows(), this.#lit)
    this.#boxes = this.#requests.map((request) => this.#box(request))
    picture.append(...this.#boxes.map(({ group }) => group))
    this.#scroll.show(picture, layout)
    picture.addEventListener('pointerover', (event) => this.#point(event))
    picture.addEventListener('pointerleave', () => this.#light(this.#chosen))
    picture.addEventListener('click', (event) => this.#click(event))
    this.#window.addEventListener('keydown', (event) => this.#key(event))
    this.#window.addEventListener('focus', () => this.#choose(this.#chosen ?? 0))
  }

  #levelNames() {
    return this.#layout.levels.map(({ x, size }, level) => {
      return drawElement('text', { class: 'level', x, y: 18 }, `level ${level} (${count(size, 'request')})`)
    })
  }

  #frame({ group, x, y, width, height }) {
    const name = drawElement('text', { class: 'frame-name', x: x + 8, y: y + 14 }, cut(group, 24))
    return drawElement('g', {}, drawElement('rect', { class: 'frame', x, y, width, height, rx: 8 }), name)
  }

  #box({ position, id, method, url }) {
    const { x, y, width, height } = this.#layout.boxes[position]
    const sign = drawElement('text', { x: x + width - 8, y: y + 16, 'text-anchor': 'end' })
    const name = drawElement('text', { x: x + 8, y: y + 16 }, cut(id, OF_ID))
    const asked = drawElement('text', { class: 'small', x: x + 8, y: y + 31 }, cut(`${method} ${url}`, OF_URL))
    const shape = drawElement('rect', { x, y, width, height, rx: 5 })
    const group = drawElement('g', { class: 'box', 'data-position': position }, shape, name, asked, sign)
    return { group, sign, classes: new Set() }
  }

  /** Where an arrow for a name begins: at the frame of a group, or at the box of a request. */
  #source(name) {
    if (this.#frames.has(name)) return this.#frames.get(name)
    const [request] = this.#reasons.members(name)
    return request && this.#layout.boxes[request.position]
  }

  /** The arrows of some requests, by kind: names that are listed, and references. */
  #paths(requests, kind) {
    const parts = { plain: [[], []], reference: [[], []] }
    for (const { position, needs, reference } of requests) {
      for (const name of needs) {
        const from = this.#source(name)
        if (!from) continue
        const { line, head } = arrow(from, this.#layout.boxes[position])
        const [lines, heads] = name === reference ? parts.reference : parts.plain
        lines.push(line)
        heads.push(head)
      }
    }
    return Object.entries(parts).flatMap(([of, [lines, heads]]) => [
      drawElement('path', { class: `arrow ${of} ${kind}`, d: lines.join('') }),
      drawElement('path', { class: `head ${kind}`, d: heads.join('') }),
    ])
  }

  /** The arrows of the requests, up to a number, in parts, so that the browser need not paint those that cannot be seen. */
  #arrows() {
    let arrows = 0
    const shown = this.#requests.filter(({ needs }) => (arrows += needs.length) <= MOST_ARROWS)
    const parts = Array.from({ length: Math.ceil(shown.length / OF_PART) }, (_, at) => at * OF_PART)
    return parts.flatMap((at) => this.#paths(shown.slice(at, at + OF_PART), ''))
  }

  #point(event) {
    const box = event.target.closest('.box')
    this.#light(box ? Number(box.dataset.position) : this.#chosen)
  }

  #click(event) {
    const box = event.target.closest('.box')
    if (box) this.#choose(Number(box.dataset.position))
  }

  #choose(position) {
    this.#chosen = position
    this.#light(position)
    this.#scroll.reveal(this.#layout.boxes[position])
  }

  /** Shows a request that something else has chosen. */
  choose(position) {
    if (this.#boxes.length > 0 && position !== this.#chosen) this.#choose(position)
  }

  /** Lights up a request, what it needs and what needs it, and says what it is. */
  #light(position) {
    const needed = position === undefined ? new Set() : this.#graph.needed(position)
    const dependents = position === undefined ? new Set() : this.#graph.dependents(position)
    this.#boxes.forEach((box, at) => {
      const classes = [['needed', needed.has(at)], ['dependent', dependents.has(at)], ['chosen', at === position]]
      for (const [name, has] of classes) if (has !== box.classes.has(name)) this.#toggle(box, name, has)
    })
    this.#lit.replaceChildren(...(position === undefined ? [] : this.#litArrows(position)))
    this.#about.replaceChildren(...(position === undefined ? [] : this.#words(position, needed, dependents)))
  }

  #toggle(box, name, has) {
    box.group.classList.toggle(name, has)
    if (has) box.classes.add(name)
    else box.classes.delete(name)
  }

  #litArrows(position) {
    const { id, group } = this.#requests[position]
    const after = this.#requests.filter(({ needs }) => needs.includes(id) || (group !== null && needs.includes(group)))
    const only = after.map((other) => ({ ...other, needs: other.needs.filter((name) => name === id || name === group) }))
    return [...this.#paths([this.#requests[position]], 'needed'), ...this.#paths(only, 'dependent')]
  }

  #words(position, needed, dependents) {
    const request = this.#requests[position]
    const { id, group, needs, level, reference } = request
    const parts = [
      `level ${level}`,
      group === null ? '' : `group ${group}`,
      needs.length > 0 ? `needs ${needs.join(', ')}` : 'needs nothing',
      reference === null ? '' : `its URL refers to ${reference}`,
      needed.size > needs.length ? `${needed.size} before it in all` : '',
      `${count(dependents.size, 'request')} ${dependents.size === 1 ? 'needs' : 'need'} it`,
      this.#beside(position, needed, dependents),
    ]
    const why = this.#reasons.why(request)
    const state = `${this.#reasons.words(request)}${why ? `: ${why}` : ''}`
    const about = [describeRequest(request, 120), ...parts.filter(Boolean), state].join(' · ')
    return [element('span', { class: 'mono' }, id), ` ${about}`]
  }

  /** Which requests may run beside one: those that it does not need, and that do not need it. */
  #beside(position, needed, dependents) {
    if (this.#requests.length > MOST_BESIDE) return ''
    const others = this.#requests.filter((_, at) => at !== position && !needed.has(at) && !dependents.has(at))
    return others.length > 0 ? `may run beside ${joinNames(others.map(({ id }) => id))}` : 'nothing may run beside it'
  }

  #zoomKey(event) {
    if (event.ctrlKey || event.metaKey || event.altKey) return false
    if (event.key in ZOOMS) this.#scroll.zoom(ZOOMS[event.key])
    else if (event.key === '0') this.#scroll.fit()
    else return false
    event.preventDefault()
    return true
  }

  #key(event) {
    if (this.#zoomKey(event) || event.ctrlKey || event.metaKey || event.altKey) return
    if (event.key in ARROWS) this.#choose(this.#next(...ARROWS[event.key]))
    else if (event.key === 'Enter') this.#onOpen(this.#chosen ?? 0)
    else return
    event.preventDefault()
  }

  /** The position of the nearest box in a direction, or the one that is chosen. */
  #next(across, down) {
    const from = this.#layout.boxes[this.#chosen ?? 0]
    let [best, least] = [this.#chosen ?? 0, Infinity]
    this.#layout.boxes.forEach((box, position) => {
      const [x, y] = [box.x - from.x, box.y - from.y]
      const [along, aside] = across === 0 ? [y * down, Math.abs(x)] : [x * across, Math.abs(y)]
      if (along <= 0 || (across === 0 && aside > 0)) return
      if (along + 2 * aside < least) [best, least] = [position, along + 2 * aside]
    })
    return best
  }

  /** Colours the boxes by the states that the run has now. */
  paint() {
    this.#paintLevels?.()
    this.#boxes.forEach((box, position) => {
      const request = this.#requests[position]
      const key = this.#reasons.key(request)
      if (this.#kinds[position] === key) return
      this.#kinds[position] = key
      const kind = this.#reasons.kind(request)
      const status = this.#reasons.status(request)
      box.group.setAttribute('class', `box state-${kind}${[...box.classes].map((name) => ` ${name}`).join('')}`)
      box.sign.textContent = `${SIGNS[kind]}${status ? ` ${status}` : ''}`
      if (position === this.#chosen) this.#light(position)
    })
  }
}

module.exports = { MOST_BOXES, Picture }
