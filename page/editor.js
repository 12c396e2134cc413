'use strict'

// A text field with the numbers of its lines and with marks. Numbers and marks are made of the lines that can be seen, so a long
// text costs no more than a short one. A text that is too long to be edited is shown in part.

const { element } = require('./dom.js')
const { Lines } = require('./places.js')

const LINE = 20 // pixels of a line, and of the space above the first one
const TOP = 6
const LEFT = 8
const WIDTH = 7.8 // of a character, about
const LONGEST = 20_000 // characters of a line that can have marks
const MOST = 400_000 // characters that can be edited

/** The classes of the marks of a range that begins at each of these places, and ends at the next one. */
function* segments(marks, from, to) {
  const inside = marks.filter(({ start, end }) => start < to && end > from)
  const edges = new Set([from, to])
  for (const { start, end } of inside) for (const at of [start, end]) if (at > from && at < to) edges.add(at)
  const sorted = [...edges].sort((a, b) => a - b)
  for (let i = 0; i + 1 < sorted.length; i++) {
    const [start, end] = [sorted[i], sorted[i + 1]]
    const covering = inside.filter((mark) => mark.start <= start && mark.end >= end)
    yield { start, end, kind: covering.some(({ isPart }) => isPart) ? 'part' : covering.length > 0 ? 'whole' : undefined }
  }
}

class Editor {
  #field
  #marks
  #numbers
  #root
  #note
  #list = []
  #lines = new Lines('')
  // Where the part that is shown begins in the document, and on which line.
  #begin = 0
  #firstLine = 1
  #onLarge
  #onReplace

  /** `onInput` is called with the text, `onLarge` with one that is too long to be edited, `onReplace` before a paste over all. */
  constructor(place, { id, label, isLow = false, onInput, onLarge, onMove, onReplace = () => {} }) {
    this.#field = element('textarea', {
      id, 'aria-label': label, spellcheck: 'false', autocomplete: 'off', autocapitalize: 'off', wrap: 'off',
    })
    this.#marks = element('div', { class: 'marks', 'aria-hidden': 'true' })
    this.#numbers = element('div', { class: 'numbers', 'aria-hidden': 'true' })
    this.#note = element('div', { class: 'excerpt', hidden: true })
    const field = element('div', { class: 'field' }, this.#marks, this.#field)
    this.#root = element('div', { class: isLow ? 'editor low' : 'editor' }, this.#numbers, field)
    this.#onLarge = onLarge
    this.#onReplace = onReplace
    this.onMove = onMove
    this.#field.addEventListener('input', () => {
      this.#readLines(this.#field.value)
      onInput(this.#field.value)
    })
    this.#field.addEventListener('scroll', () => this.#draw())
    this.#field.addEventListener('paste', (event) => this.#paste(event))
    new ResizeObserver(() => this.#draw()).observe(this.#root)
    place.replaceChildren(this.#root, this.#note)
  }

  get text() {
    return this.#field.value
  }

  /** Shows a text that can be edited. */
  set text(text) {
    this.#field.readOnly = false
    this.#note.hidden = true
    this.#begin = 0
    this.#firstLine = 1
    this.#field.value = text
    this.#field.scrollTop = 0
    this.#field.scrollLeft = 0
    this.#readLines(this.#field.value)
  }

  /** Whether a text can be edited here. */
  static takes(text) {
    return text.length <= MOST
  }

  /** Whether bytes may be a text that can be edited here: a character takes at most three of them. */
  static mayTake(bytes) {
    return bytes.length <= 3 * MOST
  }

  /** Shows a part of a document, to be read alone. */
  showPart({ text, begin, line, length }, words) {
    this.#field.readOnly = true
    this.#field.value = text
    this.#begin = begin
    this.#firstLine = line
    this.#lines = new Lines(text)
    const button = (title, at) => element('button', { type: 'button', onclick: () => this.onMove(at) }, title)
    const back = begin > 0 ? button('Show what is before', Math.max(0, begin - text.length / 2)) : ''
    const on = begin + text.length < length ? button('Show what comes after', begin + text.length) : ''
    this.#note.replaceChildren(words, ...[back, on].filter(Boolean))
    this.#note.hidden = false
    this.#draw()
  }

  /** Marks ranges of the document: each `{ whole, part }`. */
  set marks(faults) {
    this.#list = faults.flatMap(({ whole, part }) => [whole, { ...part, isPart: true }]).map(({ start, end, isPart }) => {
      // A text that ends too soon is marked after its end.
      return { start: start - this.#begin, end: Math.max(end, start + 1) - this.#begin, isPart }
    })
    this.#draw()
  }

  /** Goes to a range of the document, which becomes the selection. */
  goTo({ start, end }) {
    const [from, to] = [start - this.#begin, end - this.#begin]
    this.#field.focus({ preventScroll: true })
    this.#field.setSelectionRange(from, to)
    const line = this.#lines.lineOf(from)
    this.#field.scrollTop = Math.max(0, (line - 1) * LINE - this.#field.clientHeight / 3)
    this.#field.scrollLeft = Math.max(0, (from - this.#lines.start(line)) * WIDTH - this.#field.clientWidth / 2)
    this.#root.scrollIntoView({ block: 'nearest' })
  }

  /** Whether a range of the document is in the part that is shown. */
  shows({ start }) {
    return start >= this.#begin && start <= this.#begin + this.#field.value.length
  }

  #readLines(text) {
    this.#lines = new Lines(text)
    this.#list = []
    this.#draw()
  }

  #paste(event) {
    const pasted = event.clipboardData?.getData('text/plain') ?? ''
    const { value, selectionStart, selectionEnd } = this.#field
    const { readOnly } = this.#field
    if (pasted !== '' && !readOnly && selectionEnd - selectionStart === value.length) this.#onReplace()
    if (pasted === '' || (!readOnly && value.length + pasted.length <= MOST)) return
    event.preventDefault()
    // A document that is shown in part is replaced as a whole.
    this.#onLarge(readOnly ? pasted : value.slice(0, selectionStart) + pasted + value.slice(selectionEnd))
  }

  /** Makes the numbers and the marks of the lines that can be seen. */
  #draw() {
    const { scrollTop, scrollLeft, clientHeight } = this.#field
    const first = Math.max(1, Math.floor((scrollTop - TOP) / LINE) + 1)
    const last = Math.min(this.#lines.count, first + Math.ceil(clientHeight / LINE) + 1)
    const top = TOP + (first - 1) * LINE - scrollTop
    const [numbers, lines] = [[], []]
    for (let line = first; line <= last; line++) {
      const [start, end] = [this.#lines.start(line), this.#lines.start(line + 1)]
      const has = this.#list.some((mark) => !mark.isPart && mark.start >= start && mark.start < Math.max(end, start + 1))
      const place = { class: has ? 'has-fault' : undefined, style: `top:${top + (line - first) * LINE}px` }
      numbers.push(element('div', place, String(this.#firstLine + line - 1)))
      lines.push(this.#line(start, Math.min(end, start + LONGEST)))
    }
    this.#numbers.replaceChildren(...numbers)
    this.#numbers.style.minWidth = `${String(this.#firstLine + this.#lines.count).length + 1.6}ch`
    this.#marks.replaceChildren(...lines)
    this.#marks.style.transform = `translate(${LEFT - scrollLeft}px, ${top}px)`
  }

  #line(start, end) {
    const line = element('div', { style: `height:${LINE}px` })
    const { text: all } = this.#lines
    // A blank stands for the end of the line, so that it can be marked.
    const isWhole = end === all.length || all[end - 1] === '\n'
    const shown = all.slice(start, end).replace(/\n$/, '') + (isWhole ? ' ' : '')
    for (const segment of segments(this.#list, start, start + shown.length)) {
      const text = shown.slice(segment.start - start, segment.end - start)
      line.append(segment.kind ? element('mark', { class: segment.kind }, text) : text)
    }
    return line
  }
}

module.exports = { Editor }
