'use strict'

// Where in a text a fault is: as ranges of the text, and as line and column.

const { membersAt } = require('./json_scanner.js')

// The member of an element that the rule of a fault is about.
const MEMBER = {
  F11: 'if', F13: 'id', F14: 'method', F15: 'url', F16: 'atomicityGroup', F17: 'dependsOn', F18: 'headers', F19: 'headers',
  F20: 'body', F21: 'body', F22: 'url', F23: 'url', F30: 'id', F31: 'id', F32: 'atomicityGroup', F40: 'dependsOn',
  F41: 'dependsOn', F42: 'dependsOn', F43: 'dependsOn', F44: 'url', F45: 'url', F46: 'url', F61: 'id', F62: 'status', F71: 'id',
  F72: 'id', F74: 'atomicityGroup',
}
const LONGEST_ID = 100 // characters of an id that is shown
const OF_ELEMENT = /^\/\w+\/\d+$/
const WORD_AT_END = /[\w.+-]*$/u
const LONGEST_WORD = 100 // characters of a number or a word that are marked
// What may be a string, a number or a word, as far as it goes; or another character.
const TOKEN = /"(?:[^"\\\n]|\\.)*"?|[\w.+-]+|[^]/uy

const decoder = new TextDecoder('utf-8', { ignoreBOM: true })

/** The lines of a text, which count from 1. */
class Lines {
  #starts = [0]

  constructor(text) {
    this.text = text
    for (let at = text.indexOf('\n'); at >= 0; at = text.indexOf('\n', at + 1)) this.#starts.push(at + 1)
  }

  get count() {
    return this.#starts.length
  }

  /** The place where a line begins; after the last line that is the end of the text. */
  start(line) {
    return line > this.count ? this.text.length : this.#starts[line - 1]
  }

  /** The line of a place. */
  lineOf(offset) {
    let [low, high] = [0, this.count]
    while (high - low > 1) {
      const middle = (low + high) >> 1
      if (this.#starts[middle] <= offset) low = middle
      else high = middle
    }
    return low + 1
  }
}

/** The places in a text of those in its bytes, each counted on from the one before it. */
class Offsets {
  #bytes
  #last = 0
  #at = 0

  constructor(bytes) {
    this.#bytes = bytes
  }

  find(offset) {
    if (offset < this.#last) this.#last = this.#at = 0
    this.#at += decoder.decode(this.#bytes.subarray(this.#last, offset)).length
    this.#last = offset
    return this.#at
  }
}

/** Where the faults of a document are. */
class Places {
  #text
  #offsets

  constructor(text, bytes) {
    this.#text = text
    this.#offsets = new Offsets(bytes)
  }

  /** The range of what a fault names, its id, the range in it that the rule is about, and its line and column. */
  locate(fault) {
    const { line, column } = fault
    const whole = this.#findRange(fault)
    return { whole, part: whole, ...this.#findAbout(fault, whole), line, column }
  }

  #findRange({ code, place, offset, end }) {
    if (code === 'F01') return { start: 0, end: 0 }
    const start = this.#offsets.find(offset)
    if (OF_ELEMENT.test(place)) return { start, end: this.#offsets.find(end) }
    const token = this.#tokenAt(start)
    const isWrong = code === 'F02' && token.end > start
    return isWrong ? { start: this.#wordBefore(start), end: token.end } : token
  }

  /** The range of the member of an element that the rule of a fault is about, and the id of the element, as far as there are any. */
  #findAbout({ code, place }, { start }) {
    if (!OF_ELEMENT.test(place)) return {}
    const members = membersAt(this.#text, start)
    const { start: first, end } = members.get('id')?.value ?? { start: 0, end: 0 }
    const isShort = this.#text[first] === '"' && end - first <= LONGEST_ID
    const found = isShort ? { id: JSON.parse(this.#text.slice(first, end)) } : {}
    return members.has(MEMBER[code]) ? { ...found, part: members.get(MEMBER[code]) } : found
  }

  /** Where the number or the word begins that ends at this place, which is wrong with what is there; else the place. */
  #wordBefore(end) {
    return end - WORD_AT_END.exec(this.#text.slice(Math.max(0, end - LONGEST_WORD), end))[0].length
  }

  /** The range of the token there, which is empty at the end of the text. */
  #tokenAt(start) {
    TOKEN.lastIndex = start
    return { start, end: TOKEN.test(this.#text) ? TOKEN.lastIndex : start }
  }
}

module.exports = { Lines, Places }
