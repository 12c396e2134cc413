'use strict'

// What an example, a file or a paste has replaced: one step back.

const { count, element } = require('./dom.js')

class Restorer {
  #line = element('p', { class: 'note replaced', role: 'status' })
  #bringBack

  /** `bringBack` is called with what was kept. */
  constructor(bringBack) {
    this.#bringBack = bringBack
  }

  /** Keeps a batch and the events of its run, if one of them is somebody's work, and says so in a section of the page. */
  keep(section, kept) {
    const { batch, isOwn, events } = kept
    const what = events.length > 0 ? `run of ${count(events.length, 'event')}` : isOwn && batch ? 'batch' : undefined
    this.#line.remove()
    if (what === undefined) return
    const button = element('button', { type: 'button', class: 'link', onclick: () => this.#bringBack(kept) }, 'Bring it back')
    this.#line.replaceChildren(`Your ${what} was replaced. `, button)
    section.querySelector('.bar').after(this.#line)
  }
}

module.exports = { Restorer }
