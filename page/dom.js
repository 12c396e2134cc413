'use strict'

// Short ways to make elements of the page.

const SVG = 'http://www.w3.org/2000/svg'

function fill(made, attributes, children) {
  for (const [name, value] of Object.entries(attributes)) {
    if (name.startsWith('on')) made.addEventListener(name.slice(2), value)
    // The policy of the page takes no style from an attribute.
    else if (name === 'style') made.style.cssText = value
    else if (value !== undefined && value !== false) made.setAttribute(name, value === true ? '' : value)
  }
  made.append(...children.filter((child) => child !== undefined && child !== ''))
  return made
}

/** An element of HTML. An attribute `onclick` and its like is a listener; one that is undefined or false is left out. */
function element(name, attributes = {}, ...children) {
  return fill(document.createElement(name), attributes, children)
}

/** An element of a picture. */
function drawElement(name, attributes = {}, ...children) {
  return fill(document.createElementNS(SVG, name), attributes, children)
}

/** @returns {any} The element of the page with an id. */
function byId(id) {
  return document.getElementById(id)
}

/** A text that is cut after so many characters. */
function cut(text, most) {
  return text.length > most ? `${text.slice(0, most - 1)}…` : text
}

/** A number as people write it. */
function count(number, noun, nouns = `${noun}s`) {
  return `${number.toLocaleString('en')} ${number === 1 ? noun : nouns}`
}

/** Puts a text on the clipboard, and says in a note whether that worked, or else where the text is. */
async function copy(text, note, elsewhere = '') {
  try {
    await navigator.clipboard.writeText(text)
    note.textContent = 'Copied.'
  } catch {
    note.textContent = copyByHand(text) ? 'Copied.' : `The browser does not allow it.${elsewhere}`
  }
}

// Where there is no clipboard for pages, as on file:// in some browsers.
function copyByHand(text) {
  const field = element('textarea', { class: 'hidden' })
  const focused = /** @type {HTMLElement | null} */ (document.activeElement)
  field.value = text
  document.body.append(field)
  field.select()
  try {
    return document.execCommand('copy')
  } finally {
    field.remove()
    focused?.focus()
  }
}

module.exports = { byId, copy, count, cut, drawElement, element }
