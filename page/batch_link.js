'use strict'

// Links that carry a batch after their `#`, packed, so that no server sees it.

const { count } = require('./dom.js')
const { Editor } = require('./editor.js')

const PREFIX = '#batch='
const MOST = 12_000 // bytes, packed: links may have the characters for them nearly everywhere
const MOST_TEXT = 1_200_000 // bytes of a text that can be edited
const DAMAGED = 'The link is damaged: it carries no batch.'
const TOO_LONG = `The link is refused: it carries more than the ${count(MOST_TEXT, 'byte')} that a link of this page may have.`

/** Puts bytes through a stream; returns undefined as soon as there are more of them than that. */
async function pipe(bytes, stream, most = Infinity) {
  const reader = new Blob([bytes]).stream().pipeThrough(stream).getReader()
  const parts = []
  let length = 0
  for (;;) {
    const { done, value } = await reader.read()
    if (done) return new Uint8Array(await new Blob(parts).arrayBuffer())
    length += value.length
    if (length > most) {
      reader.cancel().catch(() => {})
      return undefined
    }
    parts.push(value)
  }
}

/** The part of a link that carries a text, or undefined if that is too long. */
async function makeLink(text) {
  const packed = await pipe(new TextEncoder().encode(text), new CompressionStream('deflate-raw'))
  if (packed.length > MOST) return undefined
  const letters = btoa(String.fromCharCode(...packed))
  return PREFIX + letters.replaceAll('+', '-').replaceAll('/', '_').replace(/=+$/, '')
}

/** The text that the part of a link carries, or why that is refused; neither if it is not to carry one. */
async function readLink(part) {
  if (!part.startsWith(PREFIX)) return {}
  try {
    const text = await unpackText(part.slice(PREFIX.length))
    return text === undefined ? { refusal: TOO_LONG } : { text }
  } catch {
    return { refusal: DAMAGED }
  }
}

/** The text of the letters of a link, or undefined if it is too long; throws an exception if they are damaged. */
async function unpackText(letters) {
  const packed = Uint8Array.from(atob(letters.replaceAll('-', '+').replaceAll('_', '/')), (letter) => letter.charCodeAt(0))
  if (packed.length > MOST) return undefined
  const bytes = await pipe(packed, new DecompressionStream('deflate-raw'), MOST_TEXT)
  const text = bytes && new TextDecoder('utf-8', { fatal: true, ignoreBOM: true }).decode(bytes)
  return text !== undefined && Editor.takes(text) ? text : undefined
}

module.exports = { makeLink, readLink }
