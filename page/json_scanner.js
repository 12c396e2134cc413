'use strict'

// A scanner of JSON texts: where the parts of one are. What is JSON the library says.

const [QUOTE, BACKSLASH, COMMA] = [34, 92, 44]
const [OPEN_ARRAY, CLOSE_ARRAY, OPEN_OBJECT, CLOSE_OBJECT] = [91, 93, 123, 125]

/** Whether a character is white space of JSON. */
function isSpace(code) {
  return code === 32 || code === 10 || code === 13 || code === 9
}

/** The first place from `at` on that has no white space. */
function skipSpace(text, at) {
  while (isSpace(text.charCodeAt(at))) at++
  return at
}

/** The place after the value there. */
function valueEnd(text, at) {
  let depth = 0
  for (; at < text.length; at++) {
    const code = text.charCodeAt(at)
    if (code === QUOTE) {
      at = closingQuote(text, at)
    } else if (code === OPEN_ARRAY || code === OPEN_OBJECT) {
      depth++
    } else if (code === CLOSE_ARRAY || code === CLOSE_OBJECT) {
      if (depth === 0) return at
      depth--
    } else if (code === COMMA && depth === 0) {
      return at
    }
  }
  return at
}

function closingQuote(text, at) {
  for (at++; at < text.length && text.charCodeAt(at) !== QUOTE; at++) if (text.charCodeAt(at) === BACKSLASH) at++
  return at
}

/** The range of the value there, without the white space after it. */
function rangeAt(text, start) {
  let end = valueEnd(text, start)
  const next = end
  while (isSpace(text.charCodeAt(end - 1))) end--
  return { start, end, next }
}

/** The members of the object there, with ranges of their names and values; of a name that comes twice the last one. */
function membersAt(text, at) {
  const found = new Map()
  if (text.charCodeAt(at) !== OPEN_OBJECT) return found
  for (at = skipSpace(text, at + 1); text.charCodeAt(at) === QUOTE; at = skipSpace(text, at + 1)) {
    const end = closingQuote(text, at) + 1
    const value = rangeAt(text, skipSpace(text, skipSpace(text, end) + 1))
    const name = JSON.parse(text.slice(at, end))
    found.delete(name)
    found.set(name, { start: at, end: value.end, value: { start: value.start, end: value.end } })
    at = value.next
  }
  return found
}

/** Goes over the ranges of the elements of the array there. */
function* elementsAt(text, at) {
  if (text.charCodeAt(at) !== OPEN_ARRAY) return
  for (at = skipSpace(text, at + 1); at < text.length && text.charCodeAt(at) !== CLOSE_ARRAY; ) {
    const { start, end, next } = rangeAt(text, at)
    yield { start, end }
    if (text.charCodeAt(next) !== COMMA) return
    at = skipSpace(text, next + 1)
  }
}

module.exports = { elementsAt, membersAt, skipSpace }
