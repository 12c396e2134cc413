'use strict'

// The text of URLs.

/** The characters of a part of a URL; a `%` that no two hexadecimal digits follow is kept. */
function decodePart(part) {
  if (!part.includes('%')) return part
  const bytes = part.replace(/%([0-9a-f]{2})/gi, (_, digits) => String.fromCharCode(parseInt(digits, 16)))
  return Buffer.from(bytes, 'latin1').toString()
}

/** The first segment of a URL: `$book` of `$book/Loans`, and of `%24book`. */
function firstSegment(url) {
  return decodePart(url.split(/[/?#]/, 1)[0])
}

module.exports = { decodePart, firstSegment }
