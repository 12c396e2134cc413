'use strict'

// What the other files use of Buffer, for engines that have none, as browsers: an array of bytes whose text can be asked for.

const MOST_ARGUMENTS = 4096 // of one call
const encoder = new TextEncoder()

// The bytes of a text, by the names that Node has for encodings.
const ENCODE = {
  utf8: (text) => encoder.encode(text),
  ascii: (text) => ENCODE.latin1(text),
  latin1: (/** @type {string} */ text) => Uint8Array.from(text.split(''), (letter) => letter.charCodeAt(0)),
  utf16le: (/** @type {string} */ text) => new Uint8Array(Uint16Array.from(text.split(''), (letter) => letter.charCodeAt(0)).buffer),
  base64url: (text) => ENCODE.latin1(atob(text.replace(/[^\w/+-]/g, '').replaceAll('-', '+').replaceAll('_', '/'))),
}

/** The text whose characters are the bytes. */
function latin1(bytes) {
  const parts = []
  for (let at = 0; at < bytes.length; at += MOST_ARGUMENTS) {
    parts.push(String.fromCharCode(...bytes.subarray(at, at + MOST_ARGUMENTS)))
  }
  return parts.join('')
}

const DECODE = {
  utf8: (bytes) => new TextDecoder('utf-8', { ignoreBOM: true }).decode(bytes),
  ascii: (bytes) => latin1(bytes.map((byte) => byte & 127)),
  latin1,
  utf16le: (bytes) => new TextDecoder('utf-16le', { ignoreBOM: true }).decode(bytes),
  base64url: (bytes) => btoa(latin1(bytes)).replaceAll('+', '-').replaceAll('/', '_').replace(/=+$/, ''),
}

class Bytes extends Uint8Array {
  static alloc(size) {
    return new Bytes(size)
  }

  /** The bytes of a text, of an array, or of a part of an ArrayBuffer, which alone are not copied. */
  static from(value, second, length) {
    return typeof value === 'string' ? new Bytes(ENCODE[second ?? 'utf8'](value)) : new Bytes(value, second, length)
  }

  static concat(parts) {
    const whole = new Bytes(parts.reduce((sum, { length }) => sum + length, 0))
    let at = 0
    for (const part of parts) {
      whole.set(part, at)
      at += part.length
    }
    return whole
  }

  equals(other) {
    return this.length === other.length && this.every((byte, at) => byte === other[at])
  }

  /** The text of the bytes, or of those from a place to another one. */
  toString(encoding = 'utf8', start = 0, end = this.length) {
    return DECODE[encoding](this.subarray(start, end))
  }
}

module.exports = { Bytes }
