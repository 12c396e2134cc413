'use strict'

// What stands for Buffer in engines that have none, beside Buffer itself.

const assert = require('node:assert/strict')
const { test } = require('node:test')
const { Bytes } = require('../library/buffer.js')

const TEXTS = ['', 'a', 'ä€😀', '\ufeffx', 'a'.repeat(10000), '\0\x7f']
const BYTES = [0, 1, 127, 128, 200, 255]

/** The bytes of an array, as numbers. */
const numbers = (it) => Array.from(it)

test('writes texts as Buffer does', () => {
  for (const encoding of [undefined, 'utf8', 'latin1', 'ascii', 'utf16le']) {
    for (const text of TEXTS) {
      assert.deepEqual(numbers(Bytes.from(text, encoding)), numbers(Buffer.from(text, encoding)))
    }
  }
  for (const text of ['', 'AA', 'AQL_', 'AQL-_w', 'AQL/', 'A Q\nL_', '____']) {
    assert.deepEqual(numbers(Bytes.from(text, 'base64url')), numbers(Buffer.from(text, 'base64url')))
  }
})

test('reads texts as Buffer does', () => {
  for (const encoding of [undefined, 'utf8', 'latin1', 'ascii', 'utf16le', 'base64url']) {
    for (const bytes of [BYTES, [], Buffer.from('ä€😀.'), Buffer.from(TEXTS[4]), Buffer.alloc(9998, 65)]) {
      assert.equal(Bytes.from(bytes).toString(encoding), Buffer.from(bytes).toString(encoding))
      assert.equal(Bytes.from(bytes).toString(encoding, 2, 4), Buffer.from(bytes).toString(encoding, 2, 4))
    }
  }
})

test('has views, copies and parts as Buffer does', () => {
  const { buffer } = Uint8Array.from(BYTES)
  for (const Kind of [Bytes, Buffer]) {
    const [view, copy] = [Kind.from(buffer, 1, 3), Kind.from(new Uint8Array(buffer))]
    assert.deepEqual([numbers(view), numbers(copy)], [BYTES.slice(1, 4), BYTES])
    assert.ok(view.buffer === buffer && copy.buffer !== buffer)
    assert.ok(view.subarray(1) instanceof Kind && view.subarray(1).equals(Kind.of(127, 128)))
    assert.deepEqual(numbers(Kind.concat([view, new Uint8Array(1), copy.subarray(5)])), [1, 127, 128, 0, 255])
    assert.deepEqual(numbers(Kind.alloc(2)), [0, 0])
    assert.ok(!view.equals(copy) && !view.equals(Kind.of(1, 127, 129)))
  }
})
