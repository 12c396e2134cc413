'use strict'

// What the files of the package require: none in a circle, and nothing but of the package and of Node.

const assert = require('node:assert/strict')
const { readFileSync } = require('node:fs')
const { dirname, join } = require('node:path')
const { test } = require('node:test')

const FOLDER = dirname(__dirname)
const ENTRIES = ['index.js', 'client/index.js', 'middleware/index.js'].map((name) => join(FOLDER, name))
const REQUIRED = /require\('(.+?)'\)/g

/** The files that one requires, and each name of something else. */
function requiredBy(path) {
  const names = Array.from(readFileSync(path, 'utf8').matchAll(REQUIRED), ([, name]) => name)
  const [own, others] = [true, false].map((isOwn) => names.filter((name) => name.startsWith('.') === isOwn))
  return { own: own.filter((name) => name.endsWith('.js')).map((name) => join(dirname(path), name)), others }
}

test('requires nothing in a circle, and nothing but of the package and of Node', () => {
  const done = new Set()
  const visit = (path, from) => {
    assert(!from.includes(path), `in a circle: ${[...from, path].join(', ')}`)
    if (done.has(path)) return
    const { own, others } = requiredBy(path)
    assert.deepEqual(others.filter((name) => !name.startsWith('node:')), [], path)
    for (const required of own) visit(required, [...from, path])
    done.add(path)
  }
  for (const entry of ENTRIES) visit(entry, [])
  assert(done.size > 20, `only ${done.size} files`)
})
