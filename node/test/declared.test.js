'use strict'

// All that the entries of the package export, and the members of their classes, are declared in the .d.ts files. `tsc` checks the
// converse: see declared.ts.

const assert = require('node:assert/strict')
const { readFileSync } = require('node:fs')
const { join } = require('node:path')
const { test } = require('node:test')

const read = (name) => readFileSync(join(__dirname, '..', name), 'utf8')
const ENTRIES = [
  ['index', require('..'), read('index.d.ts') + read('perform.d.ts')],
  ['client', require('../client/index.js'), read('client.d.ts')],
  ['middleware', require('../middleware/index.js'), read('middleware.d.ts')],
]

/** The names of the members of a class that a text declares. */
function declaredMembers(text, name) {
  const [, body] = new RegExp(`^export class ${name} .*?\\{\\n(.*?)^\\}`, 'ms').exec(text)
  return new Set(Array.from(body.matchAll(/^ {2}(?:static |readonly )*(\w+)[(<?:]/gm), ([, member]) => member))
}

for (const [entry, exported, text] of ENTRIES) {
  test(`${entry}.d.ts declares all that is exported`, () => {
    const declared = Array.from(text.matchAll(/^export (?:function|class|const) (\w+)/gm), ([, name]) => name)
    assert.deepEqual(Object.keys(exported).sort(), [...new Set(declared)].sort())
    for (const [name, value] of Object.entries(exported)) {
      const members = Object.getOwnPropertyNames(value.prototype ?? {}).filter((member) => member !== 'constructor')
      if (!/^class\b/.test(String(value))) continue
      assert.deepEqual(members.filter((member) => !declaredMembers(text, name).has(member)), [], name)
    }
  })
}
