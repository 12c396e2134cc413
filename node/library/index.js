'use strict'

// The calls of the library: those of the addon where it loads, else those of the WebAssembly module, which are the same.

const { webcrypto } = require('node:crypto')
const { readFileSync } = require('node:fs')
const { join } = require('node:path')
const { openModule } = require('./wasm.js')

// What the addon throws where there is none for this system.
const NO_ADDON = ['MODULE_NOT_FOUND', 'ERR_DLOPEN_FAILED']

/** The calls over the module; `cause` is why the addon does not load. */
function loadModule(cause) {
  let bytes
  try {
    bytes = readFileSync(join(__dirname, '../odb_batch32.wasm'))
  } catch {
    throw new Error('there is neither odb_batch.node nor odb_batch32.wasm: README.md shows how to make them', { cause })
  }
  return openModule(new WebAssembly.Module(bytes), webcrypto)
}

function load() {
  try {
    return require('../odb_batch.node')
  } catch (error) {
    if (!NO_ADDON.includes(error.code)) throw error
    return loadModule(error)
  }
}

module.exports = load()
