// Calls over a module, and over the same with too little memory, or too little stack, by the package in a folder:
// node limits.mjs FOLDER MODULE.wasm MEMORY.wasm STACK.wasm STACK_BYTES. Prints a line for each call.

import { readFileSync } from 'node:fs'
import { createRequire } from 'node:module'
import { webcrypto } from 'node:crypto'
import { instances } from './answers.mjs'

const [folder, whole, smallMemory, smallStack, stackBytes] = process.argv.slice(2)
const { openModule } = createRequire(import.meta.url)(`${folder}/library/wasm.js`)

const STACK_END = 2 ** 20 // where the stack begins that the module has by itself; it grows down to 0
const FILL = 0xa5
const FEW = Buffer.from('{"requests":[{"id":"a","method":"get","url":"X"}]}')
const DEEP = Buffer.from(`{"requests":[{"id":"a","method":"post","url":"X","body":${'['.repeat(124)}${']'.repeat(124)}}]}`)
const MANY = Buffer.from(`{"requests":[{"id":"a","method":"post","url":"X","body":[${'{"a":1},'.repeat(1e5)}0]}]}`)
const GREAT = Buffer.from(`{"requests":[{"id":"a","method":"post","url":"X","body":"${'x'.repeat(4e6)}"}]}`)
const NONE = Buffer.alloc(0)

/** Prints what a call returns or throws. */
function show(title, call) {
  try {
    console.log(title, call())
  } catch (error) {
    console.log(title, error.code ?? error.constructor.name)
  }
}

const moduleOf = (path) => new WebAssembly.Module(readFileSync(path))
const open = (library, batch) => library.open(batch, Buffer.from('{"events":[]}'), 0, 1)

function afterGreatBatches() {
  const library = openModule(moduleOf(whole), webcrypto)
  const check = (batch) => library.call(0, batch, NONE, 0, 1, 0, 0, 0)[0]
  const [, , run] = open(library, FEW)
  const before = instances.length
  show('many objects', () => check(MANY))
  show('the next call', () => check(FEW))
  show('a start', () => library.start(run, 0))
  console.log('instances more', instances.length - before)
}

function withLittleMemory() {
  const library = openModule(moduleOf(smallMemory), webcrypto)
  const check = (batch) => library.call(0, batch, NONE, 0, 1, 0, 0, 0)[0]
  const [, , run] = open(library, FEW)
  const report = (body) => library.report(run, 0, 200, NONE, body)
  show('a great batch', () => check(GREAT))
  show('a batch of many objects', () => check(MANY))
  show('the next call', () => check(FEW))
  show('requests of a great batch', () => library.requests(GREAT)[0])
  show('a run of a great batch', () => open(library, GREAT)[0])
  show('a start', () => library.start(run, 0))
  show('a great report', () => report(GREAT))
  show('a report', () => report(NONE))
  show('a response', () => String(library.response(run, 0)[1]).trim())
  library.close(run)
  show('allocated', () => String(instances.at(-1).exports.odb_allocated()))
}

function withLittleStack() {
  const library = openModule(moduleOf(smallStack), webcrypto)
  const check = (batch) => library.call(0, batch, NONE, 0, 1, 0, 0, 0)[0]
  const [, , run] = open(library, FEW)
  show('a flat batch', () => check(FEW))
  show('a deep batch', () => check(DEEP))
  show('the run of the instance', () => library.start(run, 0))
  show('the next call', () => check(FEW))
  show('another run', () => library.start(open(library, FEW)[2], 0))
}

/** Has a call use up the stack of an instance; returns how many bytes it has changed above the stack, and of its document. */
function bytesChanged() {
  const { memory, odb_allocate: allocate, odb_check_as: check } = new WebAssembly.Instance(moduleOf(smallStack)).exports
  const [batch, text, length] = [DEEP.length, 100, 8].map((size) => allocate(BigInt(size)))
  new Uint8Array(memory.buffer).set(DEEP, Number(batch))
  new Uint8Array(memory.buffer).fill(FILL, Number(stackBytes), STACK_END)
  show('a deep batch by itself', () => check(batch, BigInt(DEEP.length), 0, text, 100n, length, 0n))
  const above = new Uint8Array(memory.buffer, Number(stackBytes), STACK_END - Number(stackBytes))
  const document = new Uint8Array(memory.buffer, Number(batch), DEEP.length)
  return above.filter((it) => it !== FILL).length + document.filter((it, at) => it !== DEEP[at]).length
}

afterGreatBatches()
withLittleMemory()
withLittleStack()
console.log('changed', bytesChanged())
