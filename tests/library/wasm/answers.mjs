// What a library answers to the calls of a file, and what live runs return that one pseudo-random source drives: lines that have
// to be the same for each form of the library, and those of ../answers.c. For Node and for browsers.

const FORMS = [0, 1]
const PLACES = ['batch', '/requests/0', '/requests/7']
const NUMBERS = 8 // before the documents of a call, each of 32 bits
const MOST_REQUESTS = 10000
const MOST_STEPS = 60
const LONGEST_BATCH = 100000 // of a live run

const STATUSES = [200, 201, 204, 299, 300, 404, 409, 500, 599, 199, 600, 0]
const BODIES = ['', 'null', '{"a":[1,2]}', '"x"', '{', '1.5', '[0.10, 1e999]']
const HEADERS = ['', '{"etag":"7"}', '{"A":"1","a":"2"}']
const NO_EVENTS = '{"events":[]}'

const bytesOf = (text) => new TextEncoder().encode(text)

/** The calls of a file: their numbers, and their documents. */
function* callsOf(file) {
  const view = new DataView(file.buffer, file.byteOffset, file.byteLength)
  for (let at = 0; at < file.byteLength;) {
    const numbers = Array.from({ length: NUMBERS }, (_, i) => view.getUint32(at + 4 * i, true))
    const [first, second] = numbers.splice(-2)
    const start = at + 4 * NUMBERS
    at = start + first + second
    yield { numbers, batch: file.subarray(start, start + first), second: file.subarray(start + first, at) }
  }
}

/** The line of an answer: its numbers, and the length and a hash of its bytes. */
function lineOf(numbers, bytes) {
  let [first, second] = [2166136261, 40503]
  for (const byte of bytes) {
    first = Math.imul(first ^ byte, 16777619)
    second = Math.imul(second ^ byte, 2654435761)
  }
  const hash = [first, second].map((it) => (it >>> 0).toString(16).padStart(8, '0')).join('')
  return [...numbers, bytes.length, hash].join(' ')
}

/** The instances of a module that were made, in order. */
export const instances = []

WebAssembly.Instance = class extends WebAssembly.Instance {
  constructor(module) {
    super(module)
    instances.push(this)
  }
}

/** Throws if a module has not given all memory back. The addon makes no instance. */
function expectFreed() {
  const left = instances.at(-1)?.exports.odb_allocated() ?? 0n
  if (left !== 0n) throw new Error(`${left} bytes are allocated after a call`)
}

/** The lines of what a call answers in each form. */
function* forms(library, ...values) {
  for (const form of FORMS) {
    const [status, text] = library.call(...values, form)
    expectFreed()
    yield lineOf([status], text)
  }
}

/** The lines of the answers to the calls, and of the requests, the faults and some places of their batches. */
function* answers(library, file) {
  for (const { numbers: [command, ...options], batch, second } of callsOf(file)) {
    yield* forms(library, command, batch, second, ...options)
    for (const name of ['requests', 'faults']) {
      const [status, text, parts] = library[name](batch)
      expectFreed()
      yield lineOf([status, text.length], new Uint8Array(parts.buffer))
    }
    for (const place of PLACES) {
      const numbers = new Float64Array(4)
      const status = library.where(batch, bytesOf(place), numbers)
      expectFreed()
      yield lineOf([status, ...numbers], new Uint8Array())
    }
  }
}

/** A source of numbers below a limit: the same for each library. */
function sourceOf(seed) {
  let state = seed
  return (limit) => {
    state = (Math.imul(state, 1664525) + 1013904223) >>> 0
    return (state >>> 8) % limit
  }
}

/** Drives a run to its end, or for some steps, by choices of which some are refused; calls `note` with all that it returns. */
function drive(library, run, next, note) {
  const room = new Uint32Array(MOST_REQUESTS)
  const listed = (name) => {
    const [status, count] = library[name](run, room)
    const positions = [...room.subarray(0, count)]
    note(status, ...(name === 'ready' || name === 'running' ? positions.sort((a, b) => a - b) : positions))
    return positions
  }
  const chosen = (positions) => (positions.length === 0 || next(8) === 0 ? next(7) : positions[next(positions.length)])
  const text = (name) => {
    const [status, bytes] = library[name](run, 16)
    note(status, ...bytes)
  }
  text('ids')
  for (let step = 0; step < MOST_STEPS && library.finished(run) === 0; step++) {
    if (next(3) > 0) note(library.start(run, chosen(listed('ready'))))
    else note(library.startUnit(run, chosen(listed('nextUnit'))))
    const taken = new Uint32Array(2)
    note(library.next(run, next(3), taken), ...taken)
    const position = chosen(listed('running'))
    if (next(3) > 0) {
      const [status, headers, body] = [STATUSES, HEADERS, BODIES].map((it) => it[next(it.length)])
      note(library.report(run, position, status, bytesOf(headers), bytesOf(body)))
    }
    const state = new Uint32Array(2)
    note(library.state(run, position, state), ...state)
    if (next(50) === 0) library.stop(run)
    if (next(16) === 0) text('response')
  }
  text('response')
  listed('undone')
}

/** The lines of live runs of the batches of the calls. */
function* lives(library, file, count) {
  const batches = [...callsOf(file)].map(({ batch }) => batch).filter((it) => it.length < LONGEST_BATCH)
  const accepted = batches.filter((it) => library.call(0, it, new Uint8Array(), 0, 1, 0, 0, 0, 0)[0] === 0)
  for (let i = 0; i < count; i++) {
    const [next, numbers] = [sourceOf(i), []]
    const note = (...them) => them.forEach((it) => numbers.push(it))
    const [batch, mode, width] = [accepted[next(accepted.length)], next(2), 1 + next(5)]
    const [status, text, run] = library.open(batch, bytesOf(NO_EVENTS), mode, width)
    note(status, ...text)
    drive(library, run, next, note)
    library.close(run)
    expectFreed()
    yield lineOf([i], new Uint8Array(Uint32Array.from(numbers).buffer))
  }
}

/** All lines. */
export function linesOf(library, file, runs) {
  return [...answers(library, file), ...lives(library, file, runs)]
}
