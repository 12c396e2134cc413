'use strict'

// The calls of the library in a WebAssembly module, for any engine: they take and return what those of the addon do, as the heads
// of odb_batch.c, lists.c, targets.c and runs.c have them. Pointers and sizes are BigInts there, and numbers here.

const DONE = 0
const OUT_OF_MEMORY = 4
const SMALL_BUFFER = 5

/**
 * The calls of the commands, how many documents each takes, and which of the numbers.
 *
 * @type {[string, number, ...string[]][]}
 */
const COMMANDS = [
  ['odb_check_as', 1, 'form'],
  ['odb_plan_as', 1, 'form'],
  ['odb_canon_as', 1, 'form'],
  ['odb_match_with', 2, 'mode', 'strict', 'form'],
  ['odb_run_as', 2, 'mode', 'width', 'form'],
  ['odb_replay_as', 2, 'mode', 'width', 'order', 'trace', 'form'],
  ['odb_rest', 2, 'mode', 'form'],
]

const WORD = 8 // bytes of a pointer or a size
const OF_REQUEST = 17 // words of an odb_request
const OF_RESPONSE = 9 // words of an odb_response
const OF_POSITION = 4 // words of an odb_position
const OF_FAULT = 6 + OF_POSITION // words of an odb_fault
const NONE = 2 ** 32 - 1 // each half of ODB_NONE
const SHORTEST = 32 // how short a request or a response may be in a document,
const MOST = 10000 // and how many a batch may have
const EXPLANATION = 2048 // longer than most explanations
const MORE = 256 // how much longer than its documents a text is thought to be, and longer than the line of a fault
const LARGE = 2 ** 26 // memory does not shrink: an instance that has more is not used for further calls

/** An allocation in the memory of an instance fails. */
class NoMemory extends Error {}

/** An instance of the module, with a memory of its own. */
class Instance {
  /** @type {any} */
  #exports
  #hasTrapped = false
  // The places of runs that were collected and are to be closed. It does not refer to the instance.
  forgotten = []

  constructor(module) {
    this.#exports = new WebAssembly.Instance(module).exports
  }

  /** Whether a call has ended in the middle, so that the memory is half written. */
  get hasTrapped() {
    return this.#hasTrapped
  }

  /** Whether further calls need another instance. */
  get isSpent() {
    return this.#hasTrapped || this.#bytes.byteLength > LARGE
  }

  // It is another one once the memory has grown.
  get #bytes() {
    return this.#exports.memory.buffer
  }

  /** Calls an export. What it throws is a trap, or that the stack of the engine is full. */
  call(name, ...values) {
    try {
      return this.#exports[name](...values)
    } catch (error) {
      this.#hasTrapped = true
      throw error
    }
  }

  allocate(size) {
    const at = this.call('odb_allocate', BigInt(size))
    if (at === 0n) throw new NoMemory('out of memory')
    return at
  }

  free(at) {
    this.call('odb_free', at)
  }

  /** Does work with memory, which is freed after it; undefined if there is too little. */
  with(work) {
    const blocks = []
    const take = (size) => {
      blocks.push(this.allocate(size))
      return blocks[blocks.length - 1]
    }
    try {
      return work(take)
    } catch (error) {
      if (!(error instanceof NoMemory)) throw error
      return undefined
    } finally {
      if (!this.#hasTrapped) blocks.forEach((at) => this.free(at))
    }
  }

  /** Puts documents into memory: the pointer and the size of each. */
  put(take, documents) {
    return documents.flatMap((document) => {
      const at = take(document.length)
      new Uint8Array(this.#bytes, Number(at), document.length).set(document)
      return [at, BigInt(document.length)]
    })
  }

  /** Numbers of 32 bits in memory; only until something is allocated. */
  numbers(at, count) {
    return new Uint32Array(this.#bytes, Number(at), count)
  }

  /** A pointer or a size in memory, which is below 2^53. */
  word(at) {
    const [low, high] = this.numbers(at, 2)
    return high * 2 ** 32 + low
  }

  /** Has a call write its text, once more if that did not fit: the pair of status and text. `size` is a guess of its length. */
  writeText(take, size, call) {
    const length = take(WORD)
    for (let room = size; ; room = this.word(length)) {
      const text = take(room)
      const status = call([text, BigInt(room), length])
      if (status === SMALL_BUFFER) continue
      return [status, Buffer.from(new Uint8Array(this.#bytes, Number(text), this.word(length)))]
    }
  }
}

const NOTHING = new Uint8Array()
const totalLength = (documents) => documents.reduce((sum, { length }) => sum + length, 0)

/** Has a call write its text: the pair of status and text. It takes what is `before`, documents, numbers, the text and what is `after`. */
function writeIn(instance, name, size, { before = [], documents = [], numbers = [], after = [] }) {
  const answer = instance.with((take) => {
    const given = [...before, ...instance.put(take, documents), ...numbers]
    return instance.writeText(take, size, (text) => instance.call(name, ...given, ...text, ...after))
  })
  return answer ?? [OUT_OF_MEMORY, Buffer.from(NOTHING)]
}

/** The numbers in so many words at a place, as the addon returns them. */
function listedNumbers(instance, at, words) {
  const halves = instance.numbers(at, 2 * words)
  return Float64Array.from({ length: words }, (_, i) => {
    const [low, high] = [halves[2 * i], halves[2 * i + 1]]
    return low === NONE && high === NONE ? -1 : high * 2 ** 32 + low
  })
}

/** Has a call list what a document has, in structs of so many words. `call` takes the words for the text and the list. */
function listIn(instance, take, width, document, call) {
  const count = take(WORD)
  let room = Math.min(Math.floor(document.length / SHORTEST) + 1, MOST)
  let list = take(room * width * WORD)
  instance.numbers(count, 2).fill(0)
  const [status, text] = instance.writeText(take, document.length + MORE, (words) => {
    if (instance.word(count) > room) {
      room = instance.word(count)
      list = take(room * width * WORD)
    }
    return call([...words, list, BigInt(room), count])
  })
  return [status, text, listedNumbers(instance, list, width * instance.word(count))]
}

const noList = () => [OUT_OF_MEMORY, Buffer.from(NOTHING), new Float64Array()]

/** The same of a document alone. `seed` is the last argument of the call, if it takes one. */
function callList(use, name, width, document, ...seed) {
  const answer = use((instance) => instance.with((take) => {
    const given = instance.put(take, [document])
    return listIn(instance, take, width, document, (words) => instance.call(name, ...given, ...words, ...seed))
  }))
  return answer ?? noList()
}

/** The calls that keep nothing. `use` does work with an instance; `seed` is that of the tables of names. */
function commandCalls(use, seed) {
  return {
    call(command, batch, second, mode, width, order, trace, strict, form) {
      const [name, count, ...taken] = COMMANDS[command]
      const numbers = taken.map((option) => ({ mode, width, order, trace, strict, form })[option])
      const documents = [batch, second].slice(0, count)
      return use((instance) => writeIn(instance, name, totalLength(documents) + MORE, { documents, numbers, after: [seed] }))
    },

    explain: (code) => use((instance) => writeIn(instance, 'odb_explain', EXPLANATION, { documents: [code] })),
    constants: () => use((instance) => writeIn(instance, 'odb_constants', EXPLANATION, {})),
    reportFault: (...parts) => use((instance) => writeIn(instance, 'odb_report_fault', MORE, { documents: parts })),

    where(document, place, numbers) {
      const status = use((instance) => instance.with((take) => {
        const [given, at] = [instance.put(take, [document, place]), take(OF_POSITION * WORD)]
        const found = instance.call('odb_where', ...given, at)
        if (found === DONE) numbers.set(Array.from({ length: OF_POSITION }, (_, i) => instance.word(at + BigInt(i * WORD))))
        return found
      }))
      return status ?? OUT_OF_MEMORY
    },

    resolve(...documents) {
      const size = totalLength(documents) + MORE
      const [status, url] = use((instance) => writeIn(instance, 'odb_resolve', size, { documents, numbers: [0] }))
      return status === DONE ? url.toString() : status
    },

    requests: (batch) => callList(use, 'odb_requests', OF_REQUEST, batch, seed),
    faults: (batch) => callList(use, 'odb_faults', OF_FAULT, batch, seed),
    responses: (document) => callList(use, 'odb_responses', OF_RESPONSE, document),
  }
}

/** A live run: the place of its handle in an instance. */
class LiveRun {
  constructor(instance, place) {
    this.instance = instance
    this.place = place
  }
}

/** Ends the run at a place. */
function closeAt(instance, place) {
  instance.call('odb_run_close', BigInt(instance.word(place)))
  instance.free(place)
}

/** The instance of a run; throws if that was lost with it. */
function liveInstance(run) {
  if (!run.instance.hasTrapped) return run.instance
  throw Object.assign(new Error('the run is lost: a call on another one has trapped'), { code: 'ERR_ODB_LOST' })
}

/** A call that lists positions. */
function listCall(name) {
  return (run, positions) => {
    const instance = liveInstance(run)
    const answer = instance.with((take) => {
      const [at, count] = [take(positions.byteLength), take(WORD)]
      const status = instance.call(name, run.place, at, BigInt(positions.length), count)
      if (status === DONE) positions.set(instance.numbers(at, instance.word(count)))
      return [status, instance.word(count)]
    })
    return answer ?? [OUT_OF_MEMORY, 0]
  }
}

/** A call that writes a text about a run. */
function textCall(name) {
  return (run, size) => writeIn(liveInstance(run), name, size + 1, { before: [run.place] })
}

/** A call that takes a number, and gives two. */
function pairCall(name) {
  return (run, number, numbers) => {
    const instance = liveInstance(run)
    const status = instance.with((take) => {
      const at = take(WORD)
      const found = instance.call(name, run.place, number, at, at + 4n)
      if (found === DONE) numbers.set(instance.numbers(at, 2))
      return found
    })
    return status ?? OUT_OF_MEMORY
  }
}

/** A call that takes a run and numbers, and returns a status. */
function statusCall(name) {
  return (run, ...numbers) => liveInstance(run).call(name, run.place, ...numbers)
}

/** The calls of live runs. A run that is forgotten is closed by the next one that is opened after it was collected. */
function runCalls(use, seed) {
  const registry = new FinalizationRegistry(({ forgotten, place }) => forgotten.push(place))

  /** Opens a run in an instance: what `open` returns by the memory, the words for documents, and the place of the run; and the run. */
  function openIn(documents, numbers, open) {
    return use((instance) => {
      instance.forgotten.splice(0).forEach((place) => closeAt(instance, place))
      return instance.with((take) => {
        const given = instance.put(take, documents)
        const place = instance.allocate(WORD)
        const found = open(instance, take, [...given, ...numbers, place])
        const run = new LiveRun(instance, place)
        if (found[0] === DONE) registry.register(run, { forgotten: instance.forgotten, place }, run)
        else instance.free(place)
        return [...found, run]
      })
    })
  }

  return {
    open(batch, events, mode, width) {
      const answer = openIn([batch, events], [mode, width], (instance, take, given) => {
        return instance.writeText(take, MORE, (words) => instance.call('odb_run_open', ...given, ...words, seed))
      })
      return answer ?? [OUT_OF_MEMORY, Buffer.from(NOTHING)]
    },
    openListed(batch, events, mode, width) {
      const answer = openIn([batch, events], [mode, width], (instance, take, given) => {
        const open = (words) => instance.call('odb_run_open_requests', ...given, ...words, seed)
        return listIn(instance, take, OF_REQUEST, batch, open)
      })
      return answer ?? noList()
    },
    close(run) {
      registry.unregister(run)
      if (!run.instance.hasTrapped) closeAt(run.instance, run.place)
    },
    report(run, position, status, headers, body) {
      const instance = liveInstance(run)
      const end = instance.with((take) => instance.call('odb_run_report', run.place, position, status, ...instance.put(take, [headers, body])))
      return end ?? OUT_OF_MEMORY
    },
    part(run, batch, limit, positions) {
      const instance = liveInstance(run)
      const answer = instance.with((take) => {
        const given = instance.put(take, [batch])
        const [at, count] = [take(positions.byteLength), take(WORD)]
        const room = [at, BigInt(positions.length), count]
        const call = (text) => instance.call('odb_run_part', run.place, ...given, limit, ...text, ...room, seed)
        const found = instance.writeText(take, batch.length + MORE, call)
        if (found[0] === DONE) positions.set(instance.numbers(at, instance.word(count)))
        return [...found, instance.word(count)]
      })
      return answer ?? [OUT_OF_MEMORY, Buffer.from(NOTHING), 0]
    },
    take(run, part, responses, mode) {
      const given = { before: [run.place], documents: [part, responses], numbers: [mode], after: [seed] }
      return writeIn(liveInstance(run), 'odb_run_take', MORE, given)
    },
    ready: listCall('odb_run_ready'),
    running: listCall('odb_run_running'),
    undone: listCall('odb_run_undone'),
    nextUnit: listCall('odb_run_next_unit'),
    state: pairCall('odb_run_state'),
    next: pairCall('odb_run_next'),
    start: statusCall('odb_run_start'),
    startUnit: statusCall('odb_run_start_unit'),
    finished: statusCall('odb_run_finished'),
    stop: statusCall('odb_run_stop'),
    ids: textCall('odb_run_ids'),
    response: textCall('odb_run_response'),
  }
}

/**
 * The calls over a compiled module. `crypto` draws the seed. A trap, as of a stack that is full, ends the instance and its
 * runs; the next call has another one. So has a call after one that took much memory.
 */
function openModule(module, crypto) {
  const seed = crypto.getRandomValues(new BigInt64Array(1))[0]
  let instance = new Instance(module)
  const version = instance.call('odb_version')

  function use(work) {
    if (instance === undefined || instance.isSpent) instance = new Instance(module)
    try {
      return work(instance)
    } finally {
      if (instance.isSpent) instance = undefined
    }
  }

  return { version, ...commandCalls(use, seed), ...runCalls(use, seed) }
}

module.exports = { openModule }
