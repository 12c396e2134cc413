'use strict'

// The page: connects the text of the batch, its verdict, its plan, its run, and second documents.

const { byId, copy, count, element } = require('./dom.js')
const { Editor } = require('./editor.js')
const { batches, seconds } = require('./examples.js')
const { showNote, showVerdict } = require('./verdict_view.js')
const { Restorer } = require('./restorer.js')
const { EngineClient } = require('./engine_client.js')
const { Picture } = require('./picture.js')
const { RunView } = require('./run_view.js')
const { makeLink, readLink } = require('./batch_link.js')

const LONG = 100_000 // characters from which a text is checked once nobody types
const PAUSE = 250 // milliseconds
const SLOW = 150 // milliseconds after which the page says that it works
const OWN = 'own'
const DIGITS = '0123456789ABCDEFGHIJKLMNOPQRSTUVWXYZabcdefghijklmnopqrstuvwxyz!#$%&.)*+-;,=>?@^_`{|}~'

/** The bytes of a text that bin/odb_page has written: five digits to the base 85 stand for four bytes. */
function readDigits(text) {
  const values = new Map(Array.from(DIGITS, (digit, value) => [digit, value]))
  const length = Math.floor((text.length * 4) / 5)
  const words = new DataView(new ArrayBuffer(length + 4))
  const full = text + DIGITS.at(-1).repeat(4)
  for (let [from, to] = [0, 0]; to < length; from += 5, to += 4) {
    let word = 0
    for (let at = from; at < from + 5; at++) word = word * 85 + values.get(full[at])
    words.setUint32(to, word)
  }
  return new Uint8Array(words.buffer, 0, length)
}

/** The bytes of the module, which the page has packed. */
async function moduleBytes() {
  const packed = readDigits(byId('module').textContent)
  const stream = new Blob([packed]).stream().pipeThrough(new DecompressionStream('gzip'))
  return new Response(stream).arrayBuffer()
}

/** The text of bytes, if they are one that a text field keeps as it is. */
function plainText(bytes) {
  if (!Editor.mayTake(bytes)) return undefined
  try {
    const text = new TextDecoder('utf-8', { fatal: true, ignoreBOM: true }).decode(bytes)
    return Editor.takes(text) && !text.startsWith('\ufeff') && !/\0|\r(?!\n)/.test(text) ? text : undefined
  } catch {
    return undefined
  }
}

class Page {
  #engine
  #editor
  #second
  #picture
  #run
  #secondBytes
  // The batch that was checked last, the example that it is, and what was replaced.
  #checked
  #example = OWN
  #restorer = new Restorer((replaced) => this.#bringBack(replaced))
  // The batch that is to be checked next, and whether one is being checked.
  #wanted
  #isChecking = false
  #pause
  // A promise of the last check, and how many documents were checked and read.
  checked = Promise.resolve()
  count = 0

  constructor(engine) {
    this.#engine = engine
    this.#editor = new Editor(byId('batch-editor'), {
      id: 'text', label: 'The batch', onInput: (text) => this.#checkTyped(text),
      onLarge: (text) => this.open(new TextEncoder().encode(text)), onMove: (at) => this.#showPart(at),
      onReplace: () => this.#keep('.batch'),
    })
    this.#second = new Editor(byId('second-editor'), {
      id: 'second-text', label: 'Events, outcomes or responses', isLow: true, onInput: () => this.#forget(),
      onLarge: (text) => this.openSecond(new TextEncoder().encode(text)), onMove: () => {},
    })
    this.#picture = new Picture(byId('picture'), byId('about'), (position) => this.#run.goTo(position))
    this.#run = new RunView(engine, this.#picture)
    this.#offer(byId('examples'), batches, (text, example) => this.write(text, example))
    this.#offer(byId('second-examples'), seconds, (text) => this.#writeSecond(text))
    this.#listen()
  }

  #listen() {
    const click = (id, act) => byId(id).addEventListener('click', act)
    click('open-file', () => byId('file').click())
    click('open-second', () => byId('second-file').click())
    byId('file').addEventListener('change', ({ target }) => this.#openFile(target, (bytes) => this.open(bytes)))
    byId('second-file').addEventListener('change', ({ target }) => this.#openFile(target, (bytes) => this.openSecond(bytes)))
    click('share', () => this.#share())
    click('closer', () => this.#picture.zoom(1))
    click('farther', () => this.#picture.zoom(-1))
    click('fit', () => this.#picture.fit())
    click('read', () => this.readSecond())
    click('copy-events', () => this.#run.copyEvents(byId('copied')))
    addEventListener('hashchange', () => this.fromLink())
    addEventListener('dragover', (event) => this.#markDrop(event, true))
    addEventListener('dragleave', (event) => this.#markDrop(event, false))
    addEventListener('drop', (event) => this.#drop(event))
  }

  /** Fills a list of examples. */
  #offer(list, examples, use) {
    const first = element('option', { value: OWN }, 'choose one')
    list.replaceChildren(first, ...examples.map(({ name, about }, at) => element('option', { value: at }, `${name}: ${about}`)))
    list.addEventListener('change', () => {
      if (list.value !== OWN) use(examples[Number(list.value)].text(), list.value)
    })
  }

  /** Shows the first example, or the batch of the link. */
  async begin() {
    if (await this.fromLink()) return
    this.write(batches[0].text(), '0')
  }

  /** Takes the batch of the link, if it carries one. */
  async fromLink() {
    const { text, refusal = '' } = await readLink(location.hash)
    byId('shared').textContent = refusal
    if (text !== undefined) this.write(text)
    return text !== undefined
  }

  /** Puts a text into the field, and checks it: that of an example, or one's own. */
  write(text, example = OWN) {
    this.#keep('.batch')
    this.#put(text, example)
  }

  /** Takes the bytes of a document: as text where they are one that can be edited, else as they are. */
  open(bytes) {
    this.#keep('.batch')
    this.#put(plainText(bytes) ?? bytes, OWN)
  }

  #put(batch, example) {
    this.#noteExample(example)
    const isText = typeof batch === 'string'
    this.#editor.text = isText ? batch : ''
    this.#check(isText ? this.#editor.text : batch)
  }

  #noteExample(example) {
    this.#example = example
    byId('examples').value = example
  }

  /** Keeps the batch and its run before they are replaced. */
  #keep(section) {
    const { events } = this.#run
    const values = { batch: this.#checked, example: this.#example, isOwn: this.#example === OWN, events }
    this.#restorer.keep(document.querySelector(section), values)
  }

  async #bringBack({ batch, example, events }) {
    this.#keep('.batch')
    this.#put(batch, example)
    await this.checked
    await this.#run.restore(events)
    byId('text').focus({ preventScroll: true })
  }

  #checkTyped(text) {
    this.#noteExample(OWN)
    clearTimeout(this.#pause)
    if (text.length < LONG) return this.#check(text)
    this.#sayWorking()
    this.#pause = setTimeout(() => this.#check(text), PAUSE)
  }

  #sayWorking() {
    showNote(byId('verdict'), byId('faults'), 'Checking …')
  }

  /** Checks a batch, or the last of those that came while another one was checked. */
  #check(batch) {
    clearTimeout(this.#pause)
    this.#wanted = batch
    if (!this.#isChecking) this.checked = this.#checkAll()
  }

  async #checkAll() {
    this.#isChecking = true
    const sign = setTimeout(() => this.#sayWorking(), SLOW)
    try {
      while (this.#wanted !== undefined) {
        const batch = this.#wanted
        this.#wanted = undefined
        const found = await this.#engine.ask('check', { batch, options: this.#run.options })
        this.#checked = batch
        clearTimeout(sign)
        if (this.#wanted === undefined) await this.#show(found, typeof batch !== 'string')
      }
    } catch (error) {
      showNote(byId('verdict'), byId('faults'), `The library has ended: ${error.message}`)
      this.#run.empty()
      this.count++
    } finally {
      clearTimeout(sign)
      this.#isChecking = false
    }
  }

  async #show(found, isLarge) {
    this.found = found
    const { accepted, faults, requests, run, size, took } = found
    const about = `${count(size, 'byte')} in ${took < 10 ? took.toFixed(1) : Math.round(took)} ms`
    if (isLarge) await this.#showPart(faults[0]?.whole.start ?? 0)
    this.#editor.marks = faults
    showVerdict(byId('verdict'), byId('faults'), found, `(${about})`, (fault) => this.#goTo(fault))
    if (accepted) {
      this.#run.show(requests, run)
    } else {
      this.#run.empty()
      this.#picture.empty('There is no plan, since the batch is not accepted.')
    }
    this.count++
  }

  /** Shows a part of a document that cannot be edited here. */
  async #showPart(at) {
    const part = await this.#engine.ask('excerpt', { at: Math.floor(at) })
    this.#editor.showPart(part, 'This document is too long to be edited here, or it is not text: a part of it is shown.')
    this.#editor.marks = this.found?.faults ?? []
  }

  async #goTo(fault) {
    if (!this.#editor.shows(fault.part)) await this.#showPart(fault.whole.start)
    this.#editor.goTo(this.#editor.shows(fault.part) ? fault.part : fault.whole)
  }

  async #openFile(input, open) {
    const [file] = input.files
    if (!file) return
    const bytes = new Uint8Array(await file.arrayBuffer())
    input.value = ''
    open(bytes)
  }

  #markDrop(event, isOver) {
    if (!event.dataTransfer?.types.includes('Files')) return
    event.preventDefault()
    document.body.classList.toggle('drop', isOver)
  }

  /** A file that is dropped on the field of second documents goes there, any other one is a batch. */
  async #drop(event) {
    document.body.classList.remove('drop')
    const [file] = event.dataTransfer?.files ?? []
    if (!file) return
    event.preventDefault()
    const isSecond = event.target.closest?.('.second')
    const bytes = new Uint8Array(await file.arrayBuffer())
    if (isSecond) this.openSecond(bytes)
    else this.open(bytes)
  }

  async #share() {
    const part = await makeLink(this.#editor.text)
    if (part === undefined || this.found?.size !== new TextEncoder().encode(this.#editor.text).length) {
      byId('shared').textContent = 'The batch is too long for a link.'
      return
    }
    const link = location.href.replace(/#.*$/, '') + part
    history.replaceState(null, '', part)
    await copy(link, byId('shared'), ' The link is in the address bar.')
  }

  #writeSecond(text) {
    this.#secondBytes = undefined
    this.#second.text = text
    return this.readSecond()
  }

  /** Takes the bytes of a second document. */
  openSecond(bytes) {
    const text = plainText(bytes)
    if (text !== undefined) return this.#writeSecond(text)
    this.#second.text = ''
    this.#secondBytes = bytes
    return this.readSecond()
  }

  #forget() {
    this.#secondBytes = undefined
    byId('second-examples').value = OWN
    showNote(byId('second-verdict'), byId('second-faults'), '')
  }

  /** Reads the second document, and does with it what the program does. */
  async readSecond() {
    if (!this.found?.accepted) {
      showNote(byId('second-verdict'), byId('second-faults'), 'A second document is read once the batch is accepted.')
      return
    }
    const given = this.#secondBytes ?? this.#second.text
    const values = { document: given, kind: 'events', ...this.#run.options, order: this.#run.order }
    const read = await this.#engine.ask('read', values)
    const commands = { events: 'run', outcomes: 'replay', responses: 'match' }
    this.second = read
    this.#second.marks = read.faults.filter(({ inBatch }) => !inBatch)
    const shown = { ...read, text: read.accepted && read.kind !== 'responses' ? `a document of ${read.kind}` : read.text }
    const about = `(as ${commands[read.kind]} says)`
    showVerdict(byId('second-verdict'), byId('second-faults'), shown, about, (fault) => this.#goToSecond(fault))
    if (read.run) {
      if (this.#run.events.length > 0) this.#keep('.second')
      this.#run.replace(read.run)
    }
    this.#run.compare(read)
    this.count++
  }

  #goToSecond(fault) {
    if (fault.inBatch) this.#goTo(fault)
    else this.#second.goTo(fault.part)
  }
}

async function start() {
  const module = await WebAssembly.compile(await moduleBytes())
  const page = new Page(new EngineClient(byId('code').textContent, module))
  await page.begin()
  await page.checked
  return page
}

byId('version').textContent = require('./version.js').version
globalThis.page = start()
globalThis.page.catch((error) => showNote(byId('verdict'), byId('faults'), `The page cannot start: ${error.message}`))
