'use strict'

// The documents that the page offers: those of the folder examples/, and batches that are made here.

const texts = require('./examples.json')

const BATCHES = [
  ['batch_usual.json', 'a book is lent: a group, and what needs it'],
  ['batch_references.json', 'a request whose URL refers to another one'],
  ['batch_too_early.json', 'refused: a request depends on a later one'],
  ['batch_wrong_body.json', 'refused: bodies of the wrong kind'],
]
const SECONDS = [
  ['events_recorded.json', 'a finished run'],
  ['events_too_soon.json', 'a start that may not come yet'],
  ['outcomes_lent.json', 'all requests succeed'],
  ['outcomes_not_lent.json', 'the loan is answered 409'],
  ['responses_served.json', 'they fit'],
  ['responses_unsound.json', 'list succeeds, and what it needs does not'],
]

/** A batch of shops: each is read, changed by a group, and read again; the last request needs them all. */
function shops(number) {
  const requests = []
  for (let at = 1; at <= number; at++) {
    requests.push({ id: `shop${at}`, method: 'get', url: `Shops(${at})` })
    const sale = { atomicityGroup: `sale${at}`, dependsOn: [`shop${at}`] }
    requests.push({ id: `sell${at}`, ...sale, method: 'post', url: 'Sales', body: { Shop: at } })
    requests.push({ id: `stock${at}`, ...sale, method: 'patch', url: `Shops(${at})`, body: { Sold: 1 } })
    requests.push({ id: `total${at}`, dependsOn: [`sale${at}`], method: 'get', url: `$sell${at}/Total` })
  }
  const dependsOn = Array.from({ length: number }, (_, at) => `total${at + 1}`)
  requests.push({ id: 'report', dependsOn, method: 'get', url: 'Report' })
  return `{"requests": [\n${requests.map((request) => `  ${JSON.stringify(request)}`).join(',\n')}\n]}\n`
}

/** @type {[string, string, () => string][]} */
const MADE = [
  ['6 shops', 'groups side by side', () => shops(6)],
  ['249 shops', 'some 1,000 requests', () => shops(249)],
]

/** The examples of batches, and those of second documents: the name, what it is, and what returns the text. */
const read = ([name, about]) => ({ name, about, text: () => texts[name] })
const batches = [...BATCHES.map(read), ...MADE.map(([name, about, text]) => ({ name, about, text }))]
const seconds = SECONDS.map(read)

module.exports = { batches, seconds }
