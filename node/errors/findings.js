'use strict'

// What is wrong in a batch that is refused, in words: the id of the request, and the name that is wrong.

const { firstSegment } = require('../http/urls.js')

const MEMBERS = new Set(['id', 'method', 'url', 'atomicityGroup', 'dependsOn', 'headers', 'body', 'if'])
// How many characters of a name are shown.
const MOST = 100

function cut(text) {
  const characters = text.length > MOST ? Array.from(text) : []
  return characters.length > MOST ? `${characters.slice(0, MOST).join('')}..` : text
}

function quote(name) {
  return JSON.stringify(cut(name))
}

/** The first name that comes again, in whatever case. */
function findRepeated(names) {
  const seen = new Set()
  for (const name of names) {
    if (seen.has(name.toLowerCase())) return name
    seen.add(name.toLowerCase())
  }
  return ''
}

/** The ids and the groups of a batch, each with the position of the first request that has it. */
class Names {
  #requests
  #positions = new Map()
  #groups = new Map()

  constructor(requests) {
    this.#requests = requests
    requests.forEach((request, at) => {
      const { id, atomicityGroup: group } = request ?? {}
      if (typeof id === 'string' && !this.#positions.has(id)) this.#positions.set(id, at)
      if (typeof group === 'string' && !this.#groups.has(group)) this.#groups.set(group, at)
    })
  }

  request(at) {
    return this.#requests[at]
  }

  isUnknown(at, name) {
    return !this.#positions.has(name) && !this.#groups.has(name)
  }

  isLater(at, name) {
    return (this.#positions.get(name) ?? -1) >= at || (this.#groups.get(name) ?? -1) > at
  }

  isOwnGroup(at, name) {
    return name === this.#requests[at].atomicityGroup
  }

  /** The first listed name that is of a request in a group that is not listed. */
  findUncovered(at) {
    const { atomicityGroup: own, dependsOn } = this.#requests[at]
    const listed = new Set([own, ...dependsOn])
    return dependsOn.map((name) => [name, this.group(name)]).find(([, group]) => typeof group === 'string' && !listed.has(group))
  }

  group(name) {
    return this.#requests[this.#positions.get(name)]?.atomicityGroup
  }
}

// What is said of a name in dependsOn and of one in a URL, by the code of the fault.
const IN_LISTS = {
  F40: ['isUnknown', 'is unknown'],
  F41: ['isLater', 'does not come before it'],
  F42: ['isOwnGroup', 'is its own group'],
}
const IN_URLS = { F44: 'in the URL is unknown', F45: 'in the URL does not come before it', F46: 'is not listed in dependsOn' }

/** What is wrong in the request at a position; empty if it is not a name. */
function describeName(code, names, at) {
  const request = names.request(at)
  const findListed = (test) => request.dependsOn.find((name) => names[test](at, name))
  if (code in IN_LISTS) return `${quote(findListed(IN_LISTS[code][0]))} in dependsOn ${IN_LISTS[code][1]}`
  if (code in IN_URLS) return `${quote(firstSegment(request.url).slice(1))} ${IN_URLS[code]}`
  if (code === 'F43') {
    const [name, group] = names.findUncovered(at)
    return `${quote(group)}, the group of ${quote(name)}, is not listed in dependsOn`
  }
  if (code === 'F12') {
    return `the member ${quote(Object.keys(request).find((name) => !MEMBERS.has(name) && !name.includes('@')))} is unknown`
  }
  if (code === 'F19') return `the header ${quote(findRepeated(Object.keys(request.headers)))} comes twice`
  if (code === 'F32') return `the group ${quote(request.atomicityGroup)} has been left before`
  return { F30: 'an earlier request has this id', F31: 'a group has this name, too' }[code] ?? ''
}

/** What is wrong in the requests of a document, which is read once for all its faults. */
class Findings {
  #document
  #names

  constructor(document) {
    this.#document = document
  }

  /** The bytes of the document. */
  get document() {
    return this.#document
  }

  /**
   * How a message about a fault begins, as `order: "lines" is not listed in dependsOn. `: with the id of the request, and the name
   * that is wrong. Only with the id if it is not about a name; empty without an id.
   */
  describe(code, place) {
    try {
      this.#names ??= new Names(JSON.parse(Buffer.from(this.#document).toString()).requests)
      const at = Number(/^\/requests\/([0-9]+)$/.exec(place)[1])
      const { id } = this.#names.request(at)
      if (typeof id !== 'string') return ''
      const wrong = describeName(code, this.#names, at)
      return wrong === '' ? `${cut(id)}: ` : `${cut(id)}: ${wrong}. `
    } catch {
      return '' // the document is not one in which an id can be found
    }
  }
}

module.exports = { Findings }
