'use strict'

// What the tests of what ends share: a handler that they follow by events, and batches over connections of their own.

const { EventEmitter } = require('node:events')
const net = require('node:net')
const { test } = require('node:test')
const { MOUNTS, PATH, express, serving } = require('./serving.js')

const WAITS = 120000 // milliseconds that only a test that fails takes

/** A handler whose requests a test follows: `events` emits the name in the path with the request and the response. */
function watched() {
  const events = new EventEmitter()
  const begun = []
  const handler = (req, res) => {
    const name = /\w+$/.exec(req.url)[0]
    begun.push(name)
    if (!events.emit(name, req, res)) res.writeHead(204).end()
  }
  return { begun, events, handler }
}

/** A test before each kind of handler. */
function everywhere(name, options, use) {
  for (const mount of Object.keys(MOUNTS)) {
    const skip = mount === 'express' && express() === undefined && 'express is not installed'
    test(`${mount}: ${name}`, { skip, timeout: WAITS }, async () => {
      const it = watched()
      await serving(mount, it.handler, options, (service) => use({ ...it, ...service }))
    })
  }
}

/** Sends a batch by a connection of its own, which may announce more bytes than come, and returns that. */
function sent(port, document, missing = 0) {
  const text = JSON.stringify(document)
  const socket = net.connect(port, '127.0.0.1')
  const headers = ['Content-Type: application/json', 'Prefer: continue-on-error', `Content-Length: ${text.length + missing}`]
  socket.write([`POST ${PATH} HTTP/1.1`, 'Host: h', ...headers, '', text].join('\r\n'))
  return socket
}

/** Is fulfilled once something holds, which is asked at each turn of the loop. */
async function until(holds) {
  while (!(await holds())) await new Promise(setImmediate)
}

module.exports = { WAITS, everywhere, sent, until, watched }
