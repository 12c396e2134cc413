'use strict'

// A service of books in Express that answers batches: `node express_app.js [PORT]`. WIDTH is how many requests of a batch are
// answered at once. The books are in memory. In place of them a database has its own transactions: see node/README.md.

const { AsyncLocalStorage } = require('node:async_hooks')
const express = require('express')
const { batch } = require('odb-batch/middleware')

const books = new Map() // what is committed, by the keys
const group = new AsyncLocalStorage() // what a group has written so far; a book that it has deleted is null
let turn = Promise.resolve() // ends when the last of those who write, or wait to, is over
let version = 0

/** Performs a write, or a group, when it is the turn of it. A request of a group has its turn already. */
function alone(write) {
  if (group.getStore() !== undefined) return write()
  const done = turn.then(write)
  turn = done.catch(() => {})
  return done
}

/** Keeps aside what a group writes until all of it has succeeded. Others may read meanwhile, and wait to write. */
function transaction(name, body) {
  return alone(async () => {
    const written = new Map()
    await group.run(written, body)
    for (const [key, book] of written) book === null ? books.delete(key) : books.set(key, book)
  })
}

const found = (key) => (group.getStore()?.has(key) ? group.getStore().get(key) : books.get(key))
const store = (key, book) => (group.getStore() ?? books).set(key, book)
const remove = (key) => (group.getStore() ? store(key, null) : books.delete(key))
const all = () => [...new Map([...books, ...(group.getStore() ?? [])]).values()].filter((book) => book !== null)

const refuse = (res, status, message) => res.status(status).json({ error: { code: String(status), message } })
const urlOf = (book) => `/odata/Books('${encodeURIComponent(book.Id)}')`
const show = (res, { tag, ...book }) => res.set({ ETag: tag, Location: urlOf(book) }).json(book)
const writes = (handler) => (req, res, next) => Promise.resolve(alone(() => handler(req, res))).catch(next)
const keyOf = (req) => req.params[0]
const BOOK = /^\/odata\/Books\('(.*)'\)$/

const app = express()
app.use(batch(app, { path: '/odata/$batch', transaction, width: Number(process.env.WIDTH ?? 1) }))
app.use(express.json())

app.get('/odata/Books', (req, res) => {
  const [, name, value] = /^(\w+) eq '(.*)'$/.exec(req.query.$filter ?? '') ?? []
  res.json({ value: all().filter((book) => name === undefined || book[name] === value).map(({ tag, ...book }) => book) })
})
app.post('/odata/Books', writes((req, res) => {
  const { Id, Title } = req.body
  if (typeof Id !== 'string' || typeof Title !== 'string') return refuse(res, 400, 'a book has an Id and a Title')
  if (found(Id)) return refuse(res, 409, 'there is a book with this Id')
  store(Id, { ...req.body, tag: `"${++version}"` })
  show(res.status(201), found(Id))
}))

app.get(BOOK, (req, res) => (found(keyOf(req)) ? show(res, found(keyOf(req))) : refuse(res, 404, 'there is no such book')))
const change = (effect) => writes((req, res) => {
  const book = found(keyOf(req))
  if (!book) return refuse(res, 404, 'there is no such book')
  if (![undefined, '*', book.tag].includes(req.get('If-Match'))) return refuse(res, 412, 'the book has changed')
  effect(req, book)
  res.status(204).end()
})
app.patch(BOOK, change((req, book) => store(book.Id, { ...book, ...req.body, Id: book.Id, tag: `"${++version}"` })))
app.put(BOOK, change((req, book) => store(book.Id, { ...req.body, Id: book.Id, tag: `"${++version}"` })))
app.delete(BOOK, change((req, book) => remove(book.Id)))

if (require.main === module) {
  const server = app.listen(Number(process.argv[2] ?? 8080), '127.0.0.1', () => console.log(server.address().port))
}
module.exports = { app }
