// Calls of `perform` and of the middleware for tsc --strict, which is to accept them, and to refuse those with an expected error.

import { Answer, Bytes, GroupFailed, PerformOptions, PreparedRequest, Refusal, Send, Transaction, perform } from '../index'
import { BatchOptions, batch } from '../middleware'

interface Fetched { status: number; headers: Map<string, string>; arrayBuffer(): Promise<ArrayBuffer> }
declare function fetchIt(url: string, options: { method?: string; headers?: Record<string, string>; body?: Uint8Array }): Promise<Fetched>

const byFetch: Send = (request) => fetchIt(request.url, request)
const atOnce: Send = ({ id, group }: PreparedRequest) => ({ status: 200, headers: { Vary: ['a'] }, body: { id, group: group ?? '' } })
const refusing: Send = async (): Promise<Answer> => {
  throw new Refusal(503, 'Busy', 'try again', { target: 'a', headers: { 'Retry-After': '1' } })
}
const transaction: Transaction = async (group, body) => {
  await body().catch((error) => {
    if (!(error instanceof GroupFailed) || error.group !== group) throw error
  })
}
const options: PerformOptions = { mode: 'stop', width: 2, transaction, base: 'http://h/', roots: [], timeout: 5, deadline: 9, limit: 7, log: () => {} }
export const responses: Promise<Bytes>[] = [byFetch, atOnce, refusing].map((send) => perform('{"requests":[]}', send, options))

const settings: BatchOptions = { path: '/$batch', root: '/', allowed: ['X-Tenant'], maxSize: 1, memory: 2, deadline: 9, limit: 1, width: 8, timeout: 5, transaction }
const inspecting: BatchOptions = { inspect: ({ url, headers }) => { if (url === headers['x']) throw new Refusal(403, 'Denied', 'no') } }
const observing: BatchOptions = { onRequest: ({ url }) => ({ status }) => console.log(url, status), requestLog: console.log }
const handler = (request: { url?: string }, response: { end(): void }) => response.end()
export const listener: (request: { url?: string }, response: { end(): void }) => void = batch(handler, { ...settings, ...inspecting, ...observing })
export const injected = batch({ inject: async () => ({ statusCode: 200, headers: {}, rawPayload: new Uint8Array() }) })

// @ts-expect-error
perform('', atOnce, { widht: 7 })
// @ts-expect-error
perform('', () => 200)
// @ts-expect-error
perform('', atOnce, { transaction: () => 7 })
// @ts-expect-error
batch(handler, { mode: 'stop' })
// @ts-expect-error
batch({})
// @ts-expect-error
new Refusal('503', 'Busy', 'try again')
