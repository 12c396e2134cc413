// Calls of the client for tsc --strict, which is to accept them, and to refuse those with an expected error.

import { Batch, BatchClient, BatchFailed, ClientOptions, Group, Post, Reference, RequestFailed, Result, Results, SendOptions } from '../client'

interface Fetched { status: number; headers: Map<string, string>; arrayBuffer(): Promise<ArrayBuffer> }
declare function fetchIt(url: string, options: { method?: string; headers?: Record<string, string>; body?: Uint8Array }): Promise<Fetched>

const batch: Batch = new Batch()
const order: Reference = batch.post('Orders', { Customer: 'ada' }, { id: 'order' })
const group: Group = batch.group((it) => {
  batch.patch(`${order}/Lines`, new Uint8Array(), { after: [order, 'order'], headers: { 'If-Match': order } })
  batch.put(order, it.id, { headers: new Map([['Prefer', 'return=minimal']]) })
}, { id: 'g' })
batch.delete(order, { after: group })
batch.request('GET', 'Orders', undefined, { after: 'order' })
export const counts: number = batch.check().requests + batch.size + Batch.read(batch.document()).size

const byFetch: Post = (request) => fetchIt('https://host/$batch', request)
const atOnce: Post = ({ method, headers, body }) => ({ status: 200, headers: { ...headers, method }, body })
const options: SendOptions = { limit: 20, mode: 'stop' }
export const results: Promise<Results>[] = [batch.send(byFetch, options), batch.send(atOnce)]

const patience: ClientOptions = { attempts: 5, deadline: 60000, headers: { Authorization: 'Bearer 1' }, fetch: fetchIt }
export const sent: Promise<Results> = new BatchClient('https://host/odata/', patience).send(batch, options)

interface Order { Id: number }
const orderOf = (value: { Id: number }): Order => ({ Id: value.Id })

export function failures(found: Results): string[] {
  try {
    const order: Order | undefined = found.raiseForStatus().done[0]?.json(orderOf)
    return [found.reason, String(order), ...[...found.failed, ...found.left, ...found.unknown].map(({ operation }: Result) => operation)]
  } catch (error) {
    if (!(error instanceof BatchFailed)) throw error
    const { errors, results }: BatchFailed = error
    return errors.map(({ result }: RequestFailed) => `${result.id} of ${results.size}`)
  }
}

export function read(found: Results): unknown[] {
  const result: Result = found.get(order)
  const failed: unknown[] = [...found].filter(({ ok }) => !ok).map((it: Result) => it.id)
  try {
    const rest: Batch | null = found.rest()
    const wait: number = found.retryAfter
    return [rest, wait, result.raiseForStatus().json(), result.body.length, found.get('order')?.status, found.size, found.error]
  } catch (error) {
    return error instanceof RequestFailed ? [error.result.headers['etag']] : failed
  }
}

// @ts-expect-error
batch.get('Orders', { before: order })
// @ts-expect-error
batch.get('Orders', 'body')
// @ts-expect-error
batch.send('https://host/$batch')
// @ts-expect-error
batch.send(byFetch, { limits: 20 })
// @ts-expect-error
new BatchClient('https://host/odata/', { retries: 5 })
// @ts-expect-error
results[0].then((found) => found.rest().size)
// @ts-expect-error
new Reference()
