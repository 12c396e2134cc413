// Calls for tsc --strict, which is to accept them, and to refuse those with an expected error.

import {
  Bytes, Counts, Document, Fault, Output, PlannedRequest, Refused, Replay, Request, Run, RunEvent,
  canon, check, faults, match, output, plan, replay, requests, rest, run, version,
} from '../index'

interface Batch { requests: { id: string; method: string; url: string }[] }
const batch: Batch = { requests: [{ id: 'a', method: 'get', url: 'X' }] }
const documents: Document[] = [batch, JSON.stringify(batch), new Uint8Array(), new ArrayBuffer(2)]
const events: RunEvent[] = [{ step: 'start', id: 'a' }, { step: 'report', id: 'a', status: 200, headers: new Map([['ETag', '7']]) }]

const counts: Counts = check(documents[0])
const lines: number[] = faults(batch).map(({ line, column, offset }: Fault) => (line ?? 0) + (column ?? 0) + (offset ?? 0))
const planned: PlannedRequest[] = plan(batch)
const statuses: Map<string, number> = match(batch, run(batch, events, { mode: 'stop', width: 2 }))
const stopped: Map<string, number> = match(batch, '', { mode: 'stop', strict: true })
const byUnits: Map<string, number> = match(batch, '', { strict: 'units' })
const left: Uint8Array = rest(batch, '', { mode: 'stop' })
const sent: Request[] = [...requests(batch), new Run(batch).request('a')]
const lengths: number[] = sent.map(({ body, rest, reference }) => (body?.length ?? 0) + rest.length + (reference ?? '').length)
const replayed: Replay = replay(batch, '', { order: 'wide', mode: 'continue', trace: true })
const printed: Output = output('run', batch, events, { form: 'lines' })
const text: string = canon(batch).toString() + version
const bytes: Uint8Array = replayed.response
const length: number = printed.text.length + bytes.length + counts.groups + planned.length + statuses.size + stopped.size + left.length + text.length + lengths.length + lines.length

// @ts-expect-error
run(batch, events, { mode: 'stopp' })
// @ts-expect-error
match(batch, '', { mode: 'half' })
// @ts-expect-error
replay(batch, '', { ordre: 'wide' })
// @ts-expect-error
output('chek', batch)
// @ts-expect-error
output('match', batch)
// @ts-expect-error
output('rest', batch)
// @ts-expect-error
new Run(batch, null)
// @ts-expect-error
check(7)
// @ts-expect-error
check(null)

/** Reports each request, and returns the response. */
export function answer(events: readonly RunEvent[]): Bytes {
  const live: Run = new Run(batch, { events, width: length })
  for (const id of live.ready) {
    try {
      live.start(id)
      live.report(id, 200, { ETag: '7' }, { of: id })
    } catch (error) {
      if (error instanceof Refused) live.report(error.id, 502)
      else if (!(error instanceof Fault) || error.faultName === error.place) throw error
    }
  }
  const response = live.response()
  live.close()
  return response
}
