'use strict'

// The parts of a live run. The laws of parts are proved; python/tests/test_parts.py sends random batches in parts.

const { deepStrictEqual, strictEqual, throws } = require('node:assert')
const { describe, it } = require('node:test')

const { Run } = require('..')

const ORDER = {
  requests: [
    { id: 'o', method: 'post', url: 'Orders' },
    { id: 'l', method: 'post', url: '$o/Lines', dependsOn: ['o'], atomicityGroup: 'g' },
    { id: 'm', method: 'get', url: 'Stock', atomicityGroup: 'g' },
    { id: 's', method: 'get', url: 'Stock', dependsOn: ['g'] },
  ],
}

describe('parts of a live run', () => {
  it('go one after another', () => {
    const run = new Run(ORDER)
    deepStrictEqual(run.part(ORDER, 2).ids, ['o'])
    strictEqual(run.part(ORDER, 2), null)
    run.start('o')
    run.report('o', 201, { location: '/Orders(7)' })
    const part = run.part(ORDER)
    deepStrictEqual(part.ids, ['l', 'm', 's'])
    deepStrictEqual(JSON.parse(part.document.toString()).requests.map(({ url }) => url), ['/Orders(7)/Lines', 'Stock', 'Stock'])
    run.close()
  })

  it('are refused, and the run is as it was', () => {
    const run = new Run(ORDER)
    for (const limit of [0, 10001, '2', 1.5]) throws(() => run.part(ORDER, limit), /limit must be/)
    throws(() => run.part(ORDER, 1), /another batch/)
    throws(() => run.part({ requests: [] }), /another batch/)
    throws(() => run.part({ requests: 7 }), { code: 'F04' })
    deepStrictEqual(run.part(ORDER).ids, ['o', 'l', 'm', 's'])
    run.close()
    throws(() => run.part(ORDER), { code: 'ERR_ODB_CLOSED' })
  })

  it('have the ETags of earlier ones, and end before what lacks one', () => {
    const headers = { 'If-Match': '$o', 'If-None-Match': '$n' }
    const batch = { requests: [...ORDER.requests.slice(0, 1), { id: 'n', method: 'patch', url: 'N', dependsOn: ['o'], headers }] }
    for (const reported of [{ ETag: '7' }, {}]) {
      const run = new Run(batch)
      run.start('o')
      run.report('o', 201, reported)
      if (reported.ETag) deepStrictEqual(JSON.parse(run.part(batch).document).requests[0].headers, { 'if-match': '7', 'if-none-match': '$n' })
      else throws(() => run.part(batch), { code: 'F91', place: '/requests/1' })
      run.close()
    }
  })

  it('end before what lacks a Location', () => {
    const batch = { requests: [...ORDER.requests.slice(0, 1), { id: 'a', method: 'get', url: 'A' }, ...ORDER.requests.slice(1)] }
    const run = new Run(batch)
    run.start('o')
    run.report('o', 201)
    deepStrictEqual(run.part(batch).ids, ['a'])
    throws(() => run.part(batch), { code: 'F90', place: '/requests/2' })
    run.startUnit('l')
    run.report('l', 424)
    run.report('m', 424)
    deepStrictEqual(run.part(batch), null)
    run.close()
  })

  it('are answered at once', () => {
    const good = { responses: [{ id: 'o', status: 201, headers: { Location: '/Orders(7)' }, body: { n: 1 } }] }
    const run = new Run(ORDER)
    const part = run.part(ORDER, 2)
    throws(() => run.take(part, ''), { code: 'F02', place: 'responses' })
    throws(() => run.take(part, { responses: [] }), { code: 'F73', place: '/requests/0' })
    throws(() => run.take(part, { responses: [{ id: 'o', status: 102 }] }), { code: 'F70', place: '/responses/0' })
    throws(() => run.take(part, { responses: [{ id: 'o', status: 200, headers: { a: 1 } }] }), { code: 'F70' })
    throws(() => run.take(part, good, { mode: 'go' }), RangeError)
    throws(() => run.take({ document: ORDER, ids: [] }, good), /not given by this run/)
    run.take(part, good)
    deepStrictEqual(run.state('o'), { state: 'reported', status: 201 })
    throws(() => run.take(part, good), /has started/)
    const rest = run.part(ORDER)
    run.take(rest, { responses: [{ id: 'l', status: 409, atomicityGroup: 'g' }] }, { mode: 'stop' })
    deepStrictEqual(JSON.parse(run.response().toString()).responses.map(({ status }) => status), [201, 409, 424, 424])
    run.close()
    throws(() => run.take(part, good), { code: 'ERR_ODB_CLOSED' })
  })
})
