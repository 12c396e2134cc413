// The code of the package for tsc, which is to find in it all that the .d.ts files declare.

import * as client from '../client'
import * as index from '../index'
import * as middleware from '../middleware'
import { canon, check, faults, match, output, plan, replay, rest, run } from '../calls/commands.js'
import { requests } from '../calls/requests.js'
import { Run } from '../calls/run.js'
import { Batch, BatchClient, BatchFailed, Group, Reference, RequestFailed, Result, Results } from '../client/index.js'
import { Fault, Refused } from '../errors/faults.js'
import { GroupFailed, Refusal } from '../errors/refusals.js'
import { batch } from '../middleware/index.js'
import { perform } from '../perform/index.js'

const version: string = index.version
export const functions = { batch, canon, check, faults, match, output, perform, plan, replay, requests, rest, run, version }
export const declared: Omit<typeof index & typeof middleware, keyof typeof classes> = functions

export const classes = { Fault, GroupFailed, Refusal, Refused, Run }
export const classesOfClient = { Batch, BatchClient, BatchFailed, Group, Reference, RequestFailed, Result, Results }
// All that is exported is among these.
export const all: Record<keyof typeof index | keyof typeof middleware, unknown> = { ...functions, ...classes }
export const allOfClient: Record<keyof typeof client, unknown> = classesOfClient

type Instances<Classes> = { [Name in keyof Classes]: Classes[Name] extends { prototype: infer Instance } ? Instance : never }
export function instances(found: Instances<typeof classes> & { Run: index.Disposes }, foundOfClient: Instances<typeof classesOfClient>): unknown {
  const wanted: Instances<Pick<typeof index, keyof typeof classes>> = found
  const wantedOfClient: Instances<typeof client> = foundOfClient
  return [wanted, wantedOfClient]
}
