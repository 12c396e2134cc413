/**
 * A document: bytes or a text of JSON, or an object that `JSON.stringify` writes by its members. Bytes that another
 * thread shares are copied first. Another kind, such as an array, a `Map` or a `Uint16Array`, throws a `TypeError`. A
 * string with a lone surrogate is refused as one that is not UTF-8, and an object that nests too deep as its text is.
 */
export type Document = Uint8Array | ArrayBuffer | string | object

/** Bytes that a call returns: a `Buffer`, which needs the types of Node to be seen as one. */
export type Bytes = typeof globalThis extends { Buffer: { alloc(size: number): infer B } } ? B : Uint8Array

/** What `using` calls, in versions of TypeScript that know it. */
export type Disposes = SymbolConstructor extends { readonly dispose: infer S extends symbol }
  ? { [name in S]: () => void }
  : {}

/** How many requests and how many different atomicity groups a batch has. */
export interface Counts {
  requests: number
  groups: number
}

/** A request of a plan. */
export interface PlannedRequest {
  /** Its position in the batch, counted from 0. */
  position: number
  id: string
  /**
   * 0 if it depends on nothing, else one more than the highest level that it depends on. Requests of one
   * level may run side by side.
   */
  level: number
  /** Its atomicity group, or null. */
  group: string | null
  /** The ids and groups that it depends on, in order. */
  needs: string[]
}

/** Options of the rest of a batch, and of a match. In each call an option with another name throws a `TypeError`. */
export interface RestOptions {
  /**
   * `stop` is for a service that stops at its first error: if a response has a status from 400 to 599, each request
   * without a response is read as answered 424; `continue` is the default.
   */
  mode?: 'continue' | 'stop'
}

/** Options of a match. */
export interface MatchOptions extends RestOptions {
  /**
   * Whether some finished run has to answer the statuses of the responses, too (F76 to F78); with `units` a group may
   * also start as one in it, as in a service that performs it in a transaction.
   */
  strict?: boolean | 'units'
}

/** Options of a run. */
export interface RunOptions {
  /** `stop` starts nothing more after a status from 400 to 599; `continue` is the default. */
  mode?: 'continue' | 'stop'
  /** How many requests may run at once, from 1 to 10,000, which is the default. */
  width?: number
}

export interface ReplayOptions extends RunOptions {
  /**
   * `first`, the default, and `last` finish each request before they start the next, by position from
   * either end; `wide` starts everything it can.
   */
  order?: 'first' | 'last' | 'wide'
  /** Whether the steps are returned, and what has to be undone. */
  trace?: boolean
}

export type Step = { step: 'start'; id: string } | { step: 'report'; id: string; status: number }

/** The headers of an answer, or none: an object, or pairs, as a `Headers` or a `Map` has them. */
export type HeaderValues = Record<string, string> | Iterable<readonly [string, string]> | null

/** An event of a run. A step of a replay is one, without headers and body. */
export type RunEvent =
  | { step: 'start'; id: string }
  | {
      step: 'report'
      id: string
      status: number
      headers?: HeaderValues
      /** A value that `JSON.stringify` can write, but no bytes. */
      body?: unknown
    }

/** Events: a document of them, or an array of starts and reports in order. */
export type Events = Document | readonly RunEvent[]

/** What a replay did. `steps` and `undone` are empty if no trace was asked for. */
export interface Replay {
  /** The response document, as JSON without a newline. */
  response: Bytes
  /** The starts and reports in order. */
  steps: Step[]
  /** The ids of the requests that have to be undone, in this order. */
  undone: string[]
}

/**
 * A document is refused: by its first fault, or by one of all that {@link faults} returns.
 *
 * Where its place begins in the document is looked up when `line`, `column`, `offset` or `end` is asked for, in a time in proportion
 * to the document: do not change the bytes of that before. In a document that is not JSON (F02) they are those of the first
 * byte that cannot be there, or of the end. Of an object they are those in the text that `JSON.stringify` writes of it. They
 * are undefined for a fault that a live run has found.
 */
export class Fault extends Error {
  /** @param document The bytes of the document, which a fault keeps. */
  constructor(code: string, faultName: string, place: string, document?: Uint8Array)
  /** Its code, as `F41`, `S4` or `P2`. */
  readonly code: string
  /** Its name, as `ForwardName`. */
  readonly faultName: string
  /**
   * The document, as `batch`, or its element, as `/requests/0`, counted from 0; `report` for the headers or
   * the body of a report of a live run.
   */
  readonly place: string
  /** The line in which the place begins, from 1. */
  readonly line: number | undefined
  /** The column in that line, from 1, in characters. */
  readonly column: number | undefined
  /** How many bytes of the document come before the place. */
  readonly offset: number | undefined
  /** How many bytes of the document come before its end. */
  readonly end: number | undefined
  /** What the fault means, and how it is repaired. */
  readonly explanation: string
  /**
   * What is wrong, for people: the id of the request and the name that is wrong, where there are any, as
   * `order: "lines" is not listed in dependsOn. `, then the name of the fault and its explanation.
   */
  readonly details: string
}

/** A start or a report of a live run is refused, and nothing has changed. */
export class Refused extends Error {
  constructor(code: string, causeName: string, id: string)
  /** The code of the first cause, S1 to S5 of a start, P1 or P2 of a report. */
  readonly code: string
  /** Its name, as `Waiting`. */
  readonly causeName: string
  /** The id of the request. */
  readonly id: string
  /** What the cause means, and what to do. */
  readonly explanation: string
}

/**
 * Checks a batch. Like each call below it throws a {@link Fault} if a document is refused, and an error
 * with the code `ERR_ODB_OUT_OF_MEMORY` if an allocation fails.
 */
export function check(batch: Document): Counts

/**
 * Returns the faults of a batch; none if {@link check} accepts it. The first is the one that `check` throws. They are those of
 * the first phase that has any: the document, the form of each request, ids and groups, names and references. A rule is listed
 * once for a request.
 */
export function faults(batch: Document): Fault[]

/** Plans a batch: its requests in order, with their levels and dependencies. */
export function plan(batch: Document): PlannedRequest[]

/**
 * Makes the canonical text of a batch, without a newline. Two documents have equal texts if and only if
 * they are the same batch.
 */
export function canon(batch: Document): Bytes

/**
 * Matches the response document of a service against a batch. Returns the status of the response to each
 * request, by its id, in the order of the batch. Throws a `RangeError` for a mode that is none of its values.
 */
export function match(batch: Document, responses: Document, options?: MatchOptions): Map<string, number>

/**
 * Returns the rest of a batch: what may be sent again by the responses of a service, as a batch of its own, as JSON without a
 * newline.
 *
 * A unit, a group or a request without one, is done if all of its requests were answered 2xx. It is in the rest if it is not
 * done, each of its requests may be sent again, and each unit that it depends on is done or in the rest. A request may be sent
 * again if it was answered 2xx, 424, 429 or 503; or 408, 502 or 504, if it is a GET, a PUT or a DELETE. Dependencies on what is
 * done are dropped, and a URL that refers to it gets its `Location`. An `If-Match` or `If-None-Match` that is `$` and the id of an
 * earlier request, which is not in the rest, gets its `ETag`. A body is the bytes of the document.
 *
 * Throws a {@link Fault} also if what a URL refers to was answered without a `Location` that the URL of a request may have
 * (F90), or what a condition refers to without an `ETag` (F91), and a `RangeError` for a mode that is none of its values.
 */
export function rest(batch: Document, responses: Document, options?: RestOptions): Bytes

/**
 * Runs a batch by recorded events, and returns the response document, as JSON without a newline. Throws a
 * `RangeError` for an option that has none of its values.
 */
export function run(batch: Document, events: Events, options?: RunOptions): Bytes

/** Replays a batch by recorded outcomes. Throws a `RangeError` for an option that has none of its values. */
export function replay(batch: Document, outcomes: Document, options?: ReplayOptions): Replay

/** A request of a batch, as it is to be sent. */
export interface Request {
  id: string
  /** Its method in upper case, as `POST`. */
  method: string
  /** Its URL, as the batch has it. */
  url: string
  /** The id of the request that the URL refers to, or null. */
  reference: string | null
  /**
   * The part of the URL after that id: of `$a/Lines?x=1` the reference is `a`, and the rest is `/Lines?x=1`. The whole
   * URL if it refers to no request.
   */
  rest: string
  /** Its headers, with their names in lower case. */
  headers: Record<string, string>
  /** Its atomicity group, or null. */
  group: string | null
  /** The ids and groups that it depends on, as a plan has them. */
  needs: string[]
  /**
   * The bytes of its body, just as they are in the document, whatever numbers they have; undefined if it has none, or
   * `null`. Of a document that is bytes, they are those bytes and no copy.
   */
  body: Bytes | undefined
}

/**
 * Returns what is to be sent of each request of a batch, in the order of the batch. A body is the bytes of the
 * document: of a batch that is an object, of the text that `JSON.stringify` writes of it.
 */
export function requests(batch: Document): Request[]

/** What a command prints of its documents. */
export interface Output {
  /** Whether the text is the result; else it is the fault of a document. */
  accepted: boolean
  /** The text, with a newline at its end. */
  text: Bytes
}

export interface OutputOptions extends ReplayOptions, MatchOptions {
  /** `json`, the default, for one line of JSON, as `odb_batch --json` prints, or `lines`. */
  form?: 'json' | 'lines'
}

/**
 * Returns the text that a command prints, to be passed on: a fault is a text, too, and is not thrown. A
 * canonical text, a response and a trace are the same in both forms. Throws a `RangeError` for a command or
 * an option that has none of its values, and a `TypeError` if the second document is missing or one too many.
 *
 * @param second The document that `match`, `run`, `replay` or `rest` takes beside the batch; else null or undefined.
 */
export function output(
  command: 'check' | 'plan' | 'canon',
  batch: Document,
  second?: null,
  options?: OutputOptions,
): Output
export function output(
  command: 'match' | 'run' | 'replay' | 'rest',
  batch: Document,
  second: Events,
  options?: OutputOptions,
): Output

export interface LiveOptions extends RunOptions {
  /**
   * What has happened already, in order; nothing is the default. A gateway that keeps its events goes on
   * from there after it was stopped. They are at most 16,777,216 bytes as a document, with only whole
   * numbers. For more, open the run without events and make the calls again, in their order.
   */
  events?: Events
}

/** What has become of a request of a live run. */
export interface RequestState {
  /**
   * `waiting` if it may not start yet, `ready` if it may start now, `skipped` if it never starts any more, since its
   * unit has failed or the run is stopped; once the run is finished, `undone` if it has to be undone.
   */
  state: 'waiting' | 'ready' | 'running' | 'reported' | 'skipped' | 'undone'
  /** The status that it has reported, or null; once the run is finished, the status that it is answered. */
  status: number | null
}

/** A part of the batch of a live run: requests that may be sent together. */
export interface Part {
  /** A batch of these requests, in which what others have been answered stands for references to them. */
  document: Bytes
  /** The ids of its requests, in the order of the batch. */
  ids: string[]
}

/** The step of a live run that comes next: a request starts, or one that runs is reported. */
export interface NextStep {
  step: 'start' | 'report'
  id: string
}

/**
 * A live run of a batch: it says which requests may start now, and in the end what the batch is answered.
 * The caller performs the requests. It starts those that are ready, in any order, and reports what each is
 * answered, until the run is finished. A run that is not finished has a request that is ready or one that
 * is running.
 *
 * A run holds memory of the library: close it. After that all but `close` throws an error with the code
 * `ERR_ODB_CLOSED`. One that is forgotten is closed when it is collected. A run belongs to the thread, or
 * the worker, that made it. Over the WebAssembly module it is lost if another call traps: then it throws an error
 * with the code `ERR_ODB_LOST`.
 */
export class Run {
  /**
   * Opens a run. Throws a {@link Fault} if a document is refused or an event may not come, and a
   * `RangeError` for an option that has none of its values.
   */
  constructor(batch: Document, options?: LiveOptions)

  /**
   * The ids of the requests that may start now, in the order of the batch. It takes a time in proportion to
   * their number: go through a list to its end before you ask for the next one. A start that may not come
   * any more is refused.
   */
  readonly ready: string[]

  /** The ids of the requests that have started and not reported yet, in the order of the batch. */
  readonly running: string[]

  /** Whether nothing is running and nothing may start any more, so that there is a response. */
  readonly finished: boolean

  /**
   * The ids of the requests that succeeded but are answered 424, since another one of their group did not
   * succeed: what they did has to be undone, in this order, from the last to the first. Throws the
   * {@link Fault} F66 if the run is not finished.
   */
  readonly undone: string[]

  /**
   * Returns the ids of the first unit that may begin, or null if no unit may begin now. A unit is a group, or one
   * request without a group. It may begin if none of its members has started, it has not failed, what its members
   * need of other units has succeeded, the run is not stopped, and fewer requests are running than the width
   * allows. For who performs a group as a whole, as in a transaction: start and report its members one after
   * another, each once it is ready, or start all by `startUnit`.
   */
  nextUnit(): string[] | null

  /**
   * Returns the step that comes next in an order, as in `replay`, or null if the run is finished. The run stays as it
   * is: start or report the request. Throws a `RangeError` for an order that is none of its values.
   */
  next(order?: ReplayOptions['order']): NextStep | null

  /**
   * Returns what is to be sent of a request. The batch is read once for all requests, when this is called for the first
   * time: do not change the bytes of the document before. Throws for an unknown id as `start`.
   */
  request(id: string): Request

  /**
   * Returns what has become of a request, and whether it may start now. It takes constant time, and throws for an
   * unknown id as `start`.
   */
  state(id: string): RequestState

  /**
   * Stops the run: from now on no request starts. What is running has to be reported as before, and what has not
   * started is answered 424.
   */
  stop(): void

  /**
   * Starts a request: call it just before the request is sent. Throws {@link Refused} with the first of the
   * causes S1 to S5 if it may not start, and a `RangeError` with the code `ERR_ODB_UNKNOWN_ID` if no
   * request of the batch has this id.
   */
  start(id: string): void

  /**
   * Starts all members of a request's unit together: its group, or the request alone if it has none. For who sends a
   * group to a service as a batch of its own: call it just before that is sent. The members are reported one by one,
   * in any order, and until the last of them the unit counts as one in the width. Throws {@link Refused} with the
   * first of the causes S1 to S5 that applies to the unit, and nothing has started; and for an unknown id as `start`.
   */
  startUnit(id: string): void

  /**
   * Returns the next part of the batch, or null if nothing may be sent now: at most `limit` requests (10,000) that may be sent
   * together as a batch of their own. None of them was in a part before, and what they depend on is in this part or has
   * succeeded. A group is whole. Dependencies on what has succeeded are left out, and `$a` in a URL is replaced by the Location
   * that was reported for `a`, in `If-Match` and `If-None-Match` by the ETag; the part ends before the first unit for which there is
   * none. Once a part is answered, pass it to `take`; or start its units by `startUnit`, in the order of the batch, and report their
   * requests. Throws a {@link Fault} if the batch is refused, or for a request of the first unit that may begin, which refers to one for
   * which no Location was reported that its URL may have (F90), or no ETag (F91); start and report this unit, and ask again. Throws a `RangeError` if a group has more requests than the limit, or if it is
   * another batch than that of the run.
   */
  part(batch: Document, limit?: number): Part | null

  /**
   * Takes what a service has answered a part, at once: starts its requests, and reports each by the response with its id, whose body
   * is taken as its bytes. A request that does not start, since its unit has failed or the run was stopped before, is answered 424.
   * `mode` is what an error does to the service. If it stops, a request without a response is answered 424. Throws a {@link Fault} if
   * the responses do not fit the part, as for `match`, or by F70 if one has a status below 200 or headers that no report has; and a
   * `RangeError` if a request is running, or the part was not given by this run or has started. Then the run is as it was.
   */
  take(part: Part, responses: Document, options?: { mode?: 'continue' | 'stop' }): void

  /**
   * Reports what a running request was answered. A request without any answer, as over a connection that
   * broke, is reported, too: as 502 or 504, or the run would wait for it forever. Throws {@link Refused}
   * with the first of the causes P1 and P2 if the report may not come, and for an unknown id as `start`.
   *
   * @param status The final status, from 200 to 599.
   * @param headers The headers that the response shows.
   * @param body The body: its JSON text as bytes, which the response repeats byte for byte, whatever numbers
   *   they have; or a value that `JSON.stringify` can write, a string too. null, undefined and no bytes are no
   *   body. It nests at most 124 deep: else, and for other headers than strings with different names, throws
   *   the {@link Fault} that they have in a recorded event, and the request is still running. A BigInt throws a
   *   `TypeError`.
   */
  report(id: string, status: number, headers?: HeaderValues, body?: unknown): void

  /**
   * Returns the response document of the finished run, as JSON without a newline. Throws the {@link Fault}
   * F66 if the run is not finished.
   */
  response(): Bytes

  /** Frees the run, if it is not closed yet. `using` does so, too. */
  close(): void
}
export interface Run extends Disposes {}

/** The version of the library, MAJOR.MINOR.PATCH. */
export const version: string

export {
  Answer, Fetched, FetchResponse, GroupFailed, PerformanceOptions, PerformOptions, PreparedRequest, Refusal, Send, SharedPerformOptions,
  Signal, Transaction, perform,
} from './perform'
