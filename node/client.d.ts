// The entry `odb-batch/client`.

import type { Bytes, Counts, Document, HeaderValues } from './index'
import type { Answer, FetchResponse, Signal } from './perform'

/** A request of a {@link Batch}. As a text it is the reference `$id`, for URLs and conditions of later requests. */
export class Reference {
  private constructor()
  readonly id: string
  toString(): string
}

/** An atomicity group of a {@link Batch}, which later requests may depend on. */
export class Group {
  private constructor()
  /** Its name. */
  readonly id: string
}

/** What a request depends on: a request or a group, or its name. */
export type Name = Reference | Group | string

export interface RequestOptions {
  /** What it depends on, beside what its URL, `If-Match` and `If-None-Match` refer to. */
  after?: Name | readonly Name[]
  /** Its headers. In `If-Match` and `If-None-Match` a reference stands for an ETag. */
  headers?: Record<string, string | Reference> | Iterable<readonly [string, string | Reference]>
  /** Its id; without it that is the first free number. */
  id?: string
}

export interface SendOptions {
  /** How many requests the service takes in a batch, from 1 to 10,000, which is the default. */
  limit?: number
  /**
   * `stop` is for a service that stops at its first error: it is not asked to continue, and nothing is sent after an error;
   * `continue` is the default.
   */
  mode?: 'continue' | 'stop'
}

/** A batch as it is posted. With the URL of the service it is the second argument of `fetch`. */
export interface PostedBatch {
  method: 'POST'
  /** `Content-Type`, `Accept`, and in mode `continue` the preference `continue-on-error` (OData Protocol 4.01, section 8.2.8.3). */
  headers: Record<string, string>
  body: Bytes
}

/** Posts a batch, and returns what that is answered. The body is the response document: bytes, a text or an object. */
export type Post = (batch: PostedBatch) => Answer | FetchResponse | Promise<Answer | FetchResponse>

/**
 * A batch of requests (OData JSON Format 4.01, section 19), made by calls.
 *
 * Each call that adds a request returns a {@link Reference}. A request that refers to an earlier one, by its URL as
 * `${order}/Lines` or by `If-Match`, depends on it without further ado; `after` is for other dependencies. What depends on a
 * request of a group depends on the group, too.
 */
export class Batch {
  /** Returns the batch of a document, to be sent or to be extended. Throws a `Fault` if it is refused. */
  static read(document: Document): Batch

  /** How many requests it has. */
  readonly size: number

  get(url: string | Reference, options?: RequestOptions): Reference
  post(url: string | Reference, body?: unknown, options?: RequestOptions): Reference
  put(url: string | Reference, body?: unknown, options?: RequestOptions): Reference
  patch(url: string | Reference, body?: unknown, options?: RequestOptions): Reference
  delete(url: string | Reference, options?: RequestOptions): Reference

  /**
   * Adds a request, and returns the reference to it.
   *
   * Throws a `RangeError` if the id is one that no URL can refer to, as `metadata`, or if a reference or a group is of another
   * batch; and a `TypeError` for a body that has no JSON, as a `Map` or a promise, for an id or a URL of another type, and for an
   * option with another name.
   *
   * @param url Its URL, relative to the service or absolute, or with a reference.
   * @param body Its body: bytes as they are on the wire, of JSON with all digits of its numbers; or a value that
   *   `JSON.stringify` writes, a string too. null, undefined and no bytes are no body. Without `Content-Type` it is
   *   `application/json`.
   */
  request(method: string, url: string | Reference, body?: unknown, options?: RequestOptions): Reference

  /**
   * Makes the requests that a function adds an atomicity group: all of them are performed, or none. Calls the function once,
   * and returns the group. If the function throws, none of its requests is added. Throws a `TypeError` for an async function,
   * and an `Error` in the function of another group.
   *
   * @param options `id` is the name of the group; without it that is a free one.
   */
  group(add: (group: Group) => void, options?: { id?: string }): Group

  /** Returns the document of the batch, as JSON. */
  document(): Bytes

  /** Returns its counts. Throws a `Fault` if it is refused: the message has the code, the id of the request and what is wrong. */
  check(): Counts

  /**
   * Sends the batch, if need be in parts, and is fulfilled with what each request was answered.
   *
   * Units are sent in the order of the batch: groups, and requests without one. A part has as many as the limit allows. A unit is
   * sent if all that it depends on is in the same part or has succeeded; else its requests are 424. In a later part `$a` is
   * replaced by the URL of what `a` has created or returned (`Location`, `OData-EntityId`, `@id`), or its own unless it is a POST,
   * and `If-Match: $a` by its ETag. If there is none, the request is 424.
   *
   * If a part is answered as a whole, by a status that is not 2xx, each of its requests has that answer. If `post` throws, or if
   * what it returns is not the response to the part, each has 504 for a timeout or an aborted fetch, else 502, or the answer of a
   * `Refusal`. Then nothing more is sent, and the other requests are 424.
   *
   * Rejects, and nothing was sent, with a `Fault` if the batch is refused, with a `RangeError` if a group has more requests than
   * the limit or an option has none of its values, and with a `TypeError` for an option with another name.
   */
  send(post: Post, options?: SendOptions): Promise<Results>
}

/** Options of a {@link BatchClient}. */
export interface ClientOptions {
  /** What posts, as the global `fetch`, which is the default: with own authentication, or an agent. */
  fetch?: (url: string, options: PostedBatch & { signal?: Signal }) => FetchResponse | Promise<FetchResponse>
  /** Headers that each batch has besides, as `Authorization`. */
  headers?: HeaderValues
  /** For how many milliseconds an answer is waited for, up to 2³¹ - 1 or `Infinity`; 60,000 is the default. */
  timeout?: number
  /** How many attempts in a row may bring nothing, from 1; 8 is the default. */
  attempts?: number
  /** For how many milliseconds a batch is sent; `Infinity` is the default. A wait that would be longer ends it at once. */
  deadline?: number
  /**
   * How many milliseconds a first wait is longer than `Retry-After`, at most: a random part of it, which doubles with each
   * attempt that brings nothing, up to 30,000; 1,000 is the default.
   */
  backoff?: number
  /**
   * Whether the service is asked to keep each part, so that one that is not answered may be posted again and is performed once
   * (OASIS Repeatable Requests 1.0); true is the default. If it does not keep them, nothing of that is done.
   */
  repeatable?: boolean
}

/** Posts batches to a service by `fetch`, waits while it is busy, and sends again what may be sent again. */
export class BatchClient {
  /**
   * Throws a `RangeError` for an option that has none of its values, and a `TypeError` for one with another name.
   *
   * @param url The URL of the service, above its `$batch`.
   */
  constructor(url: string, options?: ClientOptions)

  /**
   * Sends a batch as {@link Batch.send} does, waits and sends its rest, until nothing is left or nothing more is to be sent: after
   * so many attempts, at the deadline, after a `Retry-After` of more than 600 seconds, if a part is refused as a whole by 3xx or
   * 4xx, or in mode `stop` after an error. `reason` of the results says which.
   *
   * A part of which nobody knows whether it was performed is posted again, with the id by which the service keeps it. If the
   * service keeps none, its requests are as {@link Results.rest} says: a POST or a PATCH is not sent again.
   *
   * The results have what each request was answered last, over all sends. Rejects as {@link Batch.send} does.
   */
  send(batch: Batch, options?: SendOptions): Promise<Results>
}

/** What one request was answered. */
export class Result {
  private constructor()
  readonly id: string
  /** 424 is also the status of a request that was skipped or undone, since another one failed. */
  readonly status: number
  /** By their names in lower case. */
  readonly headers: Record<string, string>
  /** The bytes of the body as on the wire: of JSON with all digits of its numbers, of another type decoded; empty without one. */
  readonly body: Bytes
  /** Whether the status is one from 200 to 299. */
  readonly ok: boolean
  /** Its method and its URL in the batch without the query, as `POST $order/Lines`. */
  readonly operation: string
  /** Returns the value of the body, or what a function makes of it. Throws a `SyntaxError` if it is not JSON. */
  json(): any
  json<T>(type: (value: any) => T): T
  /** Returns the result itself if it is a success; else throws {@link RequestFailed}. */
  raiseForStatus(): this
}

/**
 * A request of a batch did not succeed. Its message has the id, the operation, the status, and what the error object of OData says
 * (OData JSON Format 4.01, section 21.1), as `order (POST Orders) 409 Sold: no copy is left`.
 */
export class RequestFailed extends Error {
  private constructor()
  readonly result: Result
}

/** Requests of a batch are not done. Its message is the text of the results. */
export class BatchFailed extends Error {
  private constructor()
  readonly results: Results
  /** One for each request that is not done, in the order of the batch. */
  readonly errors: readonly RequestFailed[]
}

/** What the requests of a batch were answered: a {@link Result} for each, in the order of the batch. */
export class Results implements Iterable<Result> {
  private constructor()
  /**
   * The result of a request, by what the batch has returned for it or by its id; undefined if the batch has none. Throws a
   * `RangeError` for a request of another batch.
   */
  get(request: Reference): Result
  get(id: string): Result | undefined
  /** How many they are. */
  readonly size: number
  /** The requests that were performed: answered from 200 to 299, as all others of their group. */
  readonly done: Result[]
  /** The requests that were answered for good by another status, or depend on one that is failed or unknown. */
  readonly failed: Result[]
  /** The requests that may be sent again: those of {@link rest}. */
  readonly left: Result[]
  /** The requests of which nobody knows whether they were performed: those with 408, 502 or 504 that are not left. */
  readonly unknown: Result[]
  /** Why {@link BatchClient.send} has ended; empty if nothing is left to be sent. */
  readonly reason: string
  /** Returns the results themselves if all requests are done; else throws {@link BatchFailed}, with an error for each that is not. */
  raiseForStatus(): this
  /**
   * For how many seconds the service asks to wait before the rest is sent: the greatest `Retry-After` of what did not succeed
   * (RFC 9110, section 10.2.3), up to then if it is a date; 0 if it asks for nothing.
   */
  readonly retryAfter: number
  /**
   * Returns the batch of what failed for now or was skipped, and may be sent again; null if nothing may.
   *
   * A request may be sent again if it was answered 424, 429 or 503, since nothing was performed then; or 408, 502 or 504, if it
   * is a GET, a PUT or a DELETE, since nobody knows. A group is in the rest as a whole: if it has failed, what succeeded in it was
   * undone. What is in the rest depends only on what has succeeded or is in the rest, too. References to what has succeeded are
   * replaced as in {@link Batch.send}. The references that the batch has returned hold for the rest and its results.
   *
   * Throws a `RangeError` if a request refers to one that was answered without an ETag, or without a usable URL of what it has
   * created.
   */
  rest(): Batch | null
  /**
   * What `post` threw, or why what it returned is not the response to a part, the last if there are several; undefined if each
   * part was answered.
   */
  readonly error: unknown
  /** How many requests are done, and each that is not, with why; `console.log` shows it, too. */
  toString(): string
  [Symbol.iterator](): Iterator<Result>
}
