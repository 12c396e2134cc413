// How batches are performed: the types of `perform`, which index.d.ts exports.

import type { Bytes, Document, HeaderValues } from './index'

/** A signal, as an `AbortController` makes it; the types of the DOM or of Node say what it has. */
export type Signal = typeof globalThis extends { AbortSignal: { prototype: infer S } } ? S : object

/** A request of a batch as it is sent. It may be the second argument of `fetch`. */
export interface PreparedRequest {
  id: string
  /** In upper case. */
  method: string
  /** Joined to the base; a reference is replaced by the URL of what the other request has created or returned. */
  url: string
  /** By their names in lower case; a reference to an ETag is replaced by it. */
  headers: Record<string, string>
  /** The bytes on the wire, or undefined if there is no body. JSON is as in the document, byte for byte. */
  body: Bytes | undefined
  /** Its atomicity group, or null. */
  group: string | null
  /** Is aborted when `timeout` or `deadline` is over; undefined without these options. */
  signal: Signal | undefined
}

/** What a request is answered. */
export interface Answer {
  /** The final status, from 200 to 599; another whole number is shown as 502, and what is not one is an error: 500. */
  status: number
  /** The headers. Those of one connection, as `Connection` and `Set-Cookie`, are not shown. */
  headers?: Record<string, unknown> | Iterable<readonly [string, string]> | null
  /**
   * The body: bytes as they are on the wire, by `Content-Type` JSON, a text or other bytes; or a value that
   * `JSON.stringify` writes, a string too. null, undefined and no bytes are no body. Bytes that claim to be JSON and are not,
   * or nest more than 124 deep, are shown as a string. One of more than 16,777,216 bytes in the response is not shown: a GET is
   * answered 507 then, and any other request keeps its status and its headers.
   */
  body?: unknown
}

/** The response of a `fetch`, whose body is read. */
export interface FetchResponse {
  status: number
  headers: Iterable<readonly [string, string]>
  arrayBuffer(): Promise<ArrayBuffer>
}

/**
 * Sends a request. What it throws is an answer, too: a {@link Refusal} its own, an error of the name `TimeoutError` or
 * `AbortError` or of a code such as `ETIMEDOUT` 504, one of a code such as `ECONNRESET` 502, and any other 500.
 */
export type Send = (request: PreparedRequest) => Answer | FetchResponse | Promise<Answer | FetchResponse>

/**
 * Performs an atomicity group in a transaction: begins one, calls `body` once and waits for it, and commits if it is fulfilled,
 * else rolls back. A rejection says that the group is not committed: its last request is answered as {@link Send} says of
 * exceptions.
 */
export type Transaction = (group: string, body: () => Promise<void>) => PromiseLike<unknown>

/** Options of `perform` that a `$batch` has, too. */
export interface SharedPerformOptions {
  /** How many requests are sent at once, from 1, which is the default, to 10,000. */
  width?: number
  /** Without it a batch with atomicity groups is refused: 501, before anything is sent. */
  transaction?: Transaction
  /** For how many milliseconds an answer is waited for, then it is 504; without it there is no limit. */
  timeout?: number
  /**
   * For how many milliseconds the batch is performed. Then nothing more starts, what is sent is 504, and the rest is 424; a
   * transaction that waits is waited for. Without it there is no limit.
   */
  deadline?: number
  /** How many requests a batch may have; one with more is refused: 413. */
  limit?: number
  /** Once it is aborted nothing more starts. What was sent is waited for, and the rest is answered 424. */
  stop?: Signal
  /**
   * Takes each error that is shown as 500, 502 or 504, and those of transactions; with a `$batch` also what the types of its options
   * say. `console.error` is the default.
   */
  log?: (error: unknown, what: string) => void
}

export interface PerformOptions extends SharedPerformOptions {
  /** `stop` starts nothing more after a status from 400 to 599; `continue` is the default. */
  mode?: 'continue' | 'stop'
  /** The absolute URL, with a slash at its end, that URLs are relative to; without it they stay as they are. */
  base?: string
  /**
   * What the URLs of requests begin with, absolute URLs with a slash at their end and no user information: others are answered
   * 404. The base alone if that is given. If there are none, a request may lead anywhere.
   */
  roots?: readonly string[]
}

/**
 * Performs a batch by a function that sends one request, and returns the response document, as JSON without a newline.
 *
 * Begins the first unit of the batch that may begin, while fewer are out than the width allows. The transaction of a group
 * begins when the group needs nothing more from outside, and is over before its last request is reported. In URLs `$` and an id
 * stand for the URL that the request was answered (`Location`, `OData-EntityId`, `@id`), or its own unless it is a POST; in
 * `If-Match` and `If-None-Match` for its ETag (OData JSON Format 4.01, sections 19.2 and 19.3). If there is none, the request is
 * answered 424.
 *
 * Rejects with a {@link Fault} if the batch is refused, and with a {@link Refusal} if it has too many requests, or groups and no
 * transaction; nothing was sent then. Rejects with a `TypeError` or a `RangeError` for an option that has none of its values.
 */
export function perform(batch: Document, send: Send, options?: PerformOptions): Promise<Bytes>

/** @deprecated The name of {@link FetchResponse} before. */
export type Fetched = FetchResponse
/** @deprecated The name of {@link SharedPerformOptions} before. */
export type PerformanceOptions = SharedPerformOptions

/** Thrown in place of an answer, from a function that sends or from a transaction. */
export class Refusal extends Error {
  /**
   * @param status From 400 to 599; else throws a `RangeError`.
   * @param code What the error object has for programs (OData JSON Format 4.01, section 21.1).
   * @param message What it has for people.
   */
  constructor(status: number, code: string, message: string, more?: { target?: string; headers?: HeaderValues })
  readonly code: string
  /** The answer, with the error object as its body. */
  readonly answer: { status: number; headers: Record<string, string>; body: object }
}

/** What the body of a transaction is rejected with, so that it rolls back: a request of the group has failed. */
export class GroupFailed extends Error {
  constructor(group: string)
  readonly group: string
}
