// The entry `odb-batch/middleware`.

import type { Answer, PreparedRequest, SharedPerformOptions } from './perform'

/** A handler of `node:http`, as an app of Express is one, or what `app.callback()` of Koa returns. */
export type Handler = (request: any, response: any) => unknown

/** An app that answers requests in this process by a call of its own, as that of Fastify. */
export interface Injectable {
  inject(request: any): PromiseLike<{ statusCode: number; headers: Record<string, unknown>; rawPayload: Uint8Array }>
}

export interface BatchOptions extends SharedPerformOptions {
  /** The path to which batches are sent; `/$batch` is the default. The URLs of their requests are relative to its folder. */
  path?: string
  /** What the path of each request begins with, with a slash at its end; the folder of `path` is the default. */
  root?: string
  /**
   * Names of headers that requests may have, beside those of OData and of conditional requests, and `traceparent`, `tracestate`,
   * `X-Request-ID`, `X-Correlation-ID`, `client-request-id`, `X-CSRF-Token`, `X-Requested-With` and `sap-*`. Dropped are
   * `Accept-Encoding`, `Connection`, `Content-Length`, `Host`, and, unless they are allowed, `Cache-Control`, `Date`, `Pragma` and
   * `User-Agent`. Others are answered 400, which the log says once for each name, of at most 100.
   */
  allowed?: readonly string[]
  /**
   * Sees each request before it is dispatched, with its whole URL and all its headers, and may throw a `Refusal`, which is its
   * answer then. What it changes has no effect.
   */
  inspect?: (request: Omit<PreparedRequest, 'signal'>) => void | PromiseLike<void>
  /**
   * Is called like `inspect`, just before a request is dispatched. A function that it returns is called with the answer, for a span
   * or a log of your own.
   */
  onRequest?: (request: Omit<PreparedRequest, 'signal'>) => void | ((answer: Answer) => void)
  /** Takes a line for each request of a batch, such as `batch 7: GET /odata/Books 200 1.3 ms`; there is none by default. */
  requestLog?: (line: string) => void
  /**
   * How many bytes a batch may have, and its answers together; 16,777,216 is the default. An answer takes its bytes as it is
   * written. If they are too many, a GET is ended at once and answered 507; another request keeps its status and loses its body.
   */
  maxSize?: number
  /**
   * How many bytes all batches and their answers may have at once: 268,435,456, or twice `maxSize` if that is more. A batch or a GET
   * that would need more is answered 503 with `Retry-After`.
   */
  memory?: number
  /** How many requests a batch may have; 1,000 is the default. */
  limit?: number
  /**
   * For how many milliseconds an answer is waited for, then its connection is closed and it is 504; 30,000 is the default. A client
   * that for as long reads nothing of the response to its batch is cut off.
   */
  timeout?: number
}

/**
 * Makes a handler that answers `POST` to one path as a batch, and passes other requests on: to `next`, or to the app if it is
 * called without it. Each request of a batch is answered by the app in this process, with the headers of the outer request but
 * those that are about the batch. The mode is `continue` if the preference continue-on-error says so, else `stop`.
 *
 * Once the client has left nothing more of its batch starts. What only reads has its connection closed, as with a client of its
 * own; a write or a group is waited for. An answer with another number of bytes than its `Content-Length` is 502.
 *
 * What is refused is answered by an error object (OData JSON Format 4.01, section 21.1): 400 with the fault of the batch, 405,
 * 408 if its bytes do not come in half a minute, 413, 415 with `Accept` or `Accept-Encoding`, 501 and 503. Throws a `TypeError` or a `RangeError` for an option that has none of
 * its values.
 */
export function batch(app: Handler, options?: BatchOptions): Middleware
/** The same for an app that has no handler, in which it always has a `next`. */
export function batch(app: Injectable, options?: BatchOptions): Middleware

/** What `batch` returns. */
export type Middleware = (request: any, response: any, next?: (error?: any) => void) => void
