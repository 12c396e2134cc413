// What the files of node/ and page/ use of Node, and what is made when they are built, for `tsc --checkJs`.

declare module 'node:*'
declare module '*.node'
declare module '*/examples.json' {
  const texts: Record<string, string>
  export = texts
}
declare module '*/version.js' {
  export const version: string
}

interface Buffer extends Uint8Array {
  equals(other: Uint8Array): boolean
  subarray(start?: number, end?: number): Buffer
  toString(encoding?: string, start?: number, end?: number): string
}
declare const Buffer: {
  new (size: number): Buffer
  alloc(size: number): Buffer
  concat(parts: Uint8Array[]): Buffer
  from(value: any, second?: any, length?: number): Buffer
  isBuffer(value: any): boolean
  of(...bytes: number[]): Buffer
}
declare const __dirname: string
declare const process: any
declare function require(name: string): any
declare function setImmediate(call: () => void): unknown
declare const CompressionStream: any
declare const DecompressionStream: any
declare var compiled: WebAssembly.Module
declare var page: any
interface SymbolConstructor {
  readonly dispose: unique symbol
}
