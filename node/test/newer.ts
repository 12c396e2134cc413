// What tsc --strict is to see where the language has `using`, and where the types of Node are installed.

import { Run, canon } from '../index'

interface NodeBuffer extends Uint8Array { toString(encoding?: string): string }
declare global {
  interface SymbolConstructor { readonly dispose: unique symbol }
  var Buffer: { alloc(size: number, fill?: string | number): NodeBuffer }
}
interface Disposable { [Symbol.dispose](): void }

const live: Disposable & Run = new Run('')
live[Symbol.dispose]()
export const text: string = canon('').toString('hex') + live.response().toString('utf8')
