// Prints the lines of answers.mjs: node in_node.mjs FOLDER CALLS RUNS, by the package in a folder.

import { readFileSync } from 'node:fs'
import { createRequire } from 'node:module'
import { linesOf } from './answers.mjs'

const [folder, calls, runs] = process.argv.slice(2)
const library = createRequire(import.meta.url)(`${folder}/library/index.js`)
console.log(linesOf(library, readFileSync(calls), Number(runs)).join('\n'))
