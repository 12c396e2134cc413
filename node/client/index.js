'use strict'

// Batches that are made by calls, and a client that posts them. client.d.ts says what each call takes and returns.

const { Batch, Group, Reference } = require('./batch.js')
const { BatchClient } = require('./batch_client.js')
const { BatchFailed, RequestFailed, Result, Results } = require('./results.js')

module.exports = { Batch, BatchClient, BatchFailed, Group, Reference, RequestFailed, Result, Results }
