const { Fault, check, plan } = require('odb-batch')

const batch = { requests: [{ id: 'a', method: 'get', url: 'Books' }] }
try {
  console.log(check(batch), plan(batch).filter(({ level }) => level === 0).map(({ id }) => id))
} catch (error) {
  if (!(error instanceof Fault)) throw error
  console.log(error.code, error.faultName, error.place, error.explanation)
}
