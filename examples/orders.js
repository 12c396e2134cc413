// Adds 50 orders with lines by a client that waits and repeats: node examples/orders.js https://host/odata/

const { Batch, BatchClient } = require('odb-batch/client')

const batch = new Batch()
for (let number = 0; number < 50; number++) {
  let order
  const paid = batch.group(() => {
    order = batch.post('Orders', { Number: number })
    for (let article = 0; article < 4; article++) batch.post(`${order}/Lines`, { Article: article })
  })
  batch.get(order, { after: paid })
}
new BatchClient(process.argv[2]).send(batch, { limit: 20 }).then((results) => console.log(String(results)))
