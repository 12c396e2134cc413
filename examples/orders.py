"""Adds 50 orders with lines by a client that waits and repeats: python3 examples/orders.py https://host/odata/"""

import sys

import requests

from odb_batch.client import Batch, BatchClient

batch = Batch()
for number in range(50):
    with batch.group() as paid:
        order = batch.post("Orders", {"Number": number})
        for article in range(4):
            batch.post(f"{order}/Lines", {"Article": article})
    batch.get(order, after=paid)
with BatchClient(requests.Session(), sys.argv[1]) as client:
    results = client.send(batch, limit=20)
print(results)
