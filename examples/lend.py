"""Lends a book by a batch: a client of the lending library of examples/service, which it serves itself for a moment."""

import os
import sys
import tempfile
import urllib.error
import urllib.request
from decimal import Decimal
from typing import Callable, Dict, Tuple

sys.path.append(os.path.join(os.path.dirname(os.path.abspath(__file__)), "service"))

from app import make_app

from odb_batch.client import Batch, BatchClient
from odb_batch.conformance import serving

Posted = Tuple[int, Dict[str, str], bytes]


def lending(reader: int) -> Batch:
    batch = Batch()
    book = batch.post("Books", {"Id": "solaris", "Title": "Solaris", "Price": Decimal("9.990")}, id="book")
    with batch.group("lend") as lend:
        batch.patch(book, {"Reader": reader}, headers={"If-Match": book}, id="mark")
        batch.post("Loans", {"Book": "solaris", "Reader": reader}, id="loan")
    batch.get(f"{book}", after=lend, id="lent")
    return batch


def posting(url: str) -> Callable[[bytes, Dict[str, str]], Posted]:
    """Posts batches by the standard library."""

    def post(document: bytes, headers: Dict[str, str]) -> Posted:
        request = urllib.request.Request(url, document, headers)
        try:
            with urllib.request.urlopen(request, timeout=30) as answer:
                return answer.status, dict(answer.headers), answer.read()
        except urllib.error.HTTPError as error:
            return error.code, dict(error.headers), error.read()

    return post


def main() -> None:
    batch = lending(42)
    print(batch.check())
    with tempfile.TemporaryDirectory() as folder, serving(make_app(os.path.join(folder, "library"))) as url:
        client = BatchClient(posting(f"{url}/library/$batch"))
        results = client.send(batch, limit=2)
        print(results)
        print(results["lent"].json(parse_float=Decimal))
        print(client.send(batch))


if __name__ == "__main__":
    main()
