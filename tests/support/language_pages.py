"""The programs of the pages for Go, Java and C#: how tests build them, and what they print."""

import subprocess
import urllib.request
from contextlib import contextmanager

from .markdown import blocks
from .servers import SECONDS, free_port, until

GO_PRINTS = "200 424 <nil>\n"  # a POST is answered without a Location, so what refers to it is not sent
JAVA_PRINTS = "4 requests\nbook 204\nmark 204\nloan 204\nlist 204\n"
# What the example of C# prints at the end, for a book and a reader.
LENT = '"Id":"{}","Title":"Solaris","Shelf":null,"Reader":{},"Price":9.990}}'

_CLIENT = """package main

import (
"context"
"fmt"
"log"
"os"

"odb_batch/odb"
)

func main() {{
ctx := context.Background()
{lines}fmt.Println(results.Of(order).Status, results.Of(lines).Status, err)
}}
"""


def write_go(page, folder):
    """Writes the service and the client of the page for Go, each to a folder of its own below this one."""
    service, lines = blocks(page, "go")
    client = _CLIENT.format(lines=lines.replace('"http://localhost:8080/odata/$batch"', 'os.Args[1]+"$batch"'))
    for name, text in (("service", service), ("client", client)):
        (folder / name).mkdir(parents=True)
        (folder / name / "main.go").write_text(text, encoding="utf-8")


@contextmanager
def serving(log, *words):
    """Runs a program that serves books at the address which is its first argument; yields it with the URL."""
    address = f"127.0.0.1:{free_port()}"
    with open(log, "wb") as file, subprocess.Popen([words[0], address, *words[1:]], stderr=file) as process:
        process.url = f"http://{address}/odata/"
        try:
            until(lambda: process.poll() is not None or _answers(process.url))
            yield process
        finally:
            process.kill()


def _answers(url):
    try:
        return urllib.request.urlopen(f"{url}Books", timeout=SECONDS).status == 200
    except OSError:
        return False
