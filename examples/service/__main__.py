"""Serves the library by Python's own wsgiref, for a first look: see docs/service.md."""

import argparse
import logging
import os
import signal
import sys
import tempfile
from socketserver import ThreadingMixIn
from wsgiref.simple_server import WSGIServer, make_server

from app import make_app
from entities import ROOT


class Server(ThreadingMixIn, WSGIServer):
    """A thread for each connection."""

    daemon_threads = True


def main() -> None:
    parser = argparse.ArgumentParser(prog="service", description=f"A lending library that answers POST {ROOT}$batch.")
    parser.add_argument("--port", type=int, default=8080, help="0 for any that is free; 8080")
    parser.add_argument("--database", metavar="FILE", help="where the library is kept; else it is lost at the end")
    options = parser.parse_args()
    logging.basicConfig(level=logging.INFO, format="%(asctime)s %(message)s")
    signal.signal(signal.SIGTERM, lambda *_: sys.exit(0))
    with tempfile.TemporaryDirectory(prefix="library-") as folder:
        app = make_app(options.database or os.path.join(folder, "library.sqlite"))
        with make_server("127.0.0.1", options.port, app, Server) as server:
            logging.info("listening on http://127.0.0.1:%d%s", server.server_port, ROOT)
            server.serve_forever()


if __name__ == "__main__":
    main()
