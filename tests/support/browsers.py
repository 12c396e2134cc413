"""Pages of headless browsers at a server of this process."""

import contextlib
import http.server
import os
import threading

from . import chromium, firefox

# By the names of their programs.
BROWSERS = {chromium.PROGRAM: chromium.Chromium, firefox.PROGRAM: firefox.Firefox}
KINDS = {".mjs": "text/javascript", ".wasm": "application/wasm"}


@contextlib.contextmanager
def served(files):
    """The address of a server, in this process, of bytes by their paths. A page without a path is empty."""

    class Handler(http.server.BaseHTTPRequestHandler):
        protocol_version = "HTTP/1.1"

        def log_message(self, *_):
            pass

        def do_GET(self):
            data = files.get(self.path, b"<!doctype html>" if self.path == "/" else None)
            self.send_response(404 if data is None else 200)
            self.send_header("Content-Type", KINDS.get(os.path.splitext(self.path)[1], "text/html"))
            self.send_header("Content-Length", str(len(data or b"")))
            self.end_headers()
            self.wfile.write(data or b"")

    server = http.server.ThreadingHTTPServer(("127.0.0.1", 0), Handler)
    thread = threading.Thread(target=server.serve_forever, daemon=True)
    thread.start()
    try:
        yield f"http://127.0.0.1:{server.server_port}/"
    finally:
        server.shutdown()
        server.server_close()


@contextlib.contextmanager
def page_of(browser, files, profile):
    """A page of a browser at a server of files."""
    with served(files) as address:
        browser = BROWSERS[browser](profile)
        try:
            browser.open(address)
            yield browser
        finally:
            browser.close()
