"""Answers of every kind in Flask."""

import itertools
import time

from flask import Flask, request
from werkzeug.middleware.proxy_fix import ProxyFix

from odb_batch.wsgi import BatchMiddleware

app = Flask(__name__)


@app.route("/odata/echo", methods=["GET", "POST"])
def echo():
    return {
        "headers": dict(request.headers),
        "url": request.url,
        "raw": request.environ["RAW_URI"],
        "from": request.remote_addr,
        "body": request.get_data(as_text=True),
    }


@app.get("/odata/binary")
def binary():
    return bytes(range(256)), 200, {"Content-Type": "image/png"}


@app.get("/odata/text")
def text():
    return "Grüße".encode("latin-1"), 200, {"Content-Type": "text/plain; charset=iso-8859-1"}


@app.get("/odata/stream")
def stream():
    return app.response_class((f"part {k}\n" for k in range(3)), mimetype="text/plain")


@app.get("/odata/events")
def events():
    return app.response_class((b"data: now\n\n" * 10_000 for _ in itertools.count()), mimetype="text/event-stream")


@app.get("/odata/fail")
def fail():
    raise RuntimeError("as planned")


@app.get("/odata/slow")
def slow():
    time.sleep(0.2)
    return {"slow": True}


app.wsgi_app = ProxyFix(BatchMiddleware(app.wsgi_app, "/odata/$batch", width=4))
