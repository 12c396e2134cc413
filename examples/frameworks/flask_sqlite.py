"""Books in Flask and sqlite3, with batches: `gunicorn --threads 4 flask_sqlite:app`."""

import os
import sqlite3
from contextlib import closing, contextmanager
from contextvars import ContextVar
from urllib.parse import quote, unquote, urlsplit

from flask import Flask, abort, jsonify, request
from werkzeug.exceptions import HTTPException

from odb_batch import Refusal
from odb_batch.wsgi import BatchMiddleware

PATH = os.environ.get("BOOKS", "books.sqlite")
CURRENT = ContextVar("connection", default=None)  # the connection of the group, or of the request
app = Flask(__name__)

with closing(sqlite3.connect(PATH)) as db:
    db.execute("PRAGMA journal_mode = WAL")
    db.execute("CREATE TABLE IF NOT EXISTS Books (Id TEXT PRIMARY KEY, Title TEXT NOT NULL, Version INTEGER)")


@contextmanager
def transaction(group=None):
    """The transaction of a group, or of a request in none: committed at its end, rolled back by an exception."""
    if group is None and CURRENT.get() is not None:
        yield CURRENT.get()  # the one of the group
        return
    with closing(sqlite3.connect(PATH, timeout=10, isolation_level=None)) as db:
        token = CURRENT.set(db)
        try:
            with db:
                db.execute("BEGIN IMMEDIATE" if group or request.method != "GET" else "BEGIN")
                yield db
        finally:
            CURRENT.reset(token)


def inspect(request):
    """What a proxy denies by its path is denied in a batch, too."""
    if unquote(urlsplit(request.url).path).startswith("/odata/admin/"):
        raise Refusal(403, "Denied", "not in a batch")


@app.before_request
def refuse_options():
    if any(name.startswith("$") for name in request.args):
        abort(501, "no query option of OData is supported")


def text(name):
    """A member of the body, which has to be a text."""
    value = request.json.get(name) if isinstance(request.json, dict) else None
    return value if value and isinstance(value, str) else abort(400, f"{name} has to be a text")


def shown(row, status=200):
    tag, place = f'"{row[2]}"', f"/odata/Books('{quote(row[0])}')"
    return jsonify(Id=row[0], Title=row[1]), status, {"ETag": tag, "Location": place}


@app.get("/odata/Books")
def books():
    with transaction() as db:
        return {"value": [{"Id": id, "Title": title} for id, title in db.execute("SELECT Id, Title FROM Books")]}


@app.post("/odata/Books")
def create():
    row = text("Id"), text("Title"), 1
    with transaction() as db:
        if db.execute("INSERT INTO Books VALUES (?, ?, ?) ON CONFLICT DO NOTHING", row).rowcount == 0:
            abort(409, "the book is there")
    return shown(row, 201)


@app.route("/odata/Books('<key>')", methods=["GET", "PATCH", "DELETE"])
def book(key):
    with transaction() as db:
        row = db.execute("SELECT Id, Title, Version FROM Books WHERE Id = ?", (key,)).fetchone()
        if row is None:
            abort(404, "no such book")
        if request.method == "GET":
            return shown(row)
        if request.headers.get("If-Match", "*") not in ("*", f'"{row[2]}"'):
            abort(412, "the book has changed")
        if request.method == "DELETE":
            db.execute("DELETE FROM Books WHERE Id = ?", (key,))
        else:
            change = "UPDATE Books SET Title = ?, Version = Version + 1 WHERE Id = ?"
            db.execute(change, (text("Title"), key))
    return "", 204


@app.errorhandler(HTTPException)
def error(raised):
    return jsonify(error={"code": raised.name, "message": raised.description}), raised.code


app.wsgi_app = BatchMiddleware(
    app.wsgi_app, "/odata/$batch", transaction=transaction, inspect=inspect, width=int(os.environ.get("WIDTH", "1"))
)
