"""Books in Flask and SQLAlchemy, with batches: `gunicorn --threads 4 flask_sqlalchemy:app`."""

import os
from contextlib import contextmanager
from contextvars import ContextVar
from urllib.parse import quote

from flask import Flask, abort, jsonify, request
from sqlalchemy import Column, Integer, String, create_engine, event
from sqlalchemy.exc import IntegrityError
from sqlalchemy.orm import declarative_base, scoped_session, sessionmaker
from werkzeug.exceptions import HTTPException

from odb_batch.wsgi import BatchMiddleware

engine = create_engine("sqlite:///" + os.environ.get("BOOKS", "books.sqlite"), connect_args={"timeout": 10})
BIND = ContextVar("bind", default=engine)  # the connection of the group, or else the engine
Session = scoped_session(lambda: sessionmaker(BIND.get())())
Base = declarative_base()
app = Flask(__name__)


class Book(Base):
    __tablename__ = "Books"
    Id = Column(String, primary_key=True)
    Title = Column(String, nullable=False)
    Version = Column(Integer, default=1)

    def shown(self, status=200):
        tag, place = f'"{self.Version}"', f"/odata/Books('{quote(self.Id)}')"
        return jsonify(Id=self.Id, Title=self.Title), status, {"ETag": tag, "Location": place}


@event.listens_for(engine, "connect")
def leave_begin_to_sqlalchemy(connection, record):
    connection.isolation_level = None


@event.listens_for(engine, "begin")
def begin(connection):
    connection.exec_driver_sql("BEGIN IMMEDIATE")


Base.metadata.create_all(engine)


@contextmanager
def group(name):
    """The transaction of a group. The sessions of its requests join it, so that their own commits are none."""
    with engine.begin() as connection:
        token = BIND.set(connection)
        try:
            yield
        finally:
            BIND.reset(token)


@app.teardown_appcontext
def remove(error):
    Session.remove()


@app.before_request
def refuse_options():
    if any(name.startswith("$") for name in request.args):
        abort(501, "no query option of OData is supported")


def text(name):
    """A member of the body, which has to be a text."""
    value = request.json.get(name) if isinstance(request.json, dict) else None
    return value if value and isinstance(value, str) else abort(400, f"{name} has to be a text")


@app.get("/odata/Books")
def books():
    return {"value": [{"Id": it.Id, "Title": it.Title} for it in Session.query(Book)]}


@app.post("/odata/Books")
def create():
    book = Book(Id=text("Id"), Title=text("Title"))
    Session.add(book)
    try:
        Session.commit()
    except IntegrityError:
        Session.rollback()
        abort(409, "the book is there")
    return book.shown(201)


@app.route("/odata/Books('<key>')", methods=["GET", "PATCH", "DELETE"])
def book(key):
    found = Session.get(Book, key) or abort(404, "no such book")
    if request.method == "GET":
        return found.shown()
    if request.headers.get("If-Match", "*") not in ("*", f'"{found.Version}"'):
        abort(412, "the book has changed")
    if request.method == "DELETE":
        Session.delete(found)
    else:
        found.Title, found.Version = text("Title"), found.Version + 1
    Session.commit()
    return "", 204


@app.errorhandler(HTTPException)
def error(raised):
    return jsonify(error={"code": raised.name, "message": raised.description}), raised.code


app.wsgi_app = BatchMiddleware(
    app.wsgi_app, "/odata/$batch", transaction=group, width=int(os.environ.get("WIDTH", "1"))
)
