"""Books in FastAPI and sqlite3, with batches: `uvicorn fastapi_app:app`."""

import asyncio
import os
import sqlite3
from contextlib import asynccontextmanager, closing, contextmanager
from contextvars import ContextVar
from urllib.parse import quote

from fastapi import Depends, FastAPI, Header, HTTPException, Request, Response
from fastapi.responses import JSONResponse
from pydantic import BaseModel

from odb_batch.asgi import BatchMiddleware

PATH = os.environ.get("BOOKS", "books.sqlite")
GROUP = ContextVar("group", default=None)  # the connection of the group


async def refuse_options(request: Request):
    if any(name.startswith("$") for name in request.query_params):
        raise HTTPException(501, "no query option of OData is supported")


class Change(BaseModel):
    Title: str


class Book(Change):
    Id: str


app = FastAPI(dependencies=[Depends(refuse_options)])


def connect():
    return closing(sqlite3.connect(PATH, timeout=10, isolation_level=None, check_same_thread=False))


with connect() as db:
    db.execute("PRAGMA journal_mode = WAL")
    db.execute("CREATE TABLE IF NOT EXISTS Books (Id TEXT PRIMARY KEY, Title TEXT NOT NULL, Version INTEGER)")


@contextmanager
def transaction(begin="BEGIN IMMEDIATE"):
    """The transaction of a request: that of its group, or else one of its own."""
    if GROUP.get() is not None:
        yield GROUP.get()
        return
    with connect() as db, db:
        db.execute(begin)
        yield db


turn = asyncio.Lock()


@asynccontextmanager
async def group(name):
    """The transaction of a group. Nothing in it blocks the loop, in which the requests of the group are dispatched."""
    loop = asyncio.get_running_loop()
    async with turn:
        with connect() as db:
            await loop.run_in_executor(None, db.execute, "BEGIN IMMEDIATE")
            token = GROUP.set(db)
            try:
                yield
                await loop.run_in_executor(None, db.commit)
            finally:
                GROUP.reset(token)


def shown(row, status=200):
    tag, place = f'"{row[2]}"', f"/odata/Books('{quote(row[0])}')"
    return JSONResponse({"Id": row[0], "Title": row[1]}, status, {"ETag": tag, "Location": place})


def found(db, key, tag="*"):
    row = db.execute("SELECT Id, Title, Version FROM Books WHERE Id = ?", (key,)).fetchone()
    if row is None:
        raise HTTPException(404, "no such book")
    if tag not in ("*", f'"{row[2]}"'):
        raise HTTPException(412, "the book has changed")
    return row


@app.get("/odata/Books")
def books():
    with transaction("BEGIN") as db:
        return {"value": [{"Id": id, "Title": title} for id, title in db.execute("SELECT Id, Title FROM Books")]}


@app.post("/odata/Books")
def create(book: Book):
    row = book.Id, book.Title, 1
    with transaction() as db:
        if db.execute("INSERT INTO Books VALUES (?, ?, ?) ON CONFLICT DO NOTHING", row).rowcount == 0:
            raise HTTPException(409, "the book is there")
    return shown(row, 201)


@app.get("/odata/Books('{key}')")
def read(key: str):
    with transaction("BEGIN") as db:
        return shown(found(db, key))


@app.patch("/odata/Books('{key}')")
def change(key: str, book: Change, if_match: str = Header("*")):
    with transaction() as db:
        found(db, key, if_match)
        db.execute("UPDATE Books SET Title = ?, Version = Version + 1 WHERE Id = ?", (book.Title, key))
    return Response(status_code=204)


@app.delete("/odata/Books('{key}')")
def delete(key: str, if_match: str = Header("*")):
    with transaction() as db:
        found(db, key, if_match)
        db.execute("DELETE FROM Books WHERE Id = ?", (key,))
    return Response(status_code=204)


@app.exception_handler(HTTPException)
async def error(request, raised):
    return JSONResponse({"error": {"code": str(raised.status_code), "message": raised.detail}}, raised.status_code)


app.add_middleware(BatchMiddleware, path="/odata/$batch", transaction=group, width=int(os.environ.get("WIDTH", "8")))
