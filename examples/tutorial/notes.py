"""Notes in memory, with batches: `python3 examples/tutorial/notes.py` serves them on port 8080."""

from contextlib import contextmanager
from itertools import count
from threading import RLock

from flask import Flask, abort, request

from odb_batch.wsgi import BatchMiddleware

app = Flask(__name__)
notes, numbers, lock = {}, count(1), RLock()


@contextmanager
def group(name):
    """The transaction of a group: it has the notes alone, and an exception brings back what was there before."""
    with lock:
        before = dict(notes)
        try:
            yield
        except BaseException:
            notes.clear()
            notes.update(before)
            raise


@app.get("/Notes")
def listed():
    with lock:
        return {"value": list(notes.values())}


@app.post("/Notes")
def create():
    note = request.get_json()
    with lock:
        if note.setdefault("Id", str(next(numbers))) in notes:
            abort(409)
        notes[note["Id"]] = note
    return note, 201, {"Location": f"/Notes('{note['Id']}')"}


@app.route("/Notes('<key>')", methods=["GET", "PATCH", "DELETE"])
def one(key):
    with lock:
        if key not in notes:
            abort(404)
        if request.method == "GET":
            return notes[key]
        if request.method == "PATCH":
            notes[key] = {**notes[key], **request.get_json()}
        else:
            del notes[key]
    return "", 204


app.wsgi_app = BatchMiddleware(app.wsgi_app, "/$batch", transaction=group)

if __name__ == "__main__":
    app.run(port=8080)
