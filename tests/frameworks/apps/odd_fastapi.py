"""Answers of every kind in FastAPI, with a dependency that commits after the answer, and middleware of Starlette's
own.
"""

import asyncio
import logging
import os

from fastapi import BackgroundTasks, Depends, FastAPI, Request, Response
from fastapi.responses import FileResponse, StreamingResponse
from starlette.middleware.base import BaseHTTPMiddleware

from odb_batch.asgi import BatchMiddleware

app = FastAPI()
committed = []
# The requests that wait for a release, those that were released, and what the package has logged.
held, done, lines = [], [], []


class Lines(logging.Handler):
    def emit(self, record):
        lines.append(record.getMessage())


logging.getLogger("odb_batch").addHandler(Lines())
logging.getLogger("odb_batch").setLevel(logging.INFO)


async def unit_of_work():
    yield
    await asyncio.sleep(0.02)
    committed.append(1)


@app.api_route("/odata/echo", methods=["GET", "POST"])
async def echo(request: Request):
    return {"headers": dict(request.headers), "url": str(request.url), "body": (await request.body()).decode()}


@app.get("/odata/binary")
async def binary():
    return Response(bytes(range(256)), media_type="image/png")


@app.get("/odata/text")
async def text():
    return Response("Grüße".encode("latin-1"), media_type="text/plain; charset=iso-8859-1")


@app.get("/odata/stream")
async def stream():
    async def parts():
        for k in range(3):
            yield f"part {k}\n"
            await asyncio.sleep(0.01)

    return StreamingResponse(parts(), media_type="text/plain")


@app.get("/odata/events")
async def events():
    async def parts():
        while True:
            yield b"data: now\n\n" * 10_000

    return StreamingResponse(parts(), media_type="text/event-stream")


@app.delete("/odata/held/{name}")
async def hold(name):
    held.append(name)
    while "release" not in held:
        await asyncio.sleep(0.01)
    done.append(name)


@app.get("/odata/held")
async def shown():
    return {"held": held, "done": done, "lines": lines}


@app.get("/odata/file")
async def file():
    return FileResponse(os.path.abspath(__file__), media_type="text/plain")


@app.get("/odata/fail")
async def fail():
    raise RuntimeError("as planned")


@app.get("/odata/slow")
async def slow():
    await asyncio.sleep(30)


@app.post("/odata/work")
def work(unit=Depends(unit_of_work)):
    return {"committed": len(committed)}


@app.post("/odata/later")
def later(tasks: BackgroundTasks):
    tasks.add_task(committed.append, 1)
    return {"committed": len(committed)}


async def passes(request, call_next):
    return await call_next(request)


app.add_middleware(BaseHTTPMiddleware, dispatch=passes)
app.add_middleware(BatchMiddleware, path="/odata/$batch", timeout=3)
