"""How gunicorn serves the library: `LIBRARY=FILE gunicorn --config examples/service/gunicorn.conf.py`."""

import logging
import os
import socket
from typing import Any, Tuple

from gunicorn.workers.gthread import ThreadWorker

logging.basicConfig(level=logging.INFO, format="%(asctime)s %(message)s")

# For how many seconds a client may send nothing in the middle of a request, or take an answer.
PATIENCE = float(os.environ.get("PATIENCE", "20"))
# For how many seconds a connection waits for its next request.
keepalive = 5


class Worker(ThreadWorker):  # type: ignore[misc]
    """Threads that do not wait for ever for a client."""

    def handle(self, connection: Any) -> Tuple[bool, Any]:
        try:
            connection.sock.settimeout(min(keepalive, PATIENCE))
            connection.sock.recv(1, socket.MSG_PEEK)
        except OSError:
            return False, connection  # so it is closed
        connection.sock.settimeout(PATIENCE)
        handled: Tuple[bool, Any] = super().handle(connection)
        return handled


bind = "127.0.0.1:8080"
chdir = os.path.dirname(os.path.abspath(__file__))
wsgi_app = f"app:make_app({os.path.abspath(os.environ.get('LIBRARY', 'library.sqlite'))!r})"
# The database is made before the workers are.
preload_app = True
worker_class = "__config__.Worker"
# A batch has a thread, and so has each client that sends or takes something at the moment.
workers, threads = 2, 32
# For how many seconds SIGTERM waits for the batches that are out.
graceful_timeout = 60
# A worker whose threads all work still reports in time, so a batch may take longer than this.
timeout = 30
limit_request_line, limit_request_fields, limit_request_field_size = 8190, 100, 8190
# A line for each answer, on standard output; the service logs each request that it performs, also those of batches.
accesslog = "-"


def post_worker_init(worker: Any) -> None:
    worker.log.info("Worker %d answers", worker.pid)
