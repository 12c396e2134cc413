"""A PostgreSQL of the tests' own, in memory."""

import contextlib
import glob
import os
import pwd
import secrets
import shutil
import subprocess

import pytest

from .servers import SECONDS, folder_for_databases, free_port

CONFIGURATION = """
listen_addresses = '127.0.0.1'
port = {port}
unix_socket_directories = ''
shared_buffers = 32MB
max_wal_size = 256MB
max_connections = 200
{more}
"""


def programs():
    """The folder of the programs of the newest PostgreSQL; None if there is none."""
    found = sorted(glob.glob("/usr/lib/postgresql/*/bin/initdb")) or [shutil.which("initdb")]
    return os.path.dirname(found[-1]) if found[-1] else None


def _user():
    """The words before a command that may not run as root, as PostgreSQL; None if there is no user for that."""
    if os.getuid():
        return []
    with contextlib.suppress(KeyError):
        pwd.getpwnam("postgres")
        if shutil.which("setpriv"):
            return ["setpriv", "--reuid=postgres", "--regid=postgres", "--clear-groups"]
    return None


def skip_without_postgresql():
    pytest.importorskip("asyncpg", reason="asyncpg is not installed")
    if programs() is None or _user() is None:
        pytest.skip("postgresql is not installed")


class Postgresql:
    """A server of PostgreSQL, which is removed at the end.

    Args:
        more: Further lines of its configuration.
        folder: Where its files are, else in memory.
    """

    def __init__(self, more="", folder=None):
        self.folder, self._programs = folder or folder_for_databases(), programs()
        self.port = free_port()
        if not os.getuid():
            shutil.chown(self.folder, "postgres", "postgres")
        self.data = os.path.join(self.folder, "data")
        self._run("initdb", "-D", self.data, "-U", "odb", "--auth=trust", "-E", "UTF8", "--locale=C", "--no-sync")
        with open(os.path.join(self.data, "postgresql.conf"), "a", encoding="utf-8") as file:
            file.write(CONFIGURATION.format(port=self.port, more=more))
        self.start()

    def _run(self, name, *words):
        command = [*_user(), "env", "HOME=/tmp", os.path.join(self._programs, name), *words]
        done = subprocess.run(command, cwd="/", stdout=subprocess.PIPE, stderr=subprocess.STDOUT, text=True, timeout=SECONDS)
        assert done.returncode == 0, done.stdout

    def _control(self, *words):
        self._run("pg_ctl", "-D", self.data, "-w", "-l", os.path.join(self.data, "log"), *words)

    def start(self):
        self._control("start")

    def stop(self, mode="fast"):
        self._control("stop", "-m", mode)

    def restart(self, mode="fast"):
        self._control("restart", "-m", mode)

    def url(self, schema, port=None, user="odb"):
        """The URL of a schema, which is a journal of its own."""
        options = f"options=-csearch_path%3D{schema}"
        return f"postgresql://{user}@127.0.0.1:{port or self.port}/postgres?{options}"

    def ask(self, words, schema="public"):
        """Runs statements; returns the rows of the last one as lines."""
        command = [os.path.join(self._programs, "psql"), "-qAtX", "-v", "ON_ERROR_STOP=1", self.url(schema), "-c", words]
        done = subprocess.run(command, stdout=subprocess.PIPE, stderr=subprocess.STDOUT, text=True, timeout=SECONDS)
        assert done.returncode == 0, done.stdout
        return done.stdout.splitlines()

    def schema(self):
        """Makes a schema; returns its name."""
        name = f"s{secrets.token_hex(6)}"
        self.ask(f"CREATE SCHEMA {name}")
        return name

    def end(self):
        with contextlib.suppress(AssertionError):
            self.stop("immediate")
        shutil.rmtree(self.folder, ignore_errors=True)

