"""nginx in front of what listens on the loopback."""

import contextlib
import os
import subprocess
import time

import pytest

from .servers import SECONDS, Asked


@contextlib.contextmanager
def nginx(blocks, folder, port):
    """nginx with some blocks of its configuration, which listens at a port."""
    paths = "".join(f"{name}_temp_path {folder}/{name};" for name in ("client_body", "proxy", "fastcgi", "uwsgi", "scgi"))
    http = f"http {{ access_log off; {paths} {blocks} }}"
    user = "user root;" if os.geteuid() == 0 else ""  # else its workers could not write a long body there
    (folder / "nginx.conf").write_text(f"daemon off; {user} pid {folder}/pid; events {{}} {http}")
    words = ["nginx", "-c", str(folder / "nginx.conf"), "-p", str(folder), "-e", str(folder / "log")]
    subprocess.run([*words, "-t", "-q"], check=True)
    with subprocess.Popen(words) as process:
        try:
            front = Asked()
            front.port = int(port)
            wait_for(front, process, folder / "log")
            yield front
        finally:
            process.terminate()


def wait_for(front, process, log):
    """Waits until nginx answers; fails with its log if it has ended."""
    end = time.monotonic() + SECONDS
    while time.monotonic() < end and process.poll() is None:
        with contextlib.suppress(OSError):
            return front.ask("GET", "/odata/ready")
        time.sleep(0.02)
    pytest.fail(f"nginx does not listen: {log.read_text()}")
