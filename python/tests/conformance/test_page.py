"""What docs/conformance.md shows is what the tool prints. `PYTHONPATH=tests:examples/service/tests:python python3
python/tests/conformance/test_page.py --write` puts it into the page, over the library that ODB_BATCH_LIBRARY names.
"""

import os
import re
import subprocess
import sys

import pytest

from support.commands import with_package
from support.program import ROOT
from tool import service

PAGE = os.path.join(ROOT, "docs", "conformance.md")
BLOCK = re.compile("```console\n(.*?)```", re.DOTALL)
# The defects of the service to which the commands of each block are sent.
DEFECTS = (None, "half_group")


def printed(commands, defect):
    """The commands, each with what it prints; the address of the page is that of the service."""
    lines = []
    with service(defect) as (running, folder):
        for command in commands:
            words = command.replace("http://localhost:8080/library/", running.url)
            done = subprocess.run(
                ["bash", "-c", words],
                cwd=folder, env=with_package(), stdout=subprocess.PIPE, stderr=subprocess.STDOUT, text=True,
            )  # fmt: skip
            lines += [f"$ {command}", *done.stdout.splitlines()]
    return "\n".join(lines) + "\n"


def page():
    with open(PAGE, encoding="utf-8") as file:
        return file.read()


def page_as_printed():
    """The page with what its commands print."""
    defects = iter(DEFECTS)

    def block(found):
        commands = [line[2:] for line in found[1].splitlines() if line.startswith("$ ")]
        return f"```console\n{printed(commands, next(defects))}```"

    return BLOCK.sub(block, page())


@pytest.mark.slow
def test_the_commands_print_what_the_page_shows():
    assert len(BLOCK.findall(page())) == len(DEFECTS)
    assert page() == page_as_printed()


if __name__ == "__main__" and sys.argv[1:] == ["--write"]:
    text = page_as_printed()
    with open(PAGE, "w", encoding="utf-8") as file:
        file.write(text)
