"""The heap of the WebAssembly modules, natively and under the sanitizers: random calls over a memory that may not grow."""

import os

import pytest

from support.commands import run

SOURCE = os.path.join(os.path.dirname(os.path.abspath(__file__)), "wasm", "heap.c")
FLAGS = "-std=c11 -O2 -g -Wall -Wextra -Werror -fno-strict-aliasing -fsanitize=address,undefined -fno-sanitize-recover=all"


LONG = [pytest.param(1_000_000, 1, marks=pytest.mark.slow), pytest.param(10_000_000, 2, marks=pytest.mark.slow)]


@pytest.mark.parametrize("steps, seed", [(100_000, 1), *LONG])
def test_random_calls(steps, seed, tmp_path):
    run("cc", *FLAGS.split(), "-o", tmp_path / "heap", SOURCE)
    print(run(tmp_path / "heap", str(steps), str(seed)))
