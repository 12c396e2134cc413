"""How bin/odb_batch and bin/odb_library build: crates are proved side by side by the graph of crates.txt. In place of the toolchain
stands a script that notes when it begins and ends with a crate."""

import os
import re
import shutil
import subprocess

import pytest

from support.program import ROOT

pytestmark = pytest.mark.needs("make", "flock")

CRATES = """\
# low is used by left and right, which do not use each other.
low:
left: low
right: low serde_json
top: left right
odb_batch: top
"""
# Writes what `-o` names, unless the crate is in the file `broken`; `left` and `right` wait for each other to have begun.
RATTLE = """\
#!/usr/bin/env bash
words=("$@")
while [ $# -gt 0 ]; do
    case $1 in --crate-name) name=$2 ;; -o) out=$2 ;; esac
    shift
done
echo "begin $name" >>"$KIT/log"
echo "${words[*]}" >>"$KIT/words-$name"
if [ -f "$KIT/waits" ]; then
    for other in left right; do
        case $name in left | right) timeout 60 bash -c "until grep -q 'begin $other' '$KIT/log'; do sleep 0.1; done" ;; esac
    done
fi
if grep -qx "$name" "$KIT/broken"; then
    echo "src/lib.rt:1:1: no proof of $name"
    exit 1
fi
echo "end $name" >>"$KIT/log"
case $out in *.rlib) rm -rf "$out"; mkdir -p "$out"; echo made >"$out/format" ;; *) printf '#!/bin/sh\\necho "$0 $*"\\n' >"$out" ;; esac
"""
LINK = """\
#!/usr/bin/env bash
while [ "$1" != -o ]; do shift; done
cp "$3" "$2"
chmod +x "$2"
"""


@pytest.fixture
def kit(tmp_path):
    """A repository of five crates, and a toolchain of scripts; returns a function that runs bin/odb_batch there."""
    top, folder = tmp_path / "repository", tmp_path / "kit"
    shutil.copytree(os.path.join(ROOT, "bin"), top / "bin")
    (top / "crates.txt").write_text(CRATES)
    for name in re.findall(r"(?m)^(\w+):", CRATES):
        root = top / "crates" / name / "src" / ("main.rt" if name == "odb_batch" else "lib.rt")
        root.parent.mkdir(parents=True)
        root.write_text("//! A crate.\n")
    for path, text in ("bin/rattle", RATTLE), ("bin/rattle-link", LINK), ("bin/rt", '#!/bin/sh\necho "$KIT/START.md"\n'):
        (folder / path).parent.mkdir(parents=True, exist_ok=True)
        (folder / path).write_text(text)
        (folder / path).chmod(0o755)
    for name in "log", "broken":
        (folder / name).touch()
    return Kit(top, folder)


class Kit:
    def __init__(self, top, folder):
        self.top, self.folder = top, folder

    def run(self, *words):
        environment = {**os.environ, "KIT": str(self.folder), "PATH": f"{self.folder}/bin:{os.environ['PATH']}"}
        return subprocess.run([self.top / "bin/odb_batch", *words], env=environment, capture_output=True, text=True, timeout=300)

    def log(self):
        """Returns what was begun and ended since the last call."""
        lines = (self.folder / "log").read_text().splitlines()
        (self.folder / "log").write_text("")
        return lines

    def words(self, name):
        return (self.folder / f"words-{name}").read_text().splitlines()


def test_crates_are_proved_after_those_that_they_use_and_side_by_side(kit):
    (kit.folder / "waits").touch()
    ran = kit.run("check", "a.json")
    assert (ran.returncode, ran.stdout) == (0, f"{kit.top}/crates/odb_batch/out/odb_batch check a.json\n")
    log = kit.log()
    assert log[:2] == ["begin low", "end low"]
    assert set(log[2:4]) == {"begin left", "begin right"}  # neither ends before both have begun
    assert log[6:] == ["begin top", "end top", "begin odb_batch", "end odb_batch"]
    said = ran.stderr.splitlines()
    assert "odb_batch: proving low" in said
    assert any(re.fullmatch(r"odb_batch: proved low in \d+ s \(\d+ s of processors\)", line) for line in said)


def test_what_is_current_is_not_proved_again(kit):
    kit.run()
    kit.log()
    assert kit.run().stderr == "" and kit.log() == []
    (kit.top / "crates/left/src/lib.rt").touch()
    assert kit.run().returncode == 0
    assert [line for line in kit.log() if line.startswith("begin")] == ["begin left", "begin top", "begin odb_batch"]


def test_a_crate_that_is_not_proved_lets_the_others_end_and_is_named_last(kit):
    (kit.folder / "broken").write_text("left\n")
    ran = kit.run()
    assert (ran.returncode, ran.stdout) == (70, "")
    assert ran.stderr.splitlines()[-2:] == [
        "src/lib.rt:1:1: no proof of left",
        "odb_batch: left was not proved, so nothing was built",
    ]
    log = kit.log()
    assert "end right" in log and "begin top" not in log
    (kit.folder / "broken").write_text("")
    assert kit.run().returncode == 0
    assert [line for line in kit.log() if line.startswith("begin")] == ["begin left", "begin top", "begin odb_batch"]


def test_kept_work_is_used_and_else_statements_are_made(kit):
    (kit.top / "crates/left/out/incremental").mkdir(parents=True)
    kit.run()
    assert "--statements" in kit.words("right")[0] and "--incremental" not in kit.words("right")[0]
    assert "--incremental out/incremental" in kit.words("left")[0] and "--statements" not in kit.words("left")[0]
    assert "--extern serde_json=" in kit.words("right")[0]


def test_what_the_next_crate_waits_for_has_the_processors_that_its_neighbours_leave(kit):
    (kit.top / "crates.txt").write_text("low:\nleft: low\nright: low\ntop: left\nodb_batch: top right\n")
    (kit.folder / "bin/nproc").write_text("#!/bin/sh\necho 4\n")
    (kit.folder / "bin/nproc").chmod(0o755)
    assert kit.run().returncode == 0
    jobs = {name: re.findall(r"--jobs (\d+)", kit.words(name)[0]) for name in ("low", "left", "right", "top")}
    assert jobs == {"low": ["4"], "left": ["3"], "right": ["1"], "top": ["4"]}


def test_without_proofs_files_are_copied_and_the_status_is_the_program_s(kit, tmp_path):
    script = '#!/bin/sh\n[ "$1" = doc ] || { echo "$*"; echo "error: said" >&2; echo "runners=1 proved=no" >&2; exit 3; }\n'
    (kit.folder / "bin/rt").write_text(script)
    first, second = tmp_path / "a.json", tmp_path / "b" / "a.json"
    second.parent.mkdir()
    for path in first, second:
        path.write_text("{}")
    ran = kit.run("--unproved", "match", str(first), str(second), "--json")
    assert ran.returncode == 3
    assert ran.stdout == f"try --data a.json={first} --data _a.json={second} -- match a.json _a.json --json\n"
    assert ran.stderr.splitlines()[1:] == ["error: said"]
    assert kit.log() == []
