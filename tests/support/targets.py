"""The other systems for which the library and the program are built, and how their programs run on this one."""

import contextlib
import os
import subprocess
from dataclasses import dataclass

from . import pages
from .program import ROOT, older_than

# What wine needs of the folder that it keeps its files in, beside its own libraries: no copies of those, a disk, and that
# nobody brings it up to date, which takes 20 seconds and 700 MB.
DISK = "drive_c/windows/system32"
NO_UPDATE = ".update-timestamp"
SECONDS = 300
WINE = {"WINEDEBUG": "-all", "WINEBOOTSTRAPMODE": "1", "LC_ALL": "C.UTF-8"}


@dataclass(frozen=True)
class Target:
    """A system: its name, its C compiler, what runs its programs, and the names of what is built for it."""

    name: str
    compiler: tuple
    runner: tuple
    shared: str
    program: str

    @property
    def folder(self):
        return os.path.join(ROOT, "dist", self.name)

    @property
    def tools(self):
        return self.compiler[0], self.runner[0]

    def unbuilt(self, tool):
        """Why what a tool builds for it cannot be tested, in a line; or nothing."""
        name, top = (self.shared, "odb_ffi") if tool == "odb_library" else (self.program, "odb_batch")
        path = os.path.join(self.folder, name)
        if not os.path.exists(path):
            return f"dist/{self.name} has no {name}: bin/{tool} --target {self.name} dist/{self.name}"
        older = older_than(path, top)
        return older and f"{name} {older}"


TARGETS = {
    it.name: it
    for it in (
        Target(
            "aarch64-linux",
            ("aarch64-linux-gnu-gcc",),
            ("qemu-aarch64", "-L", "/usr/aarch64-linux-gnu"),
            "libodb_batch.so.0",
            "odb_batch",
        ),
        Target(
            "x86_64-windows",
            ("x86_64-w64-mingw32-gcc", "-D__USE_MINGW_ANSI_STDIO=1"),
            ("wine",),
            "odb_batch.dll",
            "odb_batch.exe",
        ),
    )
}


def make_prefix(folder):
    """Makes what wine starts from in a folder; returns its variables."""
    folder = os.path.join(folder, "wine")
    os.makedirs(os.path.join(folder, DISK))
    os.makedirs(os.path.join(folder, "dosdevices"))
    for name, path in (("c:", "../drive_c"), ("z:", "/")):
        os.symlink(path, os.path.join(folder, "dosdevices", name))
    with open(os.path.join(folder, NO_UPDATE), "w", encoding="ascii") as file:
        file.write("disable\n")
    return {"WINEPREFIX": folder, **WINE}


@contextlib.contextmanager
def running(target, folder):
    """The variables of programs of a system. Wine keeps its files in a folder, and its server ends with them.

    The server, and the services that the first program starts, would end a second after each program, and hold its pipes till
    then. So they are started before, and stay."""
    if target.runner[0] != "wine":
        yield dict(os.environ)
        return
    variables = {**os.environ, **make_prefix(str(folder))}
    silent = {it: subprocess.DEVNULL for it in ("stdin", "stdout", "stderr")}
    try:
        for words in (["wineserver", "--persistent"], ["wine", "none.exe"]):  # no program has to be there for that
            subprocess.run(words, env=variables, check=False, timeout=SECONDS, **silent)
        yield variables
    finally:
        subprocess.run(["wineserver", "--kill"], env=variables, check=False, **silent)


def is_portable(run):
    """Whether a case needs what each system has: no device, no folder, no argument that is no text, and no error of POSIX."""
    if run.source or run.to or run.closed or run.memory or run.terminal or run.folders:
        return False
    if "nul" in run.documents or any("Not a directory" in it for it in run.errors):
        return False  # a device of Windows, and an error that it does not have
    return all(is_text(it) and not it.startswith(b"/dev/") for it in run.arguments)


def is_text(argument):
    try:
        argument.decode()
    except UnicodeDecodeError:
        return False
    return True


def portable_cases(folder):
    return [it for it in pages.read_folder(folder) if is_portable(it)]
