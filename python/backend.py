"""Builds the wheel of odb_batch by the standard library alone (PEP 517 and 660).

If the library, under its name on Linux, Windows or macOS, is beside the package's modules, it goes into the wheel, which
is then one for this system, or for the one that the setting `plat-name` names; else the library is found as the package says.
So does the page that bin/odb_page writes, if it is there.
The same files give the same bytes: all have the time SOURCE_DATE_EPOCH, or the first that a wheel can have.
"""

import base64
import hashlib
import os
import re
import sysconfig
import tarfile
import time
import zipfile

HERE = os.path.dirname(os.path.abspath(__file__))
PACKAGE = os.path.join(HERE, "odb_batch")
LIBRARIES = ("libodb_batch.so.0", "odb_batch.dll", "libodb_batch.dylib")
PAGE = "odb_batch.html"
NAME = "odb_batch"
FIRST_TIME = 315532800  # 1980-01-01, in seconds since 1970


def _setting(key):
    with open(os.path.join(HERE, "pyproject.toml"), encoding="utf-8") as file:
        return re.search(rf'(?m)^{key} = "(.*)"$', file.read())[1]


def _extras():
    """The extras, each with the distributions that it needs."""
    with open(os.path.join(HERE, "pyproject.toml"), encoding="utf-8") as file:
        table = file.read().partition("[project.optional-dependencies]\n")[2].partition("\n[")[0]
    return [(extra, re.findall('"(.*?)"', needed)) for extra, needed in re.findall(r"(?m)^(\w+) = \[(.*)\]$", table)]


def _files():
    """The files of the package, by their paths in a wheel."""
    places = (os.path.join(folder, name) for folder, _, names in os.walk(PACKAGE) for name in names)
    found = sorted(it for it in places if it.endswith((".py", ".json")) or os.path.basename(it) in ("py.typed", PAGE, *LIBRARIES))
    return {os.path.relpath(it, HERE).replace(os.sep, "/"): it for it in found}


def _tag(settings):
    if not any(os.path.exists(os.path.join(PACKAGE, it)) for it in LIBRARIES):
        return "py3-none-any"
    system = (settings or {}).get("plat-name") or re.sub(r"[-.]", "_", sysconfig.get_platform())
    return f"py3-none-{system}"


def _metadata():
    with open(os.path.join(HERE, _setting("readme")), encoding="utf-8") as file:
        page = file.read()
    lines = [
        "Metadata-Version: 2.1",
        f"Name: {_setting('name')}",
        f"Version: {_setting('version')}",
        f"Summary: {_setting('description')}",
        f"License: {_setting('license.text')}",
        f"Requires-Python: {_setting('requires-python')}",
        "Description-Content-Type: text/markdown",
    ]
    for extra, needed in _extras():
        lines += [f"Provides-Extra: {extra}", *(f'Requires-Dist: {each}; extra == "{extra}"' for each in needed)]
    return "\n".join(lines) + "\n\n" + page


def _about_wheel(tag):
    """What a wheel says of itself: a line for each tag, of which its name has all in one."""
    python, abi, systems = tag.split("-")
    is_pure = "true" if systems == "any" else "false"
    tags = "".join(f"Tag: {python}-{abi}-{system}\n" for system in systems.split("."))
    return f"Wheel-Version: 1.0\nGenerator: odb_batch\nRoot-Is-Purelib: {is_pure}\n{tags}"


def _member(path):
    """A file of a wheel, without what the clock and the folder would say of it."""
    seconds = int(os.environ.get("SOURCE_DATE_EPOCH", FIRST_TIME))
    member = zipfile.ZipInfo(path, time.gmtime(max(seconds, FIRST_TIME))[:6])
    member.compress_type = zipfile.ZIP_DEFLATED
    member.external_attr = 0o100644 << 16
    return member


def _build(folder, tag, files):
    """Writes a wheel of these files, by their paths, and returns its name."""
    about = f"{NAME}-{_setting('version')}.dist-info"
    files[f"{about}/METADATA"] = _metadata().encode()
    files[f"{about}/WHEEL"] = _about_wheel(tag).encode()
    rows = []
    for path, data in files.items():
        digest = base64.urlsafe_b64encode(hashlib.sha256(data).digest()).rstrip(b"=").decode()
        rows.append(f"{path},sha256={digest},{len(data)}\n")
    files[f"{about}/RECORD"] = ("".join(rows) + f"{about}/RECORD,,\n").encode()
    name = f"{NAME}-{_setting('version')}-{tag}.whl"
    with zipfile.ZipFile(os.path.join(folder, name), "w") as wheel:
        for path, data in files.items():
            wheel.writestr(_member(path), data)
    return name


def _read(path):
    with open(path, "rb") as file:
        return file.read()


def build_wheel(wheel_directory, config_settings=None, metadata_directory=None):
    files = {path: _read(place) for path, place in _files().items()}
    return _build(wheel_directory, _tag(config_settings), files)


def build_editable(wheel_directory, config_settings=None, metadata_directory=None):
    return _build(wheel_directory, "py3-none-any", {f"{NAME}.pth": HERE.encode() + b"\n"})


def build_sdist(sdist_directory, config_settings=None):
    top = f"{NAME}-{_setting('version')}"
    with tarfile.open(os.path.join(sdist_directory, top + ".tar.gz"), "w:gz") as archive:
        for name in ("pyproject.toml", "backend.py", "README.md"):
            archive.add(os.path.join(HERE, name), f"{top}/{name}")
        for path, place in _files().items():
            archive.add(place, f"{top}/{path}")
    return top + ".tar.gz"
