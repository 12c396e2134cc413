"""The archive of a release as its users have it: unpacked in an empty folder, with an empty environment, and by another
user if this one is root. Of the archives for other systems, what is in them, and that their programs and wheels are right.
"""

import fcntl
import hashlib
import json
import os
import pwd
import re
import shutil
import subprocess
import sys
import tarfile
import tempfile
import time
import zipfile
from contextlib import contextmanager
from pathlib import Path

import pytest

import declarations
from support import targets
from support.commands import run
from support.embedding import IN_NODE, IN_PYTHON, ONE, STRICT, block, check_in
from support.language_pages import GO_PRINTS, JAVA_PRINTS, LENT, serving, write_go
from support.markdown import blocks, text_of
from support.program import ROOT

VERSION = text_of("VERSION").strip()
TOP = f"odb_batch-{VERSION}-linux-x86_64"
ARCHIVE = f"{TOP}.tar.gz"

# The archives for other systems, each with what runs its program, and the tag of its wheel.
OTHERS = {
    f"odb_batch-{VERSION}-linux-aarch64.tar.gz": ("aarch64-linux", "manylinux_2_17_aarch64.manylinux2014_aarch64"),
    f"odb_batch-{VERSION}-windows-x86_64.zip": ("x86_64-windows", "win_amd64"),
}
MACOS = f"odb_batch-{VERSION}-macos.tar.gz"
DOCS = "share/doc/odb_batch"
SHARED = "lib/libodb_batch.so.0"
LARGEST = 5_000_000
UNLICENSED = "No licence has been granted yet"
LIMIT = 300  # seconds of a command, but for a build, which may have to prove
BUILD_LIMIT = 3600
TOOLS = "/usr/local/bin:/usr/bin:/bin"

# What a program of this archive may load: the kernel's own, the loader, and the C library.
LOADED = r"\s*(linux-vdso\.so\.1|\S*/ld-linux-x86-64\.so\.2|libc\.so\.6) .*|\s*statically linked|\S+:"

pytestmark = pytest.mark.slow


def user():
    """The user who unpacks the archive: nobody, if this user is root; else this one."""
    if os.geteuid() != 0:
        return {}
    nobody = pwd.getpwnam("nobody")
    return {"user": nobody.pw_uid, "group": nobody.pw_gid, "extra_groups": []}


def build(folder, **variables):
    """Makes the archive in a folder, and returns its path."""
    run(f"{ROOT}/bin/release", folder, env={**os.environ, **variables}, timeout=BUILD_LIMIT)
    return folder / ARCHIVE


@pytest.fixture(scope="session")
def archive(tmp_path_factory):
    """The path of the archive, which the first process of this run makes."""
    base = tmp_path_factory.getbasetemp()
    folder = (base.parent if "PYTEST_XDIST_WORKER" in os.environ else base) / "release"
    folder.mkdir(exist_ok=True)
    with open(folder / "lock", "wb") as lock:
        fcntl.flock(lock, fcntl.LOCK_EX)
        return folder / ARCHIVE if (folder / ARCHIVE).exists() else build(folder)


def made(archive, name):
    """The path of another file of the release; skips the test where its tools are missing."""
    if not archive.with_name(name).exists():
        pytest.skip(f"the compiler for {name} is not installed")
    return archive.with_name(name)


class Unpacked:
    """The unpacked archive, and the folder in which its user works."""

    def __init__(self, archive, folder):
        self.home, self.work = folder / "home", folder / "work"
        for it in (self.home, self.work):
            it.mkdir()
            if user():
                os.chown(it, user()["user"], user()["group"])
        self.top, self.docs = self.home / TOP, self.home / TOP / DOCS
        self.run("tar", "xf", shutil.copy(archive, self.work), cwd=self.home)

    def run(self, *words, wanted=None, cwd=None, **variables):
        """What a command prints that the user runs, with these variables alone; and a path, if it is given by name."""
        if "/" not in str(words[0]):
            variables.setdefault("PATH", TOOLS)
        more = {"stderr": subprocess.STDOUT, "timeout": LIMIT, **user()}
        return run(*words, wanted=wanted, cwd=cwd or self.work, env=variables, **more)

    def write(self, name, text):
        (self.work / name).write_text(text, encoding="utf-8")
        return self.work / name

    def page(self, name):
        return (self.docs / name).read_text(encoding="utf-8")

    def pages(self):
        """The pages, each with its path from the folder that has them."""
        return [(it.relative_to(self.docs), self.page(it)) for it in self.docs.rglob("*.md")]

    def package(self, kind):
        """The package for Python or for Node; skips the test if there is none."""
        if not (self.top / kind).exists():
            pytest.skip("node_api.h is not installed")
        (found,) = (self.top / kind).iterdir()
        return found


@pytest.fixture(scope="module", autouse=True)
def readable():
    """What is written here may be read by the user."""
    before = os.umask(0o022)
    yield
    os.umask(before)


@contextmanager
def unpacking(archive):
    """The unpacked archive, in a folder of its own: those of pytest are closed to other users."""
    with tempfile.TemporaryDirectory(prefix="release-test-") as folder:
        os.chmod(folder, 0o755)
        yield Unpacked(archive, Path(folder))


@pytest.fixture(scope="module")
def unpacked(archive):
    with unpacking(archive) as found:
        yield found


def makes_environments(python):
    """Whether the user may run a Python, and it has what an environment is made with."""
    try:
        words = [python, "-c", "import ensurepip, venv"]
        return subprocess.run(words, env={}, capture_output=True, timeout=LIMIT, **user()).returncode == 0
    except OSError:
        return False


@pytest.fixture(scope="module")
def python(unpacked):
    """The Python of a fresh environment, in which the wheel is installed without a network."""
    found = filter(None, (sys.executable, shutil.which("python3", path=TOOLS)))
    first = next(filter(makes_environments, found), None)
    if first is None:
        pytest.skip("a python3 with venv that the user may run is not installed")
    unpacked.run(first, "-m", "venv", "venv", PATH=TOOLS)
    inside = unpacked.work / "venv" / "bin" / "python"
    pip = ["-m", "pip", "install", "-q", "--no-index", "--no-cache-dir", "--disable-pip-version-check"]
    unpacked.run(inside, *pip, unpacked.package("python"))
    return inside


def sums_of(folder):
    """The checksums of the files of a release, by their names."""
    names = sorted(set(os.listdir(folder)) - {"SHA256SUMS", "lock"})
    return {name: hashlib.sha256((folder / name).read_bytes()).hexdigest() for name in names}


def test_its_files_have_checksums_and_are_small(archive):
    found = sums_of(archive.parent)
    assert (archive.parent / "SHA256SUMS").read_text() == "".join(f"{it}  {name}\n" for name, it in found.items())
    for name in found:
        size = (archive.parent / name).stat().st_size
        print(f"{name}: {size:,} bytes")
        assert size < LARGEST


def test_two_builds_are_the_same(archive, tmp_path):
    """Builds again in another time zone, by another mode of files: the same bytes."""
    before = os.umask(0o077)
    try:
        build(tmp_path / "again", TZ="Asia/Tokyo", LC_ALL="C", TMPDIR=str(tmp_path))
    finally:
        os.umask(before)
    assert sums_of(tmp_path / "again") == sums_of(archive.parent)


@pytest.mark.parametrize("name", [ARCHIVE, f"odb_batch-{VERSION}-linux-aarch64.tar.gz", MACOS])
def test_its_members(name, archive):
    """Members are sorted, with one owner and the time of the commit, and name no folder of this machine."""
    moment = int(run("git", "-C", ROOT, "log", "-1", "--format=%ct"))
    with tarfile.open(made(archive, name)) as file:
        found = file.getmembers()
        names = [it.name for it in found]
        assert names == sorted(names) and names[0] == name.removesuffix(".tar.gz")
        assert {(it.mtime, it.uid, it.gid) for it in found} == {(moment, 0, 0)}
        for it in filter(tarfile.TarInfo.isfile, found):
            assert it.mode == (0o755 if "/bin/" in it.name else 0o644), it.name
            data = file.extractfile(it).read()
            for path in (os.path.join(ROOT, "crates"), os.path.join(tempfile.gettempdir(), "release-")):
                assert path.encode() not in data, it.name


def test_it_unpacks_to_one_folder_and_is_deleted_with_it(archive):
    with unpacking(archive) as found:
        assert os.listdir(found.home) == [TOP]
        found.run("rm", "-r", found.top)
        assert os.listdir(found.home) == []


def unpack(path, folder):
    """Unpacks an archive; returns the folder that it has."""
    shutil.unpack_archive(path, folder)
    (found,) = folder.iterdir()
    assert path.name.startswith(f"{found.name}.")
    return found


@pytest.mark.parametrize("name", OTHERS)
def test_an_archive_for_another_system(name, archive, need, tmp_path):
    """Its program runs, its wheel has its library and its tag and is a file of the release, too, and its page says how it was run."""
    kind, tag = OTHERS[name]
    target = targets.TARGETS[kind]
    need(target.runner[0])
    top = unpack(made(archive, name), tmp_path / "unpacked")
    (wheel,) = (top / "python").iterdir()
    assert wheel.name.endswith(f"-py3-none-{tag}.whl")
    assert wheel.read_bytes() == archive.with_name(wheel.name).read_bytes()
    with zipfile.ZipFile(wheel) as package:
        assert package.read(f"odb_batch/{target.shared}") == (top / "lib" / target.shared).read_bytes()
    assert "were run under" in (top / DOCS / "PROVED.md").read_text()
    words = [*target.runner, top / "bin" / target.program, "check", top / DOCS / "examples/batch_usual.json"]
    with targets.running(target, tmp_path) as variables:
        run(*words, env=variables, wanted="ok 4 requests 1 groups\n")


def test_the_archive_for_macos(archive, tmp_path):
    top = unpack(made(archive, MACOS), tmp_path)
    assert sorted(os.listdir(top / "lib")) == ["allocator.c", "odb_batch-arm64.o", "odb_batch-x86_64.o"]
    assert os.listdir(top / "include") == ["odb_batch.h"]
    assert "nothing of them was run" in (top / DOCS / "PROVED.md").read_text().replace("\n", " ")


@pytest.mark.needs("mcs", "mono")
def test_the_package_for_csharp(archive, unpacked, python, tmp_path):
    """The example of the page in it runs over the library that it has, against the service of the archive; and the types of all its
    files are declared, as NuGet wants it."""
    with zipfile.ZipFile(made(archive, f"OdbBatch.{VERSION}.nupkg")) as package:
        package.extractall(tmp_path)
    types = (tmp_path / "[Content_Types].xml").read_text(encoding="utf-8")
    assert all(f'Extension="{it.suffix[1:] or it.name[1:]}"' in types for it in tmp_path.rglob("*") if it.is_file())
    assert f"<version>{VERSION}</version>" in (tmp_path / "OdbBatch.nuspec").read_text(encoding="utf-8")
    assembly = tmp_path / "lib" / "netstandard2.0"
    example = blocks((tmp_path / "dotnet.md").read_text(encoding="utf-8"), "csharp")[0]
    (assembly / "Lend.cs").write_text(example, encoding="utf-8")
    run("mcs", "-r:OdbBatch.dll", "-r:System.Net.Http.dll", "Lend.cs", cwd=assembly)
    variables = {**os.environ, "LD_LIBRARY_PATH": str(tmp_path / "runtimes" / "linux-x64" / "native")}
    with service(unpacked, python, tmp_path / "log") as url:
        assert run("mono", "Lend.exe", url, cwd=assembly, env=variables).endswith(LENT.format("solaris", 42) + "\n")


@pytest.mark.needs("java")
def test_the_package_for_java(archive, unpacked, tmp_path):
    """Its jar has the libraries and both filters, and runs the example of the page with JNA alone; the others are its sources and what
    describes it."""
    jar, jna = made(archive, f"odb_batch-{VERSION}.jar"), "/usr/share/java/jna.jar"
    with zipfile.ZipFile(jar) as package:
        names = package.namelist()
        assert f"Implementation-Version: {VERSION}\n" in package.read("META-INF/MANIFEST.MF").decode()
        assert UNLICENSED in package.read("META-INF/maven/odbbatch/odb_batch/pom.xml").decode()
    filters = {f"odbbatch/{it}/BatchFilter" for it in ("servlet", "jakarta")}
    assert {"linux-x86-64/libodb_batch.so", *(f"{it}.class" for it in filters)} <= set(names)
    with zipfile.ZipFile(made(archive, f"odb_batch-{VERSION}-sources.jar")) as package:
        assert {f"{it}.java" for it in filters} <= set(package.namelist())
    assert f"<version>{VERSION}</version>" in made(archive, f"odb_batch-{VERSION}.pom").read_text(encoding="utf-8")
    example = blocks(unpacked.page("docs/java.md"), "java")[0]
    (tmp_path / "Example.java").write_text(example, encoding="utf-8")
    run("java", "-cp", f"{jar}:{jna}", tmp_path / "Example.java", wanted=JAVA_PRINTS, cwd=unpacked.docs)


@pytest.mark.needs("go")
def test_the_package_for_go(archive, unpacked, tmp_path):
    """Its example and its tests of calls run over the library that it has; and in a module that names it as the page says, the client of
    the page sends a batch to the service of the page."""
    top = unpack(made(archive, f"odb_batch-{VERSION}-go.tar.gz"), tmp_path)
    assert {"go.mod", "library.go", "odb_batch.h", "odb_batch_linux_amd64.syso"} <= set(os.listdir(top))
    variables = {**os.environ, "GOPROXY": "off", "GOFLAGS": ""}
    run("go", "test", "-run", "Example|Fault", ".", cwd=top, env=variables)
    page, module = unpacked.page("docs/go.md"), tmp_path / "module"
    write_go(page, module)
    for line in ("go mod init example", re.search(r"(?m)^go mod edit .*$", page)[0], "go build -o bin/ ./..."):
        run(*line.split(), cwd=module, env=variables)
    with serving(tmp_path / "log", module / "bin" / "service") as process:
        run(module / "bin" / "client", process.url, wanted=GO_PRINTS)


def test_the_packages_are_files_of_the_release(unpacked, archive):
    for kind in ("python", "node"):
        package = unpacked.package(kind)
        assert package.read_bytes() == archive.with_name(package.name).read_bytes()


def test_versions(unpacked):
    """Program, header, packages and changes have the version of the archive."""
    unpacked.run(unpacked.top / "bin/odb_batch", "--version", wanted=f"odb_batch {VERSION}\n")
    header = (unpacked.top / "include/odb_batch.h").read_text()
    found = {
        "header": ".".join(re.search(rf"ODB_VERSION_{it} (\d+)", header)[1] for it in ("MAJOR", "MINOR", "PATCH")),
        "pkg-config": re.search(r"\nVersion: (.*)\n", (unpacked.top / "lib/pkgconfig/odb_batch.pc").read_text())[1],
        "CHANGELOG.md": re.search(r"(?m)^## \[(\d[^\]]*)\]", unpacked.page("CHANGELOG.md"))[1],
        "PROVED.md": re.search(r"odb_batch (\S+)\n", unpacked.page("PROVED.md"))[1],
        "wheel": unpacked.package("python").name.split("-")[1],
    }
    assert found == dict.fromkeys(found, VERSION)


def test_links_of_pages_lead_to_its_files(unpacked):
    for path, text in unpacked.pages():
        for target in re.findall(r"\]\(([^)#\s]+)", text):
            assert "://" in target or (unpacked.docs / path.parent / target).exists(), f"{path} leads to {target}"


def test_the_prover_of_the_readme_is_that_of_the_proofs(unpacked):
    # Kits of one logic check alike; they differ in what is ported and in the guides.
    logic = re.search(r"rattle-kit-\S+ (logic \w+)", unpacked.page("PROVED.md"))[1]
    assert logic in unpacked.page("README.md")


def named_in(page):
    """What a page names by a path: of each the text, such as docs/scale.md or tests/."""
    return {it.rstrip("/.") for it in re.findall(r"[\w.-]+(?:/[\w.-]+)*/?", page) if "/" in it}


def paths_of_repository():
    """The files and folders of the repository."""
    files = [Path(it) for it in run("git", "-C", ROOT, "ls-files").splitlines()]
    return {str(it) for file in files for it in (file, *file.parents)} - {"."}


def is_below(path, names):
    """Whether a path is one of these names, or below one of them."""
    return any(f"{path}/".startswith(f"{name.rstrip('/')}/") for name in names)


def test_paths_in_pages(unpacked):
    """Each path of the repository that a page names is in the archive, or is said to be in the repository alone."""
    readme = unpacked.page("README.md")
    alone = re.findall("`([^`]+)`", re.search(r"(?s)The repository alone has (.*?)\n\n", readme)[1])
    known, has = paths_of_repository(), lambda it: (unpacked.top / it).exists() or (unpacked.docs / it).exists()
    assert [name for name in alone if not any(is_below(it, [name]) for it in known)] == []
    for page, text in unpacked.pages():
        for path in named_in(text):
            meant = {path, os.path.normpath(page.parent / path)} & known
            is_there = not meant or any(has(it) or is_below(it, alone) for it in meant)
            assert is_there, f"{page} names {path}, which is not in the archive"


def test_the_image_of_the_gateway_takes_the_package(unpacked):
    (source,) = re.findall(r"(?m)^COPY (\S+) ", text_of("examples", "gateway", "Containerfile"))
    assert [it.name for it in (unpacked.top / "python").glob(source)] == [unpacked.package("python").name]


def test_the_packages_say_that_there_is_no_licence(unpacked):
    with zipfile.ZipFile(unpacked.package("python")) as package:
        (metadata,) = [package.read(it).decode() for it in package.namelist() if it.endswith("/METADATA")]
    assert f"\nLicense: {UNLICENSED}\n" in metadata
    with tarfile.open(unpacked.package("node")) as package:
        assert json.load(package.extractfile("package/package.json")).get("license") == "UNLICENSED"


def newest(path):
    """The newest version of glibc that a file needs."""
    found = re.findall(r"GLIBC_(\d+(?:\.\d+)+)", run("readelf", "-V", path))
    return max((tuple(map(int, it.split("."))) for it in found), default=(0, 0))


def test_the_libraries_need_the_c_library_alone(unpacked):
    assert list(declarations.built_differences(unpacked.top / "lib")) == []
    for line in unpacked.run("ldd", unpacked.top / "bin/odb_batch", unpacked.top / SHARED).splitlines():
        assert re.fullmatch(LOADED, line)


def test_the_pages_name_the_oldest_glibc(unpacked, tmp_path):
    """The pages name the oldest glibc that all of it runs with; the tag of the wheel fits the library."""
    paths = [unpacked.top / "bin/odb_batch", unpacked.top / SHARED]
    if (unpacked.top / "node").exists():
        with tarfile.open(unpacked.package("node")) as package:
            (tmp_path / "addon").write_bytes(package.extractfile("package/odb_batch.node").read())
        paths.append(tmp_path / "addon")
    found = max(map(newest, paths))
    for name in ("README.md", "PROVED.md", "docs/compatibility.md"):
        said = set(re.findall(r"glibc\s+(\d+)\.(\d+)", unpacked.page(name)))
        assert said == {tuple(map(str, found[:2]))}, name
    tag = re.search(r"manylinux_(\d+)_(\d+)_x86_64", unpacked.package("python").name)
    assert tuple(map(int, tag.groups())) >= newest(unpacked.top / SHARED)
    print(f"glibc {'.'.join(map(str, found))}, wheel {tag[0]}")


def test_the_first_check(unpacked):
    """bench/bench.py measures how long a start takes."""
    example = unpacked.docs / "examples/batch_usual.json"
    unpacked.run(unpacked.top / "bin/odb_batch", "check", example, wanted="ok 4 requests 1 groups\n")


@pytest.mark.needs("man")
def test_the_manual_page(unpacked):
    page = unpacked.top / "share/man/man1/odb_batch.1"
    text = unpacked.run("man", "-l", page, MANPAGER="cat", LC_ALL="C.UTF-8", MANWIDTH="80")
    for wanted in ("NAME", "odb_batch - check", "EXIT STATUS"):
        assert wanted in text


BASH = 'COMP_WORDS=(odb_batch ch); COMP_CWORD=1; _odb_batch; printf "%s\\n" "${COMPREPLY[@]}"'
ZSH = "autoload -Uz compinit && compinit -u -D && print $_comps[odb_batch]"


# fish completes no command that it does not find
@pytest.mark.parametrize("words, script, wanted", [
    (["bash", "--norc"], f". TOP/share/bash-completion/completions/odb_batch\n{BASH}", "check\n"),
    (["zsh", "-f"], f"fpath=(TOP/share/zsh/site-functions $fpath)\n{ZSH}", "_odb_batch\n"),
    (["fish"], "complete -C 'odb_batch ch'", "check\t"),
], ids=["bash", "zsh", "fish"])  # fmt: skip
def test_completions(words, script, wanted, unpacked, need):
    need(words[0])
    top = str(unpacked.top)
    variables = {"PATH": f"{top}/bin:{TOOLS}", "HOME": str(unpacked.work), "XDG_DATA_DIRS": f"{top}/share"}
    assert unpacked.run(*words, "-c", script.replace("TOP", top), **variables).startswith(wanted)


def compiled(unpacked, name, is_static):
    """Compiles the program of docs/embedding.md by the flags that pkg-config prints."""
    variables = {"PKG_CONFIG_PATH": f"{unpacked.top}/lib/pkgconfig"}
    source = unpacked.write("page.c", block("c"))
    unpacked.run("pkg-config", "--modversion", "odb_batch", wanted=f"{VERSION}\n", **variables)
    asked = ["pkg-config", *["--static"] * is_static, "--cflags", "--libs", "odb_batch"]
    flags = ["-static"] * is_static + unpacked.run(*asked, **variables).split()
    unpacked.run("cc", "-std=c99", *STRICT, "-o", name, source, *flags)
    return unpacked.work / name


@pytest.mark.needs("cc", "pkg-config")
def test_c_with_the_shared_library(unpacked):
    unpacked.run(compiled(unpacked, "shared", False), wanted=ONE, LD_LIBRARY_PATH=f"{unpacked.top}/lib")


@pytest.mark.needs("cc", "pkg-config")
def test_c_with_the_static_library(unpacked, tmp_path):
    words = ["cc", "-static", "-x", "c", "-o", tmp_path / "empty", "-"]
    if subprocess.run(words, input=b"int main(void) { return 0; }", capture_output=True).returncode:
        pytest.skip("libc.a is not installed")
    unpacked.run(compiled(unpacked, "static", True), wanted=ONE)


def test_the_wheel(unpacked, python):
    page = unpacked.write("page.py", check_in("check.py") + "import odb_batch\nprint(odb_batch.__version__)\n")
    unpacked.run(python, page, wanted=f"{IN_PYTHON}{VERSION}\n")


@contextmanager
def service(unpacked, python, log):
    """The service of the archive: its URL, while it runs."""
    words, variables = [python, unpacked.docs / "examples/service", "--port", "0"], {"PYTHONDONTWRITEBYTECODE": "1"}
    with open(log, "wb") as file:
        running = subprocess.Popen(words, cwd=unpacked.work, env=variables, stderr=file, **user())
    try:
        found, end = None, time.monotonic() + LIMIT
        while not found and running.poll() is None and time.monotonic() < end:
            time.sleep(0.1)
            found = re.search(r"listening on (\S+)\n", log.read_text())
        assert found, f"the service does not start: {log.read_text()}"
        yield found[1]
    finally:
        running.terminate()
        try:
            running.wait(LIMIT)
        finally:
            running.kill()


def test_its_tool_judges_its_service(unpacked, python, tmp_path):
    with service(unpacked, python, tmp_path / "log") as url:
        words = [url, "--set", "Books", "--key", "Id", "--body", '{"Title": "Emma"}']
        said = unpacked.run(python, "-m", "odb_batch", "conformance", *words)
    print(said.splitlines()[-1])
    assert re.fullmatch(r"\d+ cases, 0 of them broken", said.splitlines()[-1])


def test_its_audit_finds_its_program(unpacked, python):
    log = unpacked.write("log.jsonl", '[{"requests":[]},{"responses":[]}]\n')
    variables = {"PATH": TOOLS, "HOME": str(unpacked.work)}
    unpacked.run(python, unpacked.docs / "examples/audit.py", log, wanted="ok 1\n", **variables)


@pytest.fixture(scope="module")
def node(unpacked, need):
    """The folder into which npm has installed the package for Node, without a network."""
    need("node")
    need("npm")
    folder = unpacked.work / "node"
    unpacked.run("mkdir", folder)
    npm = ["npm", "install", "--silent", "--offline", "--no-audit", "--no-fund"]
    unpacked.run(*npm, unpacked.package("node"), cwd=folder, HOME=str(folder))
    return folder


def test_the_package_for_node(unpacked, node):
    page = unpacked.write("node/page.js", check_in("check.js") + "console.log(require('odb-batch').version)\n")
    unpacked.run("node", page, wanted=f"{IN_NODE}{VERSION}\n", cwd=node)


def test_the_page_of_the_package_for_node(unpacked, node):
    """Each program of the page prints what it shows."""
    text = (node / "node_modules/odb-batch/README.md").read_text(encoding="utf-8")
    programs, shown = (blocks(text, kind) for kind in ("js", "text"))
    assert len(programs) == len(shown) > 0
    for program, wanted in zip(programs, shown):
        unpacked.run("node", unpacked.write("node/readme.js", program), wanted=wanted, cwd=node)


def test_the_page_is_beside_the_pages_and_in_the_package(unpacked):
    with zipfile.ZipFile(unpacked.package("python")) as package:
        assert package.read("odb_batch/odb_batch.html") == (unpacked.docs / "odb_batch.html").read_bytes()
    assert (unpacked.docs / "docs/pictures/page-finished.png").read_bytes()[1:4] == b"PNG"
