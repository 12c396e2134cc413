"""The package of C# for NuGet, an archive of the Open Packaging Conventions (ECMA-376, part 2), which the standard library writes."""

import os
import re

from archived_pages import shipped
from archives import File, zipped

ROOT = os.path.dirname(os.path.dirname(os.path.realpath(__file__)))
DOTNET = os.path.join(ROOT, "dotnet")
TYPES = {"rels": "application/vnd.openxmlformats-package.relationships+xml"}
CONTENT_TYPES = """\
<?xml version="1.0" encoding="utf-8"?>
<Types xmlns="http://schemas.openxmlformats.org/package/2006/content-types">
{types}</Types>
"""
RELATIONSHIPS = """\
<?xml version="1.0" encoding="utf-8"?>
<Relationships xmlns="http://schemas.openxmlformats.org/package/2006/relationships">
  <Relationship Type="http://schemas.microsoft.com/packaging/2010/07/manifest" Target="/OdbBatch.nuspec" Id="Nuspec" />
</Relationships>
"""


def read(*path):
    with open(os.path.join(*path), "rb") as file:
        return file.read()


def below(folder):
    """The files below a folder, by their paths in it."""
    paths = (os.path.join(it, name) for it, _, names in os.walk(folder) for name in names)
    return {os.path.relpath(path, folder): File(read(path)) for path in paths}


def nuget_package(folder, moment):
    """Returns the bytes of the package, whose files have one time, in seconds since 1970.

    Args:
        folder: What `dotnet/compile` and `bin/odb_library --for dotnet` have written to its folders `lib/netstandard2.0` and `runtimes`.
    """
    manifest = re.sub(r"\n  <files>.*</files>", "", read(DOTNET, "OdbBatch.nuspec").decode(), flags=re.DOTALL)
    page = shipped("docs/dotnet.md", read(ROOT, "docs", "dotnet.md").decode(), ())
    files = {
        **below(folder),
        "OdbBatch.nuspec": File(manifest.encode()),
        "build/OdbBatch.targets": File(read(DOTNET, "build", "OdbBatch.targets")),
        "dotnet.md": File(page.encode()),
        "_rels/.rels": File(RELATIONSHIPS.encode()),
    }
    endings = sorted({path.rpartition(".")[2] for path in files})
    types = (f'  <Default Extension="{it}" ContentType="{TYPES.get(it, "application/octet")}" />\n' for it in endings)
    files["[Content_Types].xml"] = File(CONTENT_TYPES.format(types="".join(types)).encode())
    return zipped(files, "", moment)
