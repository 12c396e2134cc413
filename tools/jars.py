"""The package for Java as jars, which are archives that the standard library writes."""

import os

from archives import File, zipped
from nuget import below, read

ROOT = os.path.dirname(os.path.dirname(os.path.realpath(__file__)))
MANIFEST = """\
Manifest-Version: 1.0
Automatic-Module-Name: odbbatch
Implementation-Title: odb_batch
Implementation-Version: {version}
"""


def java_packages(folder, version, moment):
    """Returns the bytes of the jar of the classes with the libraries, of that of the sources, and of what describes the jar for Maven,
    by their names. Their files have one time, in seconds since 1970.

    Args:
        folder: What `java/compile` has written, and `bin/odb_library --for java` to its folder `classes`.
    """
    name, pom = f"odb_batch-{version}", read(ROOT, "java", "pom.xml")
    own = {"META-INF/MANIFEST.MF": File(MANIFEST.format(version=version).encode()), "META-INF/maven/odbbatch/odb_batch/pom.xml": File(pom)}
    return {
        f"{name}.jar": zipped({**own, **below(os.path.join(folder, "classes"))}, "", moment),
        f"{name}-sources.jar": zipped({**own, **below(os.path.join(folder, "sources"))}, "", moment),
        f"{name}.pom": pom,
    }
