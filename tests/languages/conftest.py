"""What the packages for Go, Java and C# are compared with."""

import pytest


@pytest.fixture(scope="session")
def reference(library, tmp_path_factory):
    """The folder with the calls and the lines of tests/support/languages.py."""
    from support.languages import write_reference

    folder = tmp_path_factory.mktemp("reference")
    write_reference(folder)
    return folder


@pytest.fixture(scope="session")
def native(library):
    """Writes the library for a language to a folder: `native("go", folder)`."""
    from support.languages import write_native

    return lambda language, folder: write_native(language, library, folder)
