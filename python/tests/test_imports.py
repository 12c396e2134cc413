"""The modules of the package import each other in one direction, and packages take nothing private of each other."""

import ast
import os

import pytest

import odb_batch

PACKAGE = os.path.dirname(odb_batch.__file__)
NAME = "odb_batch"
# The layers: a folder or a module imports those of its own line and of earlier ones alone.
LAYERS = [
    {"_native.library", "_native.constants"},
    {"values", "arguments", "documents.encoding", "errors"},
    {"_native"},
    {"documents"},
    {"commands", "run_parts", "runs"},
    {"http"},
    {"driver"},
    {""},
    {"asgi", "wsgi", "django", "client", "journals", "testing", "conformance"},
    {"gateway"},
    {"_page", "__main__"},
]


def modules():
    """The paths of all modules, by their dotted names below the package."""
    found = {}
    for folder, _, files in os.walk(PACKAGE):
        for file in files:
            if file.endswith(".py"):
                path = os.path.join(folder, file)
                found[os.path.relpath(path, PACKAGE)[:-3].replace(os.sep, ".").replace("__init__", "").rstrip(".")] = path
    return found


MODULES = modules()


def imported(name):
    """The modules of the package that one names in its imports, also those in functions and for types alone."""
    with open(MODULES[name], encoding="utf-8") as file:
        tree = ast.parse(file.read())
    package = name if MODULES[name].endswith("__init__.py") else name.rpartition(".")[0]
    for node in ast.walk(tree):
        if isinstance(node, ast.ImportFrom) and node.level:
            above = package.split(".")[: len(package.split(".")) - node.level + 1] if package else []
            base = ".".join([*above, *filter(None, [node.module])])
            for alias in node.names:
                inner = f"{base}.{alias.name}".lstrip(".")
                yield inner if inner in MODULES else base
        else:
            assert not isinstance(node, ast.Import) or not any(alias.name.startswith(NAME) for alias in node.names)


EDGES = {name: set(imported(name)) - {name} for name in MODULES}


def layer(name):
    """The number of the layer of a module, by its own name or that of its folder."""
    for place in (name, name.partition(".")[0]):
        for number, names in enumerate(LAYERS):
            if place in names:
                return number
    raise AssertionError(f"{name} has no layer")


def test_no_import_leads_to_a_higher_layer():
    wrong = [f"{name} imports {other}" for name in EDGES for other in EDGES[name] if layer(other) > layer(name)]
    assert wrong == []


def test_no_import_is_in_a_circle():
    left = dict(EDGES)
    while free := [name for name, others in left.items() if not others & left.keys()]:
        for name in free:
            del left[name]
    assert left == {}


@pytest.mark.parametrize("name", MODULES)
def test_no_private_module_of_another_package_is_imported(name):
    own = name.partition(".")[0]
    others = {other for other in EDGES[name] if other.partition(".")[0] != own and other.partition(".")[0] != "_native"}
    private = {other for other in others if any(part.startswith("_") for part in other.split("."))}
    assert private == set()
