"""docs/threats.md: each of its lines names a test, and each test that it names is there."""

import ast
import os
import re

import pytest

from support.program import ROOT

NAMED = re.compile(r"`([\w/]+(?:\.py|\.test\.js|_test\.go|Test\.java))::([^`]+)`")
MOST_LINES = 145  # about two printed pages


def page():
    with open(os.path.join(ROOT, "docs", "threats.md"), encoding="utf-8") as file:
        return file.read()


def items(text):
    """The items of the lists of a page, each as one line."""
    return [re.sub(r"\s+", " ", it) for it in re.findall(r"(?ms)^- (.*?)(?=^- |^$|\Z)", text)]


def names_of_python(path):
    """The names of the tests of a file, as pytest has them."""
    with open(path, encoding="utf-8") as file:
        tree = ast.parse(file.read())
    kinds = (ast.FunctionDef, ast.AsyncFunctionDef)
    found = {it.name for it in tree.body if isinstance(it, kinds)}
    for made in (it for it in tree.body if isinstance(it, ast.ClassDef)):
        found |= {f"{made.name}::{it.name}" for it in made.body if isinstance(it, kinds)}
    return {it for it in found if it.rpartition("::")[2].startswith("test_")}


def is_there(file, name):
    path = os.path.join(ROOT, file)
    if not os.path.isfile(path):
        return False
    if file.endswith(".py"):
        return name in names_of_python(path)
    begins = {".go": f"\nfunc {name}(t ", ".java": f"    void {name}("}.get(os.path.splitext(file)[1], f"'{name}")
    with open(path, encoding="utf-8") as text:
        return begins in text.read()


def test_each_line_names_a_test():
    assert [it for it in items(page()) if not NAMED.search(it)] == []


@pytest.mark.parametrize("file, name", sorted(set(NAMED.findall(page()))))
def test_a_test_that_is_named_is_there(file, name):
    assert is_there(file, name)


def test_the_page_is_short():
    assert len(page().splitlines()) <= MOST_LINES
