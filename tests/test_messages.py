"""The message of each fault and cause, as the sources have it: what a caller in Rattle prints."""

import re
from pathlib import Path

import pytest

CRATES = Path(__file__).resolve().parent.parent / "crates"
ENUM = re.compile(r"^pub enum (\w+) \{\n(.*?)^\}", re.MULTILINE | re.DOTALL)
FIELDS = r"( \{ [^\n]* \}| \{\n.*?\n    \}|\([^\n]*\))?"
VARIANT = re.compile(rf'^    #\[error\("([^\n]*)"\)\]\n    (\w+){FIELDS},$', re.MULTILINE | re.DOTALL)


def enums():
    """The enums of faults and causes: of each variant its message and the names of its fields."""
    for path in sorted(CRATES.glob("*/src/**/*.rt")):
        for name, body in ENUM.findall(path.read_text(encoding="utf-8")):
            variants = {
                variant: (message, ["0"] if fields.startswith("(") else re.findall(r"(\w+): ", fields))
                for message, variant, fields in VARIANT.findall(body)
            }
            assert len(variants) == body.count("#[error("), f"{path}: {name}"
            if variants:
                yield pytest.param(variants, id=f"{path.relative_to(CRATES).parts[0]}-{name}")


@pytest.mark.parametrize("variants", enums())
def test_shows_each_field_once(variants):
    for message, fields in variants.values():
        assert sorted(re.findall(r"\{(\w+)(?::\?)?\}", message)) == sorted(fields), message


@pytest.mark.parametrize("variants", enums())
def test_is_one_line_of_its_own(variants):
    messages = [message for message, _ in variants.values() if "{cause}" not in message]
    assert len(set(messages)) == len(messages)
    for variant, (message, _) in variants.items():
        assert (message == "out of memory") == (variant == "OutOfMemory")
        assert re.fullmatch(r"[a-z`{].*[^.\s]", message), message
