"""The programs of docs/embedding.md and examples/, and what they print."""

from .markdown import blocks, text_of

STRICT = ["-Wall", "-Wextra", "-Werror", "-pedantic"]

# What a check and a live run of one request print.
ONE = "ok 1 requests 0 groups\n"
ANSWERED = '{"responses":[{"id":"a","status":204}]}\n'

# What check.py and check.js of tests/library/pages/ print.
IN_PYTHON = "Counts(requests=1, groups=0)\n['a']\n"
IN_NODE = "{ requests: 1, groups: 0 } [ 'a' ]\n"


def block(language, at=0):
    """The program of docs/embedding.md in a language; a later one if there are several."""
    return blocks(text_of("docs", "embedding.md"), language)[at]


def check_in(name):
    """A program in tests/library/pages/ that checks and plans a batch by a package."""
    return text_of("tests", "library", "pages", name)
