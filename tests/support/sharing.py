"""Which tests one worker of `pytest -n` takes together, so that what they share is started once."""

import re

from xdist.scheduler import LoadScopeScheduling

# What is made once for a run: by its name the tests that use it, by what their ids begin with.
SHARED = {
    "the page in Chromium": r"tests/page/test_(?!firefox|listing)",
    "the addon for Node": r"tests/library/(test_worked\.py::test_node|test_node\.py::test_(its_own_tests$|the_addon)|test_express\.py|"
    r"test_pages\.py::test_node)",
    "the package for C#": r"tests/languages/test_dotnet\.py",
    "the package for Java": r"tests/languages/test_java\.py",
    "the functions in Node": r"tests/library/test_lower\.py::test_functions",
    "the module for browsers": r"tests/library/(test_wasm\.py|test_node\.py::test_its_(names|own_tests_over))",
}
# The folders in which a class, or an application, has a service of its own.
OVER_SERVICES = ("examples/service/", "tests/frameworks/")
APPLICATION = re.compile(r"tests/frameworks/.*\[(\w+)")


class BySharing(LoadScopeScheduling):
    """Gives each worker one test after another, but all that share something to the same worker."""

    def _split_scope(self, nodeid):
        return shared_by(nodeid)


def shared_by(nodeid):
    """The name of what a test shares with others: a page of cases, the service of a class, an application, what is made once
    for a run; or its own.
    """
    above, _, _ = nodeid.rpartition("::")
    if above.endswith(".txt") or (nodeid.startswith(OVER_SERVICES) and "::" in above):
        return above
    application = APPLICATION.match(nodeid)
    if application:
        return application[1]
    return next((name for name, pattern in SHARED.items() if re.match(pattern, nodeid)), nodeid)
