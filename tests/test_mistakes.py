"""Shows that the random documents of test_fuzz.py find each planted mistake."""

import pytest
from hypothesis import Phase, find, settings
from hypothesis import strategies as st

from support.calls import trials
from support.mistakes import MISTAKES, planted

# Each rule is asked by the quick tests; these ask whether those would find it broken.
pytestmark = pytest.mark.slow

# The first example found is enough: it is not made smaller.
EXAMPLES = settings(settings.get_profile("gate"), phases=[Phase.generate])


def by_mistake(name, trial):
    """What the rules with this mistake print, or how they fail."""
    with planted(name):
        try:
            return trial.by_rules()
        except LookupError as error:
            return error


@pytest.mark.parametrize("name", MISTAKES)
def test_mistake_is_found(program, name):
    def shows(trial):
        wrong = by_mistake(name, trial)
        return wrong != trial.by_rules() and wrong != trial.by_program(program)

    find(st.one_of(*map(trials, MISTAKES[name].commands)), shows, settings=EXAMPLES)
