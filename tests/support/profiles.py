"""How many random examples a test has: `pytest --hypothesis-profile NAME`, of `default`, which is quick, `gate` and `long`."""

import functools

from hypothesis import HealthCheck, settings


@functools.lru_cache(maxsize=None)
def register():
    """Registers the profiles; must run before pytest chooses one, and takes effect once."""
    common = settings(deadline=None, suppress_health_check=[HealthCheck.too_slow, HealthCheck.data_too_large])
    settings.register_profile("default", common, max_examples=40)
    settings.register_profile("gate", common, max_examples=2_000, derandomize=True, database=None)
    settings.register_profile("long", common, max_examples=30_000)
    settings.load_profile("default")


def share(parts):
    """The settings of a test that has one of so many parts of the examples of the profile."""
    return settings(max_examples=max(settings.default.max_examples // parts, 5))
