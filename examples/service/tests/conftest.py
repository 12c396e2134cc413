"""A limit of time for each test of the service."""

from support.limits import limit  # noqa: F401
