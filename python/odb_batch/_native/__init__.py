"""The shared library, and the calls of it."""
