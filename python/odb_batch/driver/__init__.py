"""Performs batches by a function that sends one request: see docs/architecture.md."""
