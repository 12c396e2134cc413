"""Documents: the bytes that the library reads, and the requests of a batch."""
