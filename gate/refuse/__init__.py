"""Runs of the program in which a request for memory, a write or a name is refused."""
