"""A file written, for the examples."""

import os


def save(path, log):
    """Writes a file whole or not at all: a new one beside it, which then takes its name."""
    beside = path + ".new"
    with open(beside, "wb") as f:
        f.write(log)
    os.replace(beside, path)
