"""What examples share: a file read, a figure written."""


def read(path, longest):
    """The bytes of a file, at most one more than the longest that is answered: that one decides that it is refused."""
    with open(path, "rb") as f:
        return f.read(longest + 1)


def places(figure):
    """Ten-thousandths with four places."""
    return f"{figure // 10000}.{figure % 10000:04}"
