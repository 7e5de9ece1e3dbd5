"""The places of the ring, and the lives of their disks."""

PLACES = (1, 2, 3, 4, 5)

#: A life's number is its place plus this multiple of its incarnation, which counts from 1.
INCARNATION = 32
MOST_INCARNATIONS = 2047


def place_of(life: int) -> int:
    """Returns the place that a life's number belongs to."""
    return life % INCARNATION


def incarnation_of(life: int) -> int:
    """Returns the incarnation of a life's number, which counts the lives of its place."""
    return life // INCARNATION
