"""The loader as its specification says it, one module per layer.

Written from that (docs/SCOPE.md), EN 300 472 and EN 300 707, for reading and not
for speed. A call gives its bytes or raises Refused."""


class Refused(Exception):
    """A refusal: its number (SCOPE 2) and the offset that goes with it (SCOPE 3.1)."""

    def __init__(self, no, at=0):
        super().__init__(no, at)
        self.no, self.at = no, at


def need(holds, no, at=0):
    """One rule of an order of refusals: the first that doesn't hold decides."""
    if not holds:
        raise Refused(no, at)
