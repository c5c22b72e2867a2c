"""The numbers of the header that have names."""
from enum import IntEnum


class Number(IntEnum):
    """It is the number, and prints as it; it shows by its name.

    >>> class Colour(Number):
    ...     DARK_RED = 1
    >>> Colour.DARK_RED, f"{Colour.DARK_RED}", Colour.DARK_RED == 1, Colour.DARK_RED.label
    (DARK_RED, '1', True, 'DarkRed')
    """

    __str__ = int.__repr__
    __format__ = int.__format__  # type: ignore[assignment]

    def __repr__(self) -> str:
        return self.name

    @property
    def label(self) -> str:
        """Its name as the rules have it."""
        return self.name.title().replace("_", "")
