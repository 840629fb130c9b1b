"""The exception of a refused request."""

from ... import LabError


class BadRequest(LabError):
    """A refused request; the text says why."""
