"""Commands of the lab, run by tests."""

import sys

import pytest

from vecmon_lab import __main__ as start


class Lab:
    """Runs commands of the lab in this process: the status, and the bytes on standard output and standard error."""

    def __init__(self, monkeypatch: pytest.MonkeyPatch, capture: pytest.CaptureFixture[bytes]) -> None:
        self._monkeypatch, self._capture = monkeypatch, capture

    def __call__(self, *arguments: object) -> tuple[int, bytes, str]:
        self._monkeypatch.setattr(sys, "argv", ["vecmon-lab", *map(str, arguments)])
        try:
            status = start.main()
        except SystemExit as error:
            status = int(str(error))
        output, errors = self._capture.readouterr()
        return status, output, errors.decode()
