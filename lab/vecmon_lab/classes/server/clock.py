"""The clock of a machine, which grants slices at intervals."""

import asyncio
from collections.abc import Awaitable, Callable

from ..core.requests import Settings


class Clock:
    """Calls `tick` at intervals while it is on."""

    def __init__(self, tick: Callable[[], Awaitable[None]]) -> None:
        self.settings = Settings()
        self._tick, self._is_on = tick, asyncio.Event()

    def set(self, settings: Settings) -> None:
        """Set the interval, and whether the clock is on."""
        self.settings = settings
        (self._is_on.set if settings.on else self._is_on.clear)()

    async def run(self) -> None:
        """Call `tick` at intervals while the clock is on. Never returns."""
        while True:
            await self._is_on.wait()
            await asyncio.sleep(self.settings.ms / 1000)
            await self._tick()
