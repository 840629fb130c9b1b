"""A budget of processor time for each seat. Requests of a seat that has spent more than its share wait; others aren't delayed.

Only time of the event loop's thread counts, which all seats share. A waiting request costs nothing.
"""

import asyncio
import time
from collections.abc import Callable, Coroutine, Generator
from typing import Any, Generic, TypeVar

from .frame_limits import Rate

SHARE = 0.25  # of a core; a class of 30 takes 0.23 of one at 76 requests a second
SECONDS_AT_ONCE = 5.0  # of processor time that a seat may spend at once

Returned = TypeVar("Returned")


class SeatBudget:
    """The processor time that all tabs of a seat share."""

    def __init__(
        self,
        share: float = SHARE,
        clock: Callable[[], float] = time.monotonic,
        spent: Callable[[], float] = time.thread_time,
    ) -> None:
        """share: the part of a core that the seat may use; clock: returns the time in seconds

        spent: returns the processor time of this thread in seconds
        """
        self._share, self._spent = share, spent
        self._rate = Rate(share, SECONDS_AT_ONCE, clock)

    @property
    def delay(self) -> float:
        """The seconds for which the seat's next request has to wait."""
        return max(0.0, -self._rate.take(0) / self._share)

    async def ready(self) -> None:
        """Wait until the seat has spent no more than its share."""
        while (delay := self.delay) > 0:
            await asyncio.sleep(delay)

    def metered(self, work: Coroutine[Any, Any, Returned]) -> "_Metered[Returned]":
        """Return an awaitable that does the work and charges the seat for its processor time."""
        return _Metered(work, self._spent, self._rate.take)


class _Metered(Generic[Returned]):
    """Work whose processor time is measured between its waits, and passed to `pay`, in seconds."""

    def __init__(
        self, work: Coroutine[Any, Any, Returned], spent: Callable[[], float], pay: Callable[[float], object]
    ) -> None:
        self._work, self._spent, self._pay = work, spent, pay

    def __await__(self) -> Generator[Any, Any, Returned]:
        error: BaseException | None = None
        while True:
            start = self._spent()
            try:
                step = self._work.throw(error) if error else self._work.send(None)
            except StopIteration as end:
                result: Returned = end.value
                return result
            finally:
                self._pay(self._spent() - start)
            try:
                yield step
                error = None
            except BaseException as thrown:  # such as a cancellation: the work gets it
                error = thrown
