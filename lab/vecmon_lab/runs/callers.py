"""The cost of functions together with the functions that they call, by the number of calls from each place."""

from collections import Counter, defaultdict
from collections.abc import Iterator, Mapping
from dataclasses import dataclass

MIN_SHARE, MAX_FRAMES = 0.001, 100  # the least share of all ticks in a frame; the most nested frames


@dataclass(frozen=True)
class CallFrame:
    """A function below its callers in a call tree.

    own: the ticks of the function itself, for these callers; total: its own ticks and those of its callees
    callees: the functions that it calls, the one with the most ticks first
    """

    name: str
    own: int
    total: int
    callees: tuple["CallFrame", ...]


class Callers:
    """The ticks of functions, divided among their callers by the number of calls, as if all calls took the same time.

    A call back to a function that is already running isn't followed. Its ticks count for the first call of that function.
    """

    def __init__(self, own: Mapping[str, int], calls: Mapping[tuple[str, str], int], entry: str) -> None:
        """own: the ticks of each function; calls: their number, by caller and callee; entry: the function where the run starts"""
        self._own, self._calls = own, calls
        self._known = defaultdict[str, list[str]](list)
        for caller, callee in calls:
            self._known[caller].append(callee)
        self._callees = dict[str, dict[str, int]]()  # each function comes after its callees
        for name in (entry, *own):
            self._follow(name)
        self._called = Counter[str]()
        for callees in self._callees.values():
            self._called.update(callees)
        self.total = dict[str, float]()
        """The ticks of each function, including those of its callees."""
        for name, callees in self._callees.items():
            shares = (self.total[callee] * times / self._called[callee] for callee, times in callees.items())
            self.total[name] = own.get(name, 0) + sum(shares)

    def edges(self) -> Iterator[tuple[str, str, int, int]]:
        """Yield each caller and callee, the number of calls, and the ticks of these calls; 0 ticks for calls back to a running function."""
        for (caller, callee), times in self._calls.items():
            share = self._callees[caller].get(callee, 0) / max(1, self._called[callee])
            yield caller, callee, times, round(self.total[callee] * share)

    def frames(self) -> tuple[CallFrame, ...]:
        """Return the functions that no function calls, with everything that they call. Together they have all ticks."""
        tops = {name: 1.0 for name in self._callees if not self._called[name]}
        return self._frames(tops, MIN_SHARE * sum(self._own.values()))

    def _follow(self, first: str) -> None:
        """Record the functions that a function calls directly and indirectly, without calls back to a running function."""
        above, found = {first: iter(self._known[first])}, defaultdict[str, dict[str, int]](dict)
        while above and first not in self._callees:
            name, callees = next(reversed(above.items()))
            callee = next(callees, None)
            if callee is None:
                self._callees[name] = found[name]
                above.popitem()
            elif callee not in above:
                found[name][callee] = self._calls[name, callee]
                if callee not in self._callees:
                    above[callee] = iter(self._known[callee])

    def _frames(self, shares: Mapping[str, float], minimum: float, room: int = MAX_FRAMES) -> tuple[CallFrame, ...]:
        """Return the frames of functions, except those with fewer ticks than `minimum`.

        shares: the share of each function's ticks that belongs here; room: the greatest number of further levels
        """
        shown = [name for name, share in shares.items() if room and self.total[name] * share >= minimum]
        frames = (self._frame(name, shares[name], minimum, room - 1) for name in shown)
        return tuple(sorted(frames, key=lambda frame: -frame.total))

    def _frame(self, name: str, share: float, minimum: float, room: int) -> CallFrame:
        callees = {callee: share * times / self._called[callee] for callee, times in self._callees[name].items()}
        own = round(self._own.get(name, 0) * share)
        return CallFrame(name, own, round(self.total[name] * share), self._frames(callees, minimum, room))
