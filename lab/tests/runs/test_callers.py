"""Ticks of functions with those that they call, by calls that were worked out by hand."""

from vecmon_lab.runs.callers import CallFrame, Callers


def test_ticks_are_divided_between_callers() -> None:
    """60 ticks of `add` in six calls: one from `main`, five from `sum`, whose own ten are added to these 50."""
    callers = Callers(
        {"main": 5, "sum": 10, "add": 60}, {("main", "sum"): 2, ("main", "add"): 1, ("sum", "add"): 5}, "main"
    )
    assert callers.total == {"main": 75, "sum": 60, "add": 60}
    assert sorted(callers.edges()) == [("main", "add", 1, 10), ("main", "sum", 2, 60), ("sum", "add", 5, 50)]
    in_sum, in_main = CallFrame("add", 50, 50, ()), CallFrame("add", 10, 10, ())
    assert callers.frames() == (CallFrame("main", 5, 75, (CallFrame("sum", 10, 60, (in_sum,)), in_main)),)


def test_recursive_functions_have_frames() -> None:
    """Only `even` calls `odd`. Calls of `even` by `odd`, and by `even` itself, lead back to a function that is already there."""
    calls = {("main", "even"): 1, ("even", "odd"): 9, ("odd", "even"): 9, ("even", "even"): 3}
    callers = Callers({"main": 1, "even": 20, "odd": 18}, calls, "main")
    assert callers.total == {"main": 39, "even": 38, "odd": 18}
    assert ("odd", "even", 9, 0) in callers.edges() and ("even", "even", 3, 0) in callers.edges()
    (top,) = callers.frames()
    assert [top.total, top.callees[0].total, top.callees[0].callees] == [39, 38, (CallFrame("odd", 18, 18, ()),)]


def test_uncalled_functions_are_roots() -> None:
    """As one that is jumped to; and one of two ticks of 3,002 has no frame."""
    callers = Callers({"main": 2000, "jumped": 1000, "rare": 2}, {("main", "rare"): 1}, "main")
    assert callers.frames() == (CallFrame("main", 2000, 2002, ()), CallFrame("jumped", 1000, 1000, ()))


def test_deep_calls_are_bounded() -> None:
    """Of 5,000 functions that each call the next one, a hundred have a frame."""
    names = [f"f{number}" for number in range(5000)]
    callers = Callers(dict.fromkeys(names, 1), dict.fromkeys(zip(names, names[1:]), 1), "f0")
    assert callers.total["f0"] == 5000 and callers.total["f4999"] == 1
    frames, depth = callers.frames(), 0
    while frames:
        frames, depth = frames[0].callees, depth + 1
    assert depth == 100
