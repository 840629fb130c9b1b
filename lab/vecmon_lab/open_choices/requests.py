"""The lengths that vset instructions of a run may choose, by the run's log."""

from collections.abc import Iterable, Iterator, Sequence
from typing import NamedTuple

from ..instructions.accesses import REGISTER_BITS
from ..instructions.scalar_registers import scalar_written
from ..instructions.words import OP_V
from ..runs.logs import Commit, Log

_CSR, _VL = 0x73, 0xC20  # the opcode of csrr, and the number of vl
_OP_VSET = 7  # funct3 of vset instructions


class LengthRequest(NamedTuple):
    """A vset instruction that may leave less than VLMAX, since its AVL is above VLMAX and below twice VLMAX.

    instruction: its number in the run; avl: None if the log doesn't show it; limit: VLMAX
    """

    instruction: int
    avl: int | None
    limit: int


def is_vset(word: int) -> bool:
    """Return whether a word is a vset instruction."""
    return word & 0x7F == OP_V and word >> 12 & 7 == _OP_VSET


def length_requests(lines: Iterable[str], registers: Sequence[str]) -> Iterator[LengthRequest]:
    """Yield the requests of a run with choices.

    A log shows what a vset instruction wrote before its choice. So the register that gets the chosen length is unknown up to the
    next instruction that shows the length.

    lines: the log from its start; registers: lines with the initial values
    """
    x: dict[int, int | None] = dict.fromkeys(range(32), 0)
    for name, digits in map(str.split, registers):
        if name[0] == "x":
            x[int(name[1:])] = int(digits, 16)
    result: int | None = None
    for number, commit in enumerate(Log(lines).commits(), 1):
        request = _request(number, commit, x)
        length = length_before(commit)
        if result and length is not None:
            x[result] = length
        result = None if length is not None or result in commit.x else result
        x.update(commit.x)
        if request:
            yield request
            result = scalar_written(commit.word or 0)
            if result:
                x[result] = None


def length_before(commit: Commit) -> int | None:
    """Return the vl that an instruction finds, if the log shows it: by what csrr reads, or by what isn't a vset instruction."""
    word = commit.word or 0
    if word & 0x7F == _CSR and word >> 20 == _VL:
        return next(iter(commit.x.values()), None)
    is_changed = is_vset(word) or "vl" in commit.control  # as by a fault-only-first load
    return None if commit.vector_type is None or is_changed else commit.vector_type[2]


def _request(number: int, commit: Commit, x: dict[int, int | None]) -> LengthRequest | None:
    """Return the request of an instruction that may choose its length; None for others. x: the registers before it"""
    word = commit.word or 0
    if not is_vset(word) or commit.vector_type is None:
        return None
    source, has_immediate = word >> 15 & 31, word >> 30 == 3
    if not source and not has_immediate:  # all elements, or vl as it is
        return None
    sew, lmul, _ = commit.vector_type
    limit = int(REGISTER_BITS // sew * lmul)
    avl = source if has_immediate else x[source]
    return LengthRequest(number, avl, limit) if avl is None or limit < avl < 2 * limit else None
