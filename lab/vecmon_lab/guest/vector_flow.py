"""The vector type and length before each instruction of a program, on all paths to it. The program isn't run.

The results are right if calls and returns use the registers that `jal` and `jalr` link, and if the program doesn't write its own
code. A value from a register or a caller is unknown, and so is a value that differs between too many paths.
"""

from collections.abc import Collection, Mapping
from dataclasses import dataclass

from ..instructions.accesses import is_fault_only_first
from ..instructions.calls import A7, ECALL, EXITS
from ..instructions.table import row_of
from ..instructions.words import OP_V, SUPPORTED
from ..machine.answers import VILL, ControlRegisters
from .constants import constant_before
from .jumps import jump_target

_MAX_OWNERS = 16  # functions that share an instruction; more are treated as a jump to any label
MAX_TYPES = 4  # the most vector types that are distinguished before an instruction
JALR, JAL, BRANCH = 0x67, 0x6F, 0x63  # opcodes
_OP_VSET = 7  # funct3
_EBREAK = 0x00100073  # the word
_RETURN_ADDRESS = 1  # x1


@dataclass(frozen=True)
class VectorState:
    """The known values of vtype and vl before an instruction.

    types: the values that vtype may have, including VILL; None if it may have any
    vl: the value of vl; None if it is unknown
    """

    types: frozenset[int] | None = None
    vl: int | None = None

    @property
    def vtype(self) -> int | None:
        """The only value that vtype may have; None if there are several, or if it may have any."""
        return next(iter(self.types)) if self.types and len(self.types) == 1 else None

    def joined(self, other: "VectorState") -> "VectorState":
        """Return what is known if either state may be the actual one."""
        types = None if self.types is None or other.types is None else self.types | other.types
        if types is not None and len(types) > MAX_TYPES:
            types = None
        return VectorState(types, self.vl if self.vl == other.vl else None)


UNKNOWN = VectorState()
START = VectorState(frozenset([VILL]), 0)
"""The state of a new machine."""


def is_supported(vtype: int) -> bool:
    """Return whether a vset instruction that requests this type sets it, instead of vill."""
    return vtype < 256 and vtype & 0x3F in SUPPORTED


@dataclass(frozen=True)
class Code:
    """The instructions of a program.

    words: the words by address; None for an instruction whose word isn't known, for example because the machine refuses it
    entries: the addresses where the program may start, with the state before the instruction there
    labels: the addresses to which a jump by register may go
    gaps: addresses before which the source has an instruction that isn't among the words
    is_whole: whether all instructions that may be executed are among the words
    """

    words: Mapping[int, int | None]
    entries: Mapping[int, VectorState]
    labels: Collection[int] = ()
    gaps: Collection[int] = ()
    is_whole: bool = True


def is_vset(word: int) -> bool:
    """Return whether a word is vsetvli, vsetivli or vsetvl."""
    return word & 0x7F == OP_V and word >> 12 & 7 == _OP_VSET


def requested_type(word: int) -> int | None:
    """Return the vector type that a vsetvli or vsetivli requests; None for vsetvl, which requests a type in a register."""
    return None if word >> 30 == 2 else word >> 20 & (0x3FF if word >> 30 == 3 else 0x7FF)


def type_after(word: int, vtype: int | None) -> int | None:
    """Return the vector type after an instruction; None if it is unknown. vtype: the type before the instruction, None if unknown"""
    if not is_vset(word):
        return vtype
    requested = requested_type(word)
    return requested if requested is None or is_supported(requested) else VILL


class Flow:
    """The states of vtype and vl before the instructions of a program.

    states: the state before each instruction that may be reached, by the instruction's address
    """

    def __init__(self, code: Code) -> None:
        self._code = code
        self._known = {address: word for address, word in code.words.items() if word is not None}
        self.states: dict[int, VectorState] = {}
        self._owners: dict[int, frozenset[int]] = {}  # the functions of an instruction, by their first addresses
        self._returned: dict[int, VectorState] = {}  # the state at the returns of a function
        self._calls: dict[int, set[int]] = {}  # the addresses after the calls of a function
        self._is_lost = False  # whether a jump may go to any label
        self._waiting: dict[int, None] = {}
        targets = (jump_target(address, word) for address, word in self._known.items())
        self._joins = {target for target in targets if target is not None} | {*code.entries, *code.labels, *code.gaps}
        self._links = {word >> 7 & 31 for word in self._known.values() if word & 0x7F in (JAL, JALR)}
        self._links = self._links - {0} | {_RETURN_ADDRESS}
        for address, state in code.entries.items():
            self._reach(address, state, frozenset([address]))
        while self._waiting:
            address = next(iter(self._waiting))
            del self._waiting[address]
            self._follow(address)

    def after(self, address: int) -> VectorState:
        """Return the state after an instruction that may be reached. It holds if the next word in memory is executed next."""
        state, word = self.states[address], self._code.words.get(address)
        return UNKNOWN if word is None else self._changed(address, word, state)

    def requested(self, address: int, word: int) -> int | None:
        """Return the vector type that a vset instruction requests; None if it is unknown. address, word: of the instruction"""
        requested = requested_type(word)
        return constant_before(self._known, self._joins, address, word >> 20 & 31) if requested is None else requested

    def _reach(self, address: int, state: VectorState, owners: frozenset[int]) -> None:
        """Record that a state may hold before the instruction at an address.

        owners: the functions that contain the instruction, by their first addresses
        """
        if address not in self._code.words:
            if not self._code.is_whole:
                self._lose(owners)
            return
        if address in self._code.gaps:
            state = UNKNOWN
        before = self.states.get(address)
        joined = state if before is None else before.joined(state)
        own = self._owners.get(address, frozenset())
        if self._is_lost:  # all functions return with an unknown state, so owners don't matter
            owners = own
        if joined != before or not owners <= own:
            self.states[address], self._owners[address] = joined, own | owners
            self._waiting[address] = None
            if not self._is_lost and len(self._owners[address]) > _MAX_OWNERS:
                self._lose(self._owners[address])

    def _lose(self, owners: frozenset[int]) -> None:
        """Record that a jump may go to any label, or to the instruction after any call.

        owners: the functions that contain the jump, by their first addresses
        """
        was_lost, self._is_lost = self._is_lost, True
        for owner in owners:
            self._return(owner, UNKNOWN)
        if was_lost:
            return
        for label in self._code.labels:
            if label in self._code.words:
                self._reach(label, UNKNOWN, frozenset())
        for function in [*self._calls]:
            self._return(function, UNKNOWN)

    def _return(self, function: int, state: VectorState) -> None:
        """Record that a function may return with a state. function: its first address"""
        before = self._returned.get(function)
        self._returned[function] = state if before is None else before.joined(state)
        if self._returned[function] != before:
            for address, caller in self._callers(function):
                self._reach(address, self._returned[function], caller)

    def _callers(self, function: int) -> list[tuple[int, frozenset[int]]]:
        """Return the addresses after the calls of a function, each with the functions that contain the call."""
        return [(address, self._owners[address - 4]) for address in self._calls.get(function, ())]

    def _call(self, function: int, address: int) -> None:
        """Record that the instruction before an address calls a function."""
        self._calls.setdefault(function, set()).add(address)
        if self._is_lost:
            self._return(function, UNKNOWN)
        if function in self._returned:
            self._reach(address, self._returned[function], self._owners[address - 4])

    def _follow(self, address: int) -> None:
        """Record the states before the instructions that may be executed after the instruction at an address."""
        state, owners, word = self.states[address], self._owners[address], self._code.words[address]
        if word is None:
            self._reach(address + 4, UNKNOWN, owners)
            return
        opcode, target = word & 0x7F, jump_target(address, word)
        if opcode == JALR:
            self._follow_register(address, word, state, owners)
        elif opcode == JAL and target is not None:
            self._jump(address, word, target, state, owners)
        elif not self._ends(address, word):
            if target is not None:
                self._reach(target, state, owners)
            self._reach(address + 4, self._changed(address, word, state), owners)

    def _jump(self, address: int, word: int, target: int, state: VectorState, owners: frozenset[int]) -> None:
        """Follow a jump to a known address. It is a call if it links a register and its target isn't the next instruction."""
        if word >> 7 & 31 == 0 or target == address + 4:
            self._reach(target, state, owners)
            return
        self._call(target, address + 4)
        self._reach(target, state, frozenset([target]))

    def _follow_register(self, address: int, word: int, state: VectorState, owners: frozenset[int]) -> None:
        """Follow a jump to an address in a register: to a known address, to a return address, or to an unknown address."""
        register, link, offset = word >> 15 & 31, word >> 7 & 31, (word >> 20) - (word >> 31 << 12)
        base = constant_before(self._known, self._joins, address, register)
        if base is not None:
            self._jump(address, word, (base + offset) % (1 << 64) & ~1, state, owners)
        elif not link and not offset and register in self._links:
            for owner in owners:
                self._return(owner, state)
        else:
            if link:
                self._reach(address + 4, UNKNOWN, owners)
            self._lose(frozenset() if link else owners)

    def _ends(self, address: int, word: int) -> bool:
        """Return whether nothing is executed after an instruction: an ebreak, a call that exits, or an invalid word."""
        if word == ECALL:
            return constant_before(self._known, self._joins, address, A7) in EXITS
        return word == _EBREAK or row_of(word) is None

    def _changed(self, address: int, word: int, state: VectorState) -> VectorState:
        """Return the state after an instruction that isn't a jump."""
        if not is_vset(word) or row_of(word) is None:
            return VectorState(state.types, None) if is_fault_only_first(word) else state
        requested = self.requested(address, word)
        if requested is None:
            return UNKNOWN
        if not is_supported(requested):
            return START
        new = frozenset([requested])
        limit, length = ControlRegisters(vtype=requested).vlmax, word >> 15 & 31
        if word >> 30 == 3:  # vsetivli
            return VectorState(new, min(length, limit))
        if length:
            asked = constant_before(self._known, self._joins, address, length)
            return VectorState(new, None if asked is None else min(asked, limit))
        if word >> 7 & 31:
            return VectorState(new, limit)
        return self._with_same_length(state, requested)

    def _with_same_length(self, state: VectorState, requested: int) -> VectorState:
        """Return the state after a vset that preserves vl. If it would change VLMAX, the type after it is vill.

        state: the state before the vset; requested: the type that it requests
        """
        if state.types is None:
            return UNKNOWN
        limit = ControlRegisters(vtype=requested).vlmax
        results = [
            VectorState(frozenset([requested]), state.vl) if ControlRegisters(vtype=each).vlmax == limit else START
            for each in state.types
        ]
        first, *others = results
        for other in others:
            first = first.joined(other)
        return first


def flow_of_listing(words: Mapping[int, int]) -> Flow:
    """Return the flow of the instructions in a listing.

    Execution may start, in any state, at the first listed instruction, and at each instruction to which no listed instruction leads.

    words: the words by address
    """
    reached = {jump_target(address, word) for address, word in words.items()}
    reached |= {address + 4 for address, word in words.items() if not _leaves(word)}
    starts = [address for address in words if address not in reached] + [*words][:1]
    return Flow(Code(words, dict.fromkeys(starts, UNKNOWN), is_whole=False))


def _leaves(word: int) -> bool:
    """Return whether an instruction jumps without linking a register."""
    return word & 0x7F in (JAL, JALR) and word >> 7 & 31 == 0
