"""The state of one user on a page: a plain object, made from the machine's answers to read-only lines."""

from collections import Counter
from collections.abc import Iterable, Iterator, Mapping, Sequence
from typing import NotRequired, TypedDict

from ..assembler.data_runs import DataType
from ..guest.calls import shown_calls
from ..guest.changes import Registers
from ..guest.guest import SET_UP_ADDRESS, VECTOR_LOOKS, Guest
from ..guest.jumps import jump_target
from ..instructions.accesses import PAGE_BYTES, ROW_BYTES, base_address, vector_instruction
from ..instructions.calls import ECALL, unsupported_call
from ..instructions.reasons import describe_stop
from ..instructions.words import LOAD_FP, OP_V, STORE, STORE_FP
from ..machine.answers import (
    Addresses,
    Answer,
    ControlRegisters,
    Listing,
    Output,
    Position,
    Run,
    ScalarRegisters,
    Stop,
    VectorRegister,
)
from ..machine.lines import words_of
from ..machine.start_state import START, STACK_END
from ..meanings.instruction import End
from .executed import ShownExecuted, shown_executed
from .last_instruction import (
    Access,
    ReadRegisters,
    accesses,
    may_access,
    read_registers,
    registers_kept,
    scalar_accesses,
)
from .operands import ShownOperand, shown_operands
from .register_groups import RegisterGroups, ShownRegisterGroup
from .variables import ShownVariable


class ShownData(TypedDict):
    """Consecutive numbers of one type, or a text. count: how many numbers there are, or the number of bytes of the text"""

    type: DataType
    count: int


class SourceNames(TypedDict):
    """The names of the source that was assembled last.

    Addresses are in hexadecimal digits.

    labels: the labels at each address that has some
    lines: the text of each source line with its comment, by the address of the line's first instruction
    data: the numbers and texts of an assembler source's directives, by the address of the first byte
    line_numbers: for an assembler source, the line number of each instruction, by the instruction's address
    aliases: for an assembler source, the pseudo-instructions that expand to vector instructions, by their addresses
    stops: the addresses of each line's breakpoints, by the line's number
    starts: for a compiled source (`compilers/compiled.py`), the line number of code, or 0 without a line, by the code's first address
    variables: for a compiled source, the variables of the debug data
    """

    labels: dict[str, list[str]]
    lines: dict[str, str]
    line_numbers: NotRequired[Mapping[str, int]]
    aliases: NotRequired[Mapping[str, str]]
    starts: NotRequired[Mapping[str, int]]
    stops: NotRequired[Mapping[str, Sequence[str]]]
    variables: NotRequired[Sequence[ShownVariable]]
    data: NotRequired[Mapping[str, ShownData]]


class State(TypedDict):
    """A user's state. Addresses and values are in hexadecimal digits without leading zeros, and bytes have two digits each.

    run: whether the program runs. If the user is absent, there are no other keys
    pc, and all keys up to `memory`: present once the program has been stopped. While it runs, only pc is updated
    x: the values of the 32 scalar registers, by number; v: the 32 bytes of each vector register, by number
    policy: the policy for agnostic elements, `keep` or `ones`
    code: the words of the program with their texts, by address; operands: the vector operands of each word, by address
    groups: the vector register groups to show, by their first registers. A register is in the group of the last instruction that wrote it
    targets: the address to which a branch or `jal` may go, by the instruction's address
    memory: rows of 16 bytes, by the address of the first byte
    instruction: the address of the last instruction that was executed in the last lines, or that faulted
    executed: the elements of this instruction, if it has vector operands
    read, accessed: in a class, the registers before this instruction, and the memory that it accessed, as far as they are known
    faulted, illegal: whether this instruction faulted, and whether it is illegal
    stop: sentences that explain why the program stopped in the last lines
    calls: a sentence about each call that the machine doesn't support, by the address of the ECALL. The calls are those that the code
        shows, and those that the program has reached. If there are none, the key is missing
    output: the bytes that answers to `out` have shown
    outputs: in a class, in place of `output`: the last 64 KB of these bytes, in blocks by number
    began: in a class, how often the user's machine was started anew; image: in a class, whether it started with an image
    prepared: whether the last lines set the program counter and executed nothing after that, as before a case of an exercise
    labels, lines, line_numbers, aliases, starts, stops, variables, data: in a class, the keys of `SourceNames`
    """

    run: Run
    pc: NotRequired[str]
    x: NotRequired[dict[str, str]]
    vtype: NotRequired[str]
    vl: NotRequired[int]
    vstart: NotRequired[int]
    vxrm: NotRequired[int]
    vxsat: NotRequired[int]
    breaks: NotRequired[list[str]]
    policy: NotRequired[str]
    v: NotRequired[dict[str, str]]
    code: NotRequired[dict[str, str]]
    operands: NotRequired[dict[str, Sequence[ShownOperand]]]
    groups: NotRequired[Mapping[str, ShownRegisterGroup]]
    targets: NotRequired[Mapping[str, str]]
    memory: NotRequired[dict[str, str]]
    instruction: NotRequired[str]
    executed: NotRequired[ShownExecuted]
    faulted: NotRequired[bool]
    illegal: NotRequired[bool]
    read: NotRequired[ReadRegisters]
    accessed: NotRequired[Sequence[Access]]
    stop: NotRequired[str]
    calls: NotRequired[Mapping[str, str]]
    output: NotRequired[str]
    outputs: NotRequired[Mapping[str, str]]
    began: NotRequired[int]
    image: NotRequired[bool]
    prepared: NotRequired[bool]
    labels: NotRequired[dict[str, list[str]]]
    lines: NotRequired[dict[str, str]]
    line_numbers: NotRequired[Mapping[str, int]]
    aliases: NotRequired[Mapping[str, str]]
    starts: NotRequired[Mapping[str, int]]
    stops: NotRequired[Mapping[str, Sequence[str]]]
    variables: NotRequired[Sequence[ShownVariable]]
    data: NotRequired[Mapping[str, ShownData]]


ABSENT: State = {"run": "absent"}
MAX_ROWS = 64
MAPPED_PAGES, MAX_PAGES = 8, 32  # numbers of watched pages up to which `map` adds pages, and other lines do
MAX_WORDS = 512
ILLEGAL = 2  # cause of a fault
WORDS_AHEAD = 8
_NUMBERS = [f"{number}" for number in range(32)]  # of registers
_ECALL_DIGITS = f"{ECALL:08x}"
_LOOKS = ("state", "regs", "vcsr", "breaks", "trace")


class WatchSet:
    """The addresses in one user's memory that a page reads: words of the program, and pages and rows of data; and the breakpoints."""

    def __init__(self) -> None:
        self.code: set[int] = set()  # addresses of words
        self.pages: set[int] = set()  # addresses of pages
        self.named: set[int] = set()  # addresses of rows that lines have named
        self.accessed: dict[int, int] = {}  # by page: the first row at which a load or store started
        self.breaks: set[int] = set()  # addresses of breakpoints, which can't be read while the program runs
        self.is_compiled = False  # whether the program in memory is compiled
        self.end = 0  # the address of the ebreak after the last instruction of a source; 0 without a source
        self.trace: Sequence[int] = []  # the trace in the last state
        self.groups = RegisterGroups()
        # Addresses from which words were listed, while memory hasn't changed.
        self.followed: set[int] = set()

    def follow(self, line: str) -> None:
        """Add the addresses that a user's accepted line names. A line that enters, leaves or loads removes all addresses before.

        A line that sets up the start of a program adds the last page of the stack.
        """
        command = line.partition(" ")[2]
        if command in START:
            self._add_pages(STACK_END - PAGE_BYTES, PAGE_BYTES)
            return
        match words_of(line):
            case ["enter"] | ["leave"] | ["load", _]:
                for places in (self.code, self.pages, self.named, self.breaks):
                    places.clear()
                self.accessed.clear()
                self.is_compiled, self.end = False, 0
                self.groups = RegisterGroups()
            case ["map", address, pages, _]:
                self._add_pages(int(address, 16), int(pages) * PAGE_BYTES, MAPPED_PAGES)
            case ["poke", address, digits]:
                self._name(int(address, 16), len(digits) // 2)
            case ["peek", address, length]:
                self._name(int(address, 16), int(length))
            case ["asm", address, *_]:
                self.code.add(int(address, 16))
            case ["break", address]:
                self.breaks.add(int(address, 16))
            case ["unbreak", address]:
                self.breaks.discard(int(address, 16))

    def take_compiled(self, text: range, rows: Iterable[int]) -> None:
        """Add the addresses of a compiled program.

        text: the addresses of its instructions, which are added to the words of the program
        rows: the addresses of the rows with its variables. They replace all rows that lines have named
        """
        self.code.update(text[: max(0, MAX_WORDS - len(self.code))])
        self.named, self.is_compiled = set(rows), True

    def _name(self, address: int, length: int) -> None:
        self.named.update(range(address // ROW_BYTES * ROW_BYTES, address + length, ROW_BYTES))
        self._add_pages(address, length)

    def _add_pages(self, address: int, length: int, limit: int = MAX_PAGES) -> None:
        pages = range(address // PAGE_BYTES * PAGE_BYTES, address + length, PAGE_BYTES)
        self.pages.update(pages[: max(0, limit - len(self.pages))])

    def add_accessed(self, word: int, x: Sequence[int]) -> None:
        """Add the page and the row of the address at which a load or store starts. Other instructions add nothing.

        word: the instruction's word; x: the scalar registers before the instruction
        """
        address = base_address(word, x)
        if address is not None:
            self._add_pages(address % (1 << 48), 1)
            self.accessed.setdefault(address % (1 << 48) // PAGE_BYTES, address % (1 << 48) // ROW_BYTES * ROW_BYTES)


def look_at(
    guest: Guest,
    watch_set: WatchSet,
    before: State,
    answers: Sequence[Answer],
    executed: str = "",
    is_done: bool = True,
) -> State:
    """Return a user's state after some lines. While the program runs, only `run`, `pc` and `output` are updated.

    watch_set: the addresses in memory to read
    before: the user's state before the lines
    answers: the answers to the lines that the user sent, and the stops of the user's program
    executed: the listing's text for the only instruction that the lines may have executed; "" if they may have executed others
    is_done: whether one of the lines or more wasn't read-only
    """
    opcode = int(executed[:8], 16) & 0x7F if executed else None
    has_vectors = opcode in (None, OP_V, LOAD_FP)
    place, scalar, control, breaks, traced, *vectors = guest.ask(*_LOOKS, *(VECTOR_LOOKS if has_vectors else ()))
    if not isinstance(place, Position):
        return ABSENT.copy()
    state = before.copy()
    if is_done:
        _forget_last(state)
    _set_position(state, place, answers)
    if place.run == "running":
        return state
    assert isinstance(scalar, ScalarRegisters) and isinstance(control, ControlRegisters)
    assert isinstance(breaks, Addresses) and isinstance(traced, Addresses)
    set_registers(state, scalar, control)
    state["breaks"] = [f"{address:x}" for address in breaks.addresses]
    state["policy"] = guest.session.policy[guest.user]
    if has_vectors:
        set_vectors(state, [each for each in vectors if isinstance(each, VectorRegister)])
    trace, may_store = traced.addresses, opcode in (None, STORE, STORE_FP)
    counts = [answer.number for answer in answers if isinstance(answer, Position) and answer.kind == "stepped"]
    stepped = min(1, sum(counts)) if executed else sum(counts)
    _set_code(state, _code(guest, watch_set, place.pc, trace, {} if may_store else state["code"]))
    _take_calls(state)
    watch_set.groups.follow(state["code"], trace, stepped, control.vtype)
    state["groups"] = watch_set.groups.shown(place.pc)
    text = state["code"].get(state["pc"], "")
    _set_memory(guest, watch_set, state, scalar, text, may_store)
    if trace and trace[-1] != SET_UP_ADDRESS and (counts or trace != watch_set.trace):
        state["instruction"] = f"{trace[-1]:x}"
    _set_stop(state, answers, text, control, watch_set.end)
    watch_set.trace = trace
    return state


def _forget_last(state: State) -> None:
    """Remove the last instruction and the last stop from a state."""
    state.pop("instruction", None)
    state.pop("executed", None)
    state.pop("read", None)
    state.pop("accessed", None)
    state.pop("faulted", None)
    state.pop("illegal", None)
    state.pop("stop", None)
    state.pop("prepared", None)


def _set_position(state: State, place: Position, answers: Sequence[Answer]) -> None:
    """Set whether the program runs, and its program counter, and add the output that the answers show. place: the answer to `state`"""
    state["run"], state["pc"] = place.run, f"{place.pc:x}"
    for answer in answers:
        if isinstance(answer, Output) and answer.data:
            state["output"] = state.get("output", "") + answer.data.hex()


def _set_memory(
    guest: Guest, watch_set: WatchSet, state: State, scalar: ScalarRegisters, text: str, may_store: bool
) -> None:
    """Read the memory of a state, if it may have changed, or if a page was added to the watch set.

    text: the line of the listing at the program counter; may_store: whether an instruction may have stored something
    """
    pages = len(watch_set.pages)
    if text:
        watch_set.add_accessed(int(text[:8], 16), scalar.x)
    if may_store or len(watch_set.pages) > pages:
        state["memory"] = _memory(guest, watch_set)


def _set_code(state: State, code: dict[str, str]) -> None:
    """Set the listing of a state. If it has changed, set the operands and targets of its lines as well."""
    if code != state.get("code"):
        state["code"] = code
        words = {address: int(line[:8], 16) for address, line in code.items()}
        state["operands"] = {address: shown_operands(word) for address, word in words.items()}
        targets = {address: jump_target(int(address, 16), word) for address, word in words.items()}
        state["targets"] = {address: f"{target:x}" for address, target in targets.items() if target is not None}


def _set_stop(state: State, answers: Sequence[Answer], text: str, control: ControlRegisters, end: int) -> None:
    """Set the description of the last stop among the answers, if there is one.

    text: the line of the listing at the program counter; end: as in `WatchSet`
    """
    stop = next((answer for answer in reversed(answers) if isinstance(answer, Stop)), None)
    if stop:
        state["stop"] = describe_stop(stop, int(text[:8], 16) if text else None, control, text[9:], end)
    if stop and stop.kind == "fault":
        state.update({"instruction": state["pc"], "faulted": True})
        if stop.cause == ILLEGAL:
            state["illegal"] = True


def add_executed(state: State, before: State | None) -> None:
    """Add the elements of the last instruction to a state, if this instruction is in the listing and has vector operands.

    before: the state before that instruction; None if it is unknown
    """
    line = state["code"].get(state.get("instruction", ""), "")
    if not line or not state["operands"][state["instruction"]]:
        return
    word, control = int(line[:8], 16), control_of(state)
    end: End = "ran"
    if state.get("faulted"):
        end = "illegal" if state.get("illegal") else "fault"
    if before is not None and before.get("pc") == state["instruction"]:
        known, earlier = (True, True, True), registers_of(before)
    else:
        kept = registers_kept(word, state["x"], state["v"], control)
        known, earlier = (*_known(word, control.vtype, kept), False), registers_of(state)
    v = bytes.fromhex("".join(state["v"][number] for number in _NUMBERS))
    executed = shown_executed(word, earlier, control, v, end, known)
    if executed:
        state["executed"] = executed


def _known(word: int, vtype: int, kept: ReadRegisters) -> tuple[bool, bool]:
    """Return whether the values before an instruction of its source registers are known, and whether those of its destination are.

    vtype: the vector type; kept: the registers that the instruction can't have changed, whose values are known
    """
    instruction = vector_instruction(word, vtype)
    if instruction is None:
        return False, False
    sources = [it for it in instruction.operands if it.noun != "destination"]
    has_sources = all(f"{number}" in kept["v"] for it in sources for number in it.registers)
    has_mask = "v0" in kept or not instruction.is_masked
    return has_sources and has_mask, len(sources) == len(instruction.operands)


def add_last_instruction(state: State, before: State | None) -> None:
    """Add the elements of the last instruction to a state, the registers that it read, and its memory accesses, if it is in the listing.

    before: the state before that instruction; None if it is unknown
    """
    line = state["code"].get(state.get("instruction", ""), "")
    if not line:
        return
    add_executed(state, before)
    word, is_faulting = int(line[:8], 16), state.get("faulted", False)
    if before and before.get("pc") == state["instruction"]:
        state["read"] = read_registers(word, before["x"], before["v"], control_of(before))
        known = registers_of(before) if may_access(word) else None
        state["accessed"] = accesses(word, known, control_of(state), is_faulting) if known else []
        return
    state["read"] = registers_kept(word, state["x"], state["v"], control_of(state))
    accessed = None if is_faulting else scalar_accesses(word, registers_of(state))
    if accessed is not None:
        state["accessed"] = accessed


def control_of(state: State) -> ControlRegisters:
    """Return the vector control registers of a state that has registers."""
    return ControlRegisters(state["vl"], int(state["vtype"], 16), state["vstart"], state["vxrm"], state["vxsat"])


def registers_of(state: State) -> Registers:
    """Return the registers of a state that has registers."""
    x, v = ([given[number] for number in _NUMBERS] for given in (state["x"], state["v"]))
    return Registers([int(digits, 16) for digits in x], control_of(state), bytearray.fromhex("".join(v)))


class VisibleRows:
    """The rows of a user's memory that a page shows: those that lines name, those that change, and those that aren't zero.

    Rows of the listing are shown only if a line names them. If the program accesses a page that has no such row, one of this page's rows is
    shown. The browser takes a byte without a row as 0 if its page has another row, and as unmapped otherwise.
    """

    def __init__(self) -> None:
        # Of each row so far: 2 if it has ever changed, else 1 if it isn't zero, else 0.
        self._weights: Counter[str] = Counter()
        self._relevant: dict[str, int] = {}  # the weights that aren't 0, in the same order
        self._last: dict[str, str] = {}

    def add(self, state: State) -> None:
        """Take the rows of the user's next state into account."""
        if "memory" not in state or state["memory"] is self._last:
            return
        last = self._last
        for row, digits in state["memory"].items():
            if (before := last.get(row)) != digits:
                self._weights[row] = max(self._weights[row], 2 if before is not None else int(digits.strip("0") != ""))
        self._last = state["memory"]
        self._relevant = {row: weight for row, weight in self._weights.items() if weight}

    def rows(self, watch_set: WatchSet, minimum: int = 1) -> set[str]:
        """Return the addresses of the most relevant rows.

        minimum: 1 to include rows that aren't zero; 2 to include only rows that have changed, in addition to rows that lines name
        """
        listing = {f"{row * ROW_BYTES:x}" for row in {address // ROW_BYTES for address in watch_set.code}}
        weights = Counter({row: it for row, it in self._relevant.items() if it >= minimum and row not in listing})
        weights.update({f"{row:x}": 3 for row in watch_set.named if f"{row:x}" in self._weights})
        shown = {row for row, _ in weights.most_common(MAX_ROWS)}
        pages = {int(row, 16) // PAGE_BYTES for row in shown}
        others = {f"{row:x}" for page, row in watch_set.accessed.items() if page not in pages}
        return shown | others & self._weights.keys()


def with_rows(state: State, rows: set[str]) -> State:
    """Return a state with only these rows of its memory. rows: their addresses"""
    if "memory" not in state:
        return state
    shown, memory = state.copy(), state["memory"]
    shown["memory"] = {row: memory[row] for row in sorted(rows & memory.keys(), key=lambda row: int(row, 16))}
    return shown


def set_registers(state: State, scalar: ScalarRegisters, control: ControlRegisters) -> None:
    """Set the scalar registers and vector control registers of a state."""
    state["x"] = {f"{number}": f"{value:x}" for number, value in enumerate(scalar.x)}
    state["vtype"], state["vl"], state["vstart"] = f"{control.vtype:x}", control.vl, control.vstart
    state["vxrm"], state["vxsat"] = control.vxrm, control.vxsat


def set_vectors(state: State, registers: Sequence[VectorRegister]) -> None:
    """Set the 32 vector registers of a state, in their order."""
    state["v"] = {f"{number}": register.data.hex() for number, register in enumerate(registers)}


def _take_calls(state: State) -> None:
    """Set the unsupported system calls of a state. Remove the calls at addresses that no longer have an ECALL."""
    if not any(line.startswith(_ECALL_DIGITS) for line in state["code"].values()):
        state.pop("calls", None)
        return
    words = {int(address, 16): int(line[:8], 16) for address, line in state["code"].items()}
    before, shown = state.get("calls", {}), shown_calls(words)
    calls = {int(address, 16): text for address, text in before.items() if words.get(int(address, 16)) == ECALL} | shown
    pc = int(state["pc"], 16)
    if words.get(pc) == ECALL and pc not in shown:
        calls[pc] = unsupported_call([int(state["x"][f"{number}"], 16) for number in range(32)]) or calls.get(pc, "")
    state["calls"] = {f"{address:x}": text for address, text in calls.items() if text}
    if not state["calls"]:
        del state["calls"]


def _code(guest: Guest, watch_set: WatchSet, pc: int, trace: Sequence[int], known: dict[str, str]) -> dict[str, str]:
    """Return the listing: words that lines wrote, executed words, and a few words from the program counter on.

    The instruction that sets up a case of an exercise isn't listed.

    known: the listing before, whose addresses are in the watch set; empty if memory may have changed
    """
    if not known:
        watch_set.followed.clear()
    if len(watch_set.code) < MAX_WORDS:
        watch_set.code.update(trace)
        if pc not in watch_set.followed:
            watch_set.code.update(_ahead(guest, pc))
            watch_set.followed.add(pc)
    watch_set.code.discard(SET_UP_ADDRESS)
    if len(known) == len(watch_set.code):
        return known
    new = {address for address in watch_set.code if f"{address:x}" not in known}
    return known | {f"{it.address:x}": f"{it.word:08x} {it.text}" for it in guest.words(new)}


def _ahead(guest: Guest, pc: int) -> Iterator[int]:
    """Yield the addresses of instructions from one on, up to a word that isn't an instruction, or to the end of the page."""
    (listing,) = guest.ask(f"dis {pc:x} {min(WORDS_AHEAD, (PAGE_BYTES - pc % PAGE_BYTES) // 4)}")
    for place, word in enumerate(listing.words if isinstance(listing, Listing) else ()):
        if place and word.text.startswith(".word"):
            return
        yield word.address


def _memory(guest: Guest, watch_set: WatchSet) -> dict[str, str]:
    """Return the rows of all pages that are watched and mapped, by address."""
    rows = dict[str, str]()
    for page in sorted(watch_set.pages):
        digits = guest.peek(page, PAGE_BYTES).hex()
        starts = range(0, len(digits), 2 * ROW_BYTES)
        rows |= {f"{page + start // 2:x}": digits[start : start + 2 * ROW_BYTES] for start in starts}
    return rows
