"""The lines that bring a new machine into a state."""

from collections.abc import Iterable, Iterator, Mapping

from ..instructions.accesses import LINE_BYTES, PAGE_BYTES, REGISTER_BYTES
from ..machine.answers import VILL
from ..machine.lines import DIGITS
from ..machine.start_state import STACK_POINTER
from .machine_state import TOUCHING, MachineState

TRACED = 16  # largest number of addresses in a trace
_GAP = 16  # the most unchanged bytes between changed bytes that one `poke` writes together with them, so that there are fewer lines

Memory = Mapping[int, bytes]


def lines_of(machine: MachineState, fresh: Mapping[str, Memory]) -> list[str]:
    """Return the lines that bring a new machine into a state, except for the counts of its vector unit.

    fresh: by the user's digit, the contents that the user's pages have before the program starts, by their addresses
    """
    lines, users = list[str](), {digit: _SetUp(digit, machine, fresh[digit]) for digit in sorted(machine.users)}
    if machine.last != DIGITS[-1]:  # a program that faults in its first slice makes its user the user of the last turn
        lines += [f"{machine.last} enter", f"{machine.last} go", "* slices 1", f"{machine.last} leave"]
    owner = users.get(machine.owner)
    touching = [user for user in users.values() if user is not owner and user.has_vector_state]
    if owner and not machine.is_dirty and owner.user.has_area and owner.has_vector_state:
        touching.insert(0, owner)
    for user in touching:
        lines += user.lines(is_touching=True)
    if touching and (owner is None or not machine.is_dirty and touching == [owner]):
        digit = next(digit for digit in DIGITS if digit != machine.owner and users.get(digit) not in touching)
        lines += [f"{digit} {command}" for command in ("enter", "map 0 1 x", f"asm 0 {TOUCHING}", "step 1", "leave")]
    if owner and machine.is_dirty:
        lines += owner.lines(is_touching=True)
    elif owner:
        lines += ([] if owner in touching else owner.lines(is_touching=False)) + owner.touching()
    for user in users.values():
        if user is not owner and user not in touching:
            lines += user.lines(is_touching=False)
    return lines + [line for user in users.values() for line in user.ending()]


class _SetUp:
    """Makes the lines for one user.

    has_vector_state: whether the user has vector state that only instructions can set
    """

    def __init__(self, digit: str, machine: MachineState, fresh: Memory) -> None:
        self.user, self._shown, self._digit = machine.users[digit], machine.shown[digit], digit
        control = self._shown.control
        self._fixed_point = control.vxrm << 1 | control.vxsat
        self._has_type = (control.vl, control.vtype) != (0, VILL)
        self.has_vector_state = self._has_type or control.vstart != 0 or self._fixed_point != 0
        self._memory = {page: bytearray(data) for page, data in fresh.items()}  # present contents of pages
        self._texts = dict[int, str]()  # instructions at addresses
        self._x = {2: STACK_POINTER} if self.user.image else dict[int, int]()
        self._vectors = [bytes(REGISTER_BYTES)] * 32
        self._code = self.user.first("x") or 0

    def lines(self, is_touching: bool) -> list[str]:
        """Return the lines that set up everything except policy, breakpoints and a running program.

        is_touching: whether the user executes a vector instruction, so that the vector unit holds the user's state
        """
        start = ["enter", *([f"load {self.user.image}"] if self.user.image else [])]
        start += [f"map {address:x} {pages} {permission}" for address, pages, permission in self.user.maps]
        return self._with_user([*start, *self._executed(is_touching), *self._written()])

    def touching(self) -> list[str]:
        """Return the lines that make the user the owner of the vector unit, and change nothing else. They come last."""
        page = self._code
        return self._with_user(
            [*self._step(page, TOUCHING), *self._restored(page), f"setpc {self._shown.registers.pc:x}"]
        )

    def ending(self) -> list[str]:
        """Return the lines that set the policy and breakpoints, and start a program that runs."""
        policy = [] if self._shown.policy == "keep" else [f"policy {self._shown.policy}"]
        breakpoints = [f"break {address:x}" for address in self._shown.breakpoints]
        return self._with_user(policy + breakpoints + ["go"] * self._shown.is_running)

    def _with_user(self, commands: Iterable[str]) -> list[str]:
        return [f"{self._digit} {command}" for command in commands]

    def _executed(self, is_touching: bool) -> Iterator[str]:
        """Return commands for the state that only instructions can set: output, control registers, trace and vector registers."""
        trace, vstart = self._shown.trace, self._shown.control.vstart if is_touching else 0
        is_full = len(trace) == TRACED  # a trace that isn't full has every executed instruction
        writes = [self._shown.output[at : at + LINE_BYTES] for at in range(0, len(self._shown.output), LINE_BYTES)]
        work = list(self._control_writes()) if is_touching else []
        has_room = is_full or len(writes) + len(work) < len(trace)
        work += [("csrrw x0, vstart, x5", vstart, 0)] if vstart and has_room else []
        places = iter([self._code] * TRACED if is_full else trace)
        for data, place in zip(writes, places):
            yield from self._write_call(place, data)
        for (text, first, second), place in zip(work, places):
            yield from self._step(place, text, x5=first, x6=second)
        for place in trace if is_full else places:
            yield from self._step(place, "addi x0, x0, 0")
        if vstart and not has_room:
            yield from self._fault(vstart)
        elif is_touching and not work:
            yield from self._step(self._code, TOUCHING)
        has_changed = bool(work or vstart)  # the vector unit's state
        needs_vset = not has_changed if is_touching else self.user.has_area
        others = [number for number in range(32) if self._vectors[number] != self._shown.vectors[number]]
        for number in others or [0] * needs_vset:
            yield f"vset v{number} {self._shown.vectors[number].hex()}"

    def _control_writes(self) -> Iterator[tuple[str, int, int]]:
        """Return instructions that write vector control registers except vstart, each with the values of x5 and x6 before it."""
        if self._has_type:
            yield "vsetvl x0, x5, x6", self._shown.control.vl, self._shown.control.vtype
        if self._fixed_point:
            yield "csrrw x0, vcsr, x5", self._fixed_point, 0

    def _write_call(self, place: int, data: bytes) -> Iterator[str]:
        """Return commands for a system call at an address that writes bytes into the output buffer."""
        page = self.user.first("r") or 0
        block = page + LINE_BYTES * (place // LINE_BYTES * LINE_BYTES == page)
        yield f"poke {block:x} {data.hex()}"
        self._spoil(block, LINE_BYTES)
        yield from self._step(place, "ecall", x17=64, x10=1, x11=block, x12=len(data))
        self._x[10] = len(data)

    def _fault(self, vstart: int) -> Iterator[str]:
        """Return commands for a load or store that faults at an element, which sets vstart; none if no page allows one."""
        for permission, text in (("r", "vl8re8.v v0, (x5)"), ("w", "vs8r.v v0, (x5)")):
            pages = [page for page, allowed in self.user.pages.items() if permission in allowed]
            for end in [page + PAGE_BYTES for page in pages if page + PAGE_BYTES not in pages][:1]:
                yield from self._step(self._code, text, x5=end - vstart)
                self._vectors[:8] = [b""] * 8  # unknown now, like the contents of the page
                self._spoil(end - vstart, vstart)
                return

    def _step(self, place: int, text: str, **registers: int) -> Iterator[str]:
        """Return commands that execute one instruction at an address. registers: values to set in scalar registers before it"""
        for name, value in registers.items():
            yield from self._set(int(name[1:]), value)
        if self._texts.get(place) != text:
            yield f"asm {place:x} {text}"
            self._spoil(place, 4)
            self._texts[place] = text
        yield from (f"setpc {place:x}", "step 1")

    def _set(self, number: int, value: int) -> Iterator[str]:
        """Return the command that sets a scalar register; none if it has this value already."""
        if self._x.get(number, 0) != value:
            self._x[number] = value
            yield f"set x{number} {value:x}"

    def _spoil(self, address: int, length: int) -> None:
        """Note that bytes of a page were overwritten, so that `_restored` writes the wanted bytes again."""
        page, first = address // PAGE_BYTES * PAGE_BYTES, address % PAGE_BYTES
        target = self._shown.memory[page][first : first + length]
        self._memory[page][first : first + length] = bytes(byte ^ 0xFF for byte in target)
        self._texts.clear()

    def _written(self) -> Iterator[str]:
        """Return commands that set memory, scalar registers and the program counter."""
        for page in self._shown.memory:
            yield from self._restored(page)
        for number in range(1, 32):
            yield from self._set(number, self._shown.registers.x[number])
        yield f"setpc {self._shown.registers.pc:x}"

    def _restored(self, page: int) -> Iterator[str]:
        """Return commands that write the bytes of a page that differ from the wanted ones."""
        have, target = self._memory[page], self._shown.memory[page]
        runs = list[list[int]]()  # the first and the last offset of each run of bytes
        for place in range(PAGE_BYTES) if have != target else ():
            if have[place] == target[place]:
                continue
            if runs and place - runs[-1][1] <= _GAP and place - runs[-1][0] < LINE_BYTES:
                runs[-1][1] = place
            else:
                runs.append([place, place])
        for first, last in runs:
            yield f"poke {page + first:x} {target[first : last + 1].hex()}"
        self._memory[page] = bytearray(target)
