"""Print golden results of single instructions: the machine's results, one line of JSON for each case (docs/GOLDEN_VECTORS.md).

With `self_checking`, write programs that execute the cases and compare the results.
"""

import argparse
import json
import pathlib
import sys
from collections.abc import Iterator

from .. import LabError
from ..guest.changes import Registers, Stepper, runs
from ..guest.guest import Guest, pokes
from ..harness.environments import ENVIRONMENTS
from ..instructions.left_open import open_result
from ..instructions.table import Row, instruction_table
from ..machine.program import find_program
from ..machine.session import Session
from .cases import CODE, DATA, DATA_END, PC, READ_ONLY, Case, draw_case, moved, plan, touches_memory, without_choices
from .self_checking import Writer, executed

_CASES_OF_A_SESSION = 500
_PROLOGUE = "5770b5807390a6007310970073108600"  # vsetvl x0, x10, x11; csrrw x0, and vxrm, x13; vxsat, x14; vstart, x12


def add_arguments(parser: argparse.ArgumentParser) -> None:
    """Add the arguments of `vecmon-lab vectors`."""
    parser.add_argument("names", metavar="NAME", nargs="+", help="an instruction, such as vadd.vv; all means each one")
    parser.add_argument(
        "--cases",
        metavar="N",
        type=int,
        help="cases of each instruction; by default one for each legal type, masked and not",
    )
    parser.add_argument("--seed", metavar="S", type=int, default=0, help="another seed gives other cases (default: 0)")
    parser.add_argument(
        "--policy", choices=("keep", "ones"), default="keep", help="the policy for agnostic elements; by default keep"
    )
    parser.add_argument("--elf", metavar="DIR", type=pathlib.Path, help="write self-checking programs to DIR")
    parser.add_argument(
        "--asm", metavar="DIR", type=pathlib.Path, help="write their sources, for stock assemblers, to DIR"
    )
    help_text = (
        "also write cases whose results the standard leaves open to programs and sources; JSON lines have them always"
    )
    parser.add_argument("--choices", action="store_true", help=help_text)
    parser.add_argument(
        "--environment",
        choices=ENVIRONMENTS,
        default="linux",
        help="the environment of the programs; by default %(default)s",
    )


def names() -> list[str]:
    """Return the values that the argument NAME of the command line may have."""
    return ["all", *instruction_table()]


def run(arguments: argparse.Namespace) -> int:
    """Print the cases, or write them as programs, as the arguments say. Return the exit status. Raises LabError for invalid arguments."""
    program, table = find_program(), instruction_table()
    names = list(table) if arguments.names == ["all"] else arguments.names
    if "all" in names:
        raise LabError("all means each instruction: give no other name")
    if invalid := [name for name in names if name not in table]:
        raise LabError(f"there is no instruction {invalid[0]}: docs/INSTRUCTIONS.md lists them, and all means each one")
    if arguments.cases is not None and arguments.cases < 1:
        raise LabError("--cases takes a number from 1 up")
    has_programs = bool(arguments.elf or arguments.asm)
    if arguments.choices and not has_programs:
        raise LabError("--choices is for --elf and --asm: JSON lines have these cases always")
    writer = Writer(arguments.elf, arguments.asm, arguments.environment, arguments.choices) if has_programs else None
    base = ENVIRONMENTS[arguments.environment].base if writer else 0
    for name in names:
        results = golden_results(
            program,
            table[name],
            arguments.cases,
            arguments.seed,
            arguments.policy,
            base,
            not writer or arguments.choices,
        )
        if writer:
            writer.write(name, list(results))
        else:
            sys.stdout.writelines(f"{json.dumps(golden, separators=(',', ':'))}\n" for golden in results)
    if writer:
        print("\n".join(writer.summary()))
    return 0


def golden_results(
    program: pathlib.Path,
    row: Row,
    cases: int | None = None,
    seed: int = 0,
    policy: str = "keep",
    base: int = 0,
    has_choices: bool = True,
) -> Iterator[dict[str, object]]:
    """Yield cases of an instruction with the machine's results, as docs/GOLDEN_VECTORS.md describes them. Raises the errors of `Session`.

    program: the path of vecmon
    cases: the number of cases; None for one case of each purpose in the instruction's plan
    base: the number to add to all addresses that docs/GOLDEN_VECTORS.md gives
    has_choices: whether to use all cases as drawn. If not, a case whose result the standard leaves open is executed with vstart 0
        and an aligned address instead
    """
    count = len(plan(row, seed)) if cases is None else cases
    for first in range(0, count, _CASES_OF_A_SESSION):
        with Session(program) as session:
            for number in range(first, min(count, first + _CASES_OF_A_SESSION)):
                case = moved(draw_case(row, number, seed), row, base)
                golden = execute_case(session, row, case, policy, base)
                if not has_choices and open_result(executed(golden)):
                    golden = execute_case(session, row, without_choices(case, row), policy, base)
                yield golden


def execute_case(session: Session, row: Row, case: Case, policy: str = "keep", base: int = 0) -> dict[str, object]:
    """Execute a case, and return it with the machine's results, as docs/GOLDEN_VECTORS.md describes them.

    User 1 enters the session before the case, and leaves after it.

    base: the number to add to the addresses of the instruction and of memory that docs/GOLDEN_VECTORS.md gives
    """
    pages = {base + CODE: "rx"} | ({base + DATA: "rw", base + READ_ONLY: "r"} if touches_memory(row) else {})
    guest = Guest(session, report=lambda address, sentence: None)  # the numbers of calls are random
    pc, data = base + PC, base + DATA
    guest.ask(*_set_up(case, pages, policy))
    stepper = Stepper(guest)
    length = DATA_END - DATA if data in pages else 0
    text, (before, old_values), old = stepper.fetch(pc)[1], _named(pc, stepper.registers), guest.peek(data, length)
    stop = guest.step()
    stepper.look()
    (after, left), new, output = _named(guest.pc, stepper.registers), guest.peek(data, length), guest.output()
    guest.ask("leave")
    golden: dict[str, object] = {"name": row.name, "word": f"{case.word:08x}", "text": text, "policy": policy, **before}
    golden |= {
        kind: {number: it for number, it in values.items() if it.strip("0")} for kind, values in old_values.items()
    }
    golden["pages"] = {f"{address:x}": permissions for address, permissions in pages.items()}
    golden["memory"] = {f"{address:x}": data.hex() for address, data in case.memory.items()}
    golden["end"] = stop.kind if stop else "ran"
    if stop and stop.kind != "ebreak":
        is_fault = stop.kind == "fault"
        golden |= {"cause": stop.cause, "value": f"{stop.value:x}"} if is_fault else {"status": stop.number}
    changes: dict[str, object] = {name: value for name, value in after.items() if value != before[name]}
    changes |= {kind: {n: it for n, it in values.items() if it != old_values[kind][n]} for kind, values in left.items()}
    stored = {f"{data + first:x}": new[first:last].hex() for first, last in runs(old, new)}
    changes |= {"memory": stored, "output": output.hex()}
    return golden | {"after": {key: value for key, value in changes.items() if value not in ({}, "")}}


def _set_up(case: Case, pages: dict[int, str], policy: str) -> Iterator[str]:
    """Yield the commands that set up the state before a case. pages: the permissions of the case's pages, by address"""
    code, control = min(pages), dict(enumerate(vars(case.control).values(), 10))
    pc = code + PC - CODE
    yield "enter"
    yield f"policy {policy}"
    yield from (f"map {address:x} 1 {permissions}" for address, permissions in pages.items())
    yield f"poke {code:x} {_PROLOGUE}"
    yield f"poke {pc:x} {case.word.to_bytes(4, 'little').hex()}"
    for address, data in case.memory.items():
        yield from pokes(address, data)
    yield from (f"set x{number} {value:x}" for number, value in control.items())
    yield from (f"setpc {code:x}", "step 4", f"setpc {pc:x}")
    yield from (f"set x{number} {value:x}" for number, value in (dict.fromkeys(control, 0) | case.x).items())
    yield from (f"vset v{number} {data.hex()}" for number, data in case.v.items())


def _named(pc: int, registers: Registers) -> tuple[dict[str, object], dict[str, dict[int, str]]]:
    """Return two dictionaries in the format of golden vectors.

    The first has the values of pc and of the control registers by name. The second has, under `x` and `v`, the digits of the scalar
    and vector registers by number.
    """
    control: dict[str, object] = {"pc": f"{pc:x}", **vars(registers.control), "vtype": f"{registers.control.vtype:x}"}
    x = {number: f"{value:x}" for number, value in enumerate(registers.x) if number}
    return control, {"x": x, "v": {number: registers.v[32 * number : 32 * number + 32].hex() for number in range(32)}}
