"""The machine's answers as it printed them, without the digits of users."""

from vecmon_lab.machine.answers import (
    Addresses,
    Answer,
    ControlRegisters,
    Done,
    Granted,
    Listing,
    Loaded,
    Memory,
    Output,
    ScalarRegisters,
    Switches,
    Users,
    VectorRegister,
    Word,
    elements_in,
)


def printed(answer: Answer) -> str:
    """An answer's lines."""
    match answer:
        case Done(word):
            return word
        case Loaded(pc, pages):
            return f"loaded pc={pc:016x} pages={pages}"
        case Memory(address, data):
            return f"peek {address:016x} {data.hex()}"
        case ScalarRegisters(pc, x):
            cells = [f"x{number} {value:016x}" for number, value in enumerate(x)]
            return "\n".join([f"pc {pc:016x}", *(" ".join(cells[at : at + 4]) for at in range(0, 32, 4))])
        case VectorRegister(number, width, data):
            return " ".join([f"v{number}", *(f"{value:0{width // 4}x}" for value in elements_in(data, width))])
        case ControlRegisters():
            named = vars(answer) | {"vtype": f"{answer.vtype:016x}"}
            return " ".join(f"{name}={value}" for name, value in named.items())
        case Word(address, word, text):
            return f"{address:016x} {word:08x} {text}".rstrip()
        case Listing(words):
            return "\n".join(map(printed, words))
        case Addresses(name, addresses):
            return " ".join([name, *(f"{address:016x}" for address in addresses)])
        case Output(data):
            return f"out {len(data)} {data.hex()}".rstrip()
        case Granted(slices):
            return f"granted {slices}"
        case Users(runs):
            return " ".join(["list", *(f"{digit}:{run}" for digit, run in runs.items())])
        case Switches(counts):
            return " ".join(f"{name} {count}" for name, count in counts.items())
    return str(answer)
