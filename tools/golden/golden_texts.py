"""The texts of golden theorems: definitions of cases, contracts that cite them, and proofs.

A case is a definition of type `Case`, or `Stored` for a store (crates/test_definitions/specs). A module of cases has three files: one in
`specs`, one in `src` with a function whose clauses state that the cases agree, and the proof of that function.
"""

from collections import Counter
from collections.abc import Iterator, Sequence

from tools.golden.golden_cases import Vector, reasons_of

SEWS = ("E8", "E16", "E32", "E64")
LMULS = ("M1", "M2", "M4", "M8", "", "Mf8", "Mf4", "Mf2")
MODES = ("NearestUp", "NearestEven", "Down", "Odd")
ENDS = {"ran": "Retired", "ill": "Illegal", "target": "Misaligned", "ebreak": "Breakpoint"}
FAULTS = {"load": "LoadFault", "store": "StoreFault"}
CODE = 0x10000800
VILL = 1 << 63


def names_of(vectors: Sequence[Vector]) -> list[str]:
    """The names of the cases of a module: the mnemonics, with a number from the second case of one on."""
    found, seen = list[str](), Counter[str]()
    for vector in vectors:
        name = vector.name.replace(".", "_")
        name += {"ill": "_illegal", "target": "_misaligned", "load": "_fault", "store": "_fault"}.get(vector.end, "")
        seen[name] += 1
        found.append(f"{name}_{seen[name]}" if seen[name] > 1 else name)
    return found


def _items(items: Sequence[str], joint: str, indent: str) -> str:
    """A list, on one line if it is short, otherwise each item on a line."""
    line = f" {joint} ".join(items)
    return line if len(line) < 70 else f" {joint}\n{indent}".join(items)


def _pairs(pairs: dict[str, int], tail: str, indent: str) -> str:
    """A list of registers with their values."""
    cells = [f"({number}, {value:#x})" for number, value in sorted(pairs.items(), key=lambda it: int(it[0]))]
    return _items([*cells, tail], "∷", indent)


def _number(digits: str) -> int:
    """A vector register as a number; the digits have byte 0 first."""
    return int.from_bytes(bytes.fromhex(digits), "little")


def _vtype(number: int) -> str:
    if number == VILL:
        return "None"
    flags = ("true" if number >> bit & 1 else "false" for bit in (6, 7))
    return f"typed {SEWS[number >> 3 & 7]} {LMULS[number & 7]} {' '.join(flags)}"


def _control(keys: dict[str, object]) -> Iterator[str]:
    """The fields of control registers."""
    if "vl" in keys:
        yield f"vl = {keys['vl']}"
    if "vtype" in keys:
        yield f"vtype = {_vtype(int(str(keys['vtype']), 16))}"
    if "vstart" in keys:
        yield f"vstart = {keys['vstart']}"
    if "vxrm" in keys:
        yield f"vxrm = {MODES[int(str(keys['vxrm']))]}"
    if "vxsat" in keys:
        yield f"vxsat = {'true' if keys['vxsat'] else 'false'}"


def _before(vector: Vector) -> Iterator[str]:
    if vector.policy == "ones":
        yield "policy = Ones"
    start = {"vl": 0, "vtype": f"{VILL:x}", "vstart": 0, "vxrm": 0, "vxsat": 0}
    yield from _control({key: vector.keys[key] for key, value in start.items() if vector.keys[key] != value})
    if x := vector.keys.get("x"):
        yield f"x = {_pairs({k: int(v, 16) for k, v in x.items()}, '[]', ' ' * 10)}"
    if v := vector.keys.get("v"):
        yield f"v = {_pairs({k: _number(v) for k, v in v.items()}, '[]', ' ' * 10)}"


def _after(vector: Vector, indent: str) -> Iterator[str]:
    after = vector.after
    if (pc := int(after["pc"], 16)) != CODE:
        yield f"pc = {pc:#x}"
    yield from _control(after)
    if x := after.get("x"):
        yield f"x = {_pairs({k: int(v, 16) for k, v in x.items()}, 's.x', indent)}"
    if v := after.get("v"):
        yield f"v = {_pairs({k: _number(v) for k, v in v.items()}, 's.v', indent)}"


def _record(fields: Sequence[str], of: str, indent: str) -> str:
    """`of` with these fields; on one line if there is one short field."""
    if not fields:
        return of
    if len(fields) == 1 and "\n" not in fields[0] and len(fields[0]) < 70:
        return f"record {of} {{ {fields[0]} }}"
    return f"record {of} {{\n" + "".join(f"{indent}  {field};\n" for field in fields) + f"{indent}}}"


def _end(vector: Vector) -> str:
    if vector.end in ENDS:
        return ENDS[vector.end]
    return f"{FAULTS[vector.end]} 0x{vector.after['value']}"


def case_text(name: str, vector: Vector) -> str:
    """The definition of a case."""
    inner = "  " if is_store(vector) else ""
    before = _record([*_before(vector)], "start", "    ")
    after = _record([*_after(vector, " " * 12 + inner)], "s", f"      {inner}")
    case = f"""record {{
{inner}      word = 0x{vector.keys["word"]};
{inner}      before = s;
{inner}      end = {_end(vector)};
{inner}      after = {after};
{inner}    }}"""
    if is_store(vector):
        case = f"""record {{
      case = {case};
      bytes = {_items(_runs(vector), "++", " " * 10)};
      ranges = {_items([*(f"({at:#x}, {size})" for at, size in _ranges(vector)), "[]"], "∷", " " * 10)};
    }}"""
    reasons = "".join(f"-- {it}\n" for it in reasons_of(vector)) if vector.end == "ill" else ""
    return f"""-- {vector.keys["text"]}
{reasons}abbrev pub {name} : {"Stored" if is_store(vector) else "Case"}
{name} =
    let s : State = {before} in
    {case}
"""


# ---- memory

DATA = (range(0x20000, 0x22000), range(0x23000, 0x25000))
"""The mapped data."""
MARGIN, RUN = 16, 32  # bytes compared on both sides of a store; bytes of a run


def is_store(vector: Vector) -> bool:
    """Whether a case compares memory."""
    return vector.accesses_memory and bool(vector.word & 0x20)


def _runs(vector: Vector) -> list[str]:
    """The bytes that a store leaves, in runs."""
    found = list[str]()
    for address, digits in vector.after.get("memory", {}).items():
        data, start = bytes.fromhex(digits), int(address, 16)
        for at in range(0, len(data), RUN):
            part = data[at : at + RUN]
            found.append(f"run {start + at:#x} {len(part)} {int.from_bytes(part, 'little'):#x}")
    return found or ["[]"]


def _ranges(vector: Vector) -> list[tuple[int, int]]:
    """The addresses and sizes of the compared ranges: the changed bytes with a margin, and the bytes next to a fault."""
    spans = [(int(at, 16), len(digits) // 2) for at, digits in vector.after.get("memory", {}).items()]
    spans += [(int(vector.after["value"], 16), 1)] if "value" in vector.after else []
    places = sorted({it for at, size in spans for it in range(at - MARGIN, at + size + MARGIN) if _is_data(it)})
    starts = [at for at in places if at - 1 not in places]
    ends = [at for at in places if at + 1 not in places]
    return [(start, end - start + 1) for start, end in zip(starts, ends)]


def compared_size(vector: Vector) -> int:
    """The number of written bytes times that of compared ones: the size of a store's proof. 0 if memory isn't compared."""
    written = sum(len(digits) // 2 for digits in vector.after.get("memory", {}).values())
    return written * sum(size for _, size in _ranges(vector)) if is_store(vector) else 0


def _is_data(address: int) -> bool:
    return any(address in it for it in DATA)


# ---- the files of a module

VARIANTS = (
    ("Rattle.rv_model.specs.declared.vector.policy.Policy.TheVariants", ("Ones",)),
    ("Rattle.rv_model.specs.declared.vector.state.RoundingMode.TheVariants", MODES),
    ("Rattle.rv_model.specs.declared.vector.types.Lmul.TheVariants", tuple(filter(None, LMULS))),
    ("Rattle.rv_model.specs.declared.vector.types.Sew.TheVariants", SEWS),
    ("Rattle.test_definitions.specs.States", ("Case", "State", "start", "typed", *ENDS.values(), *FAULTS.values())),
    ("Rattle.test_definitions.specs.Memories", ("Stored", "run")),
)
PRELUDE = ("[]", "∷", "++", "true", "false", "None")


def _uses(text: str) -> Iterator[str]:
    """The lines `use` that a text of cases needs."""
    words = set(text.replace(";", " ").replace(")", " ").replace("(", " ").split())
    prelude = [{"∷": "◌∷◌", "++": "◌++◌"}.get(it, it) for it in PRELUDE if it in words]
    if prelude:
        yield f"use Rattle.std.specs.Prelude.{{{', '.join(prelude)}}}\n"
    for module, names in VARIANTS:
        if used := [it for it in names if it in words]:
            yield f"use {module}.{{{', '.join(used)}}}\n"


def specs_text(title: str, vectors: Sequence[Vector]) -> str:
    """The file of `specs` with the cases of a module."""
    cases = "\n".join(map(case_text, names_of(vectors), vectors))
    return f"-- {title}\n{''.join(_uses(cases))}\n{cases}"


def _law(vector: Vector) -> str:
    if not vector.accesses_memory:
        return "Agrees"
    return "StoreAgrees" if is_store(vector) else "LoadAgrees"


def source_text(title: str, crate: str, module: str, file: str, vectors: Sequence[Vector]) -> str:
    """The file of `src` whose function says that the cases of a module agree; module: its path in the crate, with dots."""
    function = f"{module.rpartition('.')[2]}_agree"
    names, laws = names_of(vectors), [_law(it) for it in vectors]
    uses = "".join(
        f"ghost use Rattle.{crate}.specs.{file}.{{{', '.join(names[at:at + 6])}}};\n" for at in range(0, len(names), 6)
    )
    states = "ghost use Rattle.test_definitions.specs.States.{Agrees};\n" if "Agrees" in laws else ""
    if of_memory := sorted({*laws} - {"Agrees"}):
        states += f"ghost use Rattle.test_definitions.specs.Memories.{{{', '.join(of_memory)}}};\n"
    clauses = "".join(f"    ensures {name} {{ {law} {name} }}\n" for name, law in zip(names, laws))
    return f"""//! {title}
{states}{uses}
/// The definition of a step agrees with QEMU on each of these cases.
pub fn {function}()
{clauses}{{}}
"""


PROOFS = {
    "Agrees": "agrees {} refl (λ m. refl)",
    "LoadAgrees": "load_agrees {} refl refl (λ m. refl) (λ m. refl)",
    "StoreAgrees": "store_agrees {} refl refl (λ m. refl) (λ m. refl) (λ m. refl) (λ m. refl)",
}
"""The proof of each law: both sides compute to the same."""


def proof_text(crate: str, module: str, file: str, vectors: Sequence[Vector]) -> str:
    """The proof of that function."""
    function = f"{module.rpartition('.')[2]}_agree"
    names, laws = names_of(vectors), [_law(it) for it in vectors]
    fields = "".join(f"      {name} = {PROOFS[law].format(name)};\n" for name, law in zip(names, laws))
    uses = "use Rattle.test_definitions.proofs.Steps.{agrees, execution}\n" if "Agrees" in laws else ""
    unfolded = ["execution"] if "Agrees" in laws else []
    if of_memory := [it for it in ("LoadAgrees", "StoreAgrees") if it in laws]:
        lemmas = ", ".join({"LoadAgrees": "load_agrees", "StoreAgrees": "store_agrees"}[it] for it in of_memory)
        uses += f"use Rattle.test_definitions.proofs.Accesses.{{execution_defined, {lemmas}}}\n"
        unfolded.append("execution_defined")
    return f"""use Rattle.std.proofs.Common.{{refl}}
use Rattle.{crate}.specs.{file}.{{{", ".join(names)}}}
{uses}use Rattle.{crate}.proofs.{module}.{function}.Goals as goal

pub returns : goal.returns
unfolding {" ".join(unfolded)}
returns c =
    record {{
{fields}    }}
"""
