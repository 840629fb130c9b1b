"""128-bit shifts and products of webassembly/runtime.c, compiled as tools/building/programs does and run by node, against Python's
integers."""

import json
import random
import shutil
import subprocess
from collections.abc import Iterator
from pathlib import Path

import pytest

from tests.program import TOP
from tests.webassembly.tools import load

SEED, CASES = 7, 2_000
SHIFTS = ("__ashlti3", "__lshrti3", "__ashrti3")
FUNCTIONS = (*SHIFTS, "__multi3")
WORDS = (0, 1, 2, 0x7FFF_FFFF, 0xFFFF_FFFF, 1 << 32, 1 << 63, (1 << 64) - 1)
MASK = (1 << 128) - 1
LINKER = "wasm-ld-19"

# Calls each function with the operands that standard input has, and prints the results. An i128 is two i64; a result is written to memory.
CALLS = """
import { readFileSync } from "node:fs";
const imports = { env: { __original_main: () => 0 } }; // which these functions don't call
const module = new WebAssembly.Module(readFileSync(process.argv[2]));
const { exports } = new WebAssembly.Instance(module, imports);
const [place, half] = [64, (1n << 64n) - 1n];
const results = JSON.parse(readFileSync(0, "utf8")).map(([name, left, right]) => {
  const [a, b] = [BigInt(left), BigInt(right)];
  const others = name === "__multi3" ? [b & half, b >> 64n] : [Number(b)];
  exports[name](place, a & half, a >> 64n, ...others);
  const memory = new DataView(exports.memory.buffer);
  return `${memory.getBigUint64(place, true) | (memory.getBigUint64(place + 8, true) << 64n)}`;
});
console.log(JSON.stringify(results));
"""

pytestmark = pytest.mark.skipif(not all(map(shutil.which, (LINKER, "node"))), reason="lld-19 or node isn't installed")


def compiler() -> list[str]:
    """The compiler of webassembly/runtime.c with its options, as tools/building/wasm_program.py has them."""
    tool = load("wasm_program")
    return [f"{tool.installed_kit()}/toolchain/bin/clang", *tool.CLANG, *tool.RUNTIME]


def operands() -> Iterator[tuple[str, int, int]]:
    """Functions and operands: the words at the edges in both halves, and random ones; shifts by each count below 128."""
    draws = random.Random(SEED)
    edges = [low | high << 64 for low in WORDS for high in WORDS]
    for left in edges:
        yield "__multi3", left, draws.choice(edges)
    for count in range(128):
        for name in SHIFTS:
            yield name, draws.choice(edges), count
            yield name, draws.getrandbits(128), count
    for _ in range(CASES):
        yield "__multi3", draws.getrandbits(draws.randint(1, 128)), draws.getrandbits(draws.randint(1, 128))


def expected(name: str, left: int, right: int) -> int:
    """The result by Python's integers."""
    if name == "__multi3":
        return left * right & MASK
    if name == "__ashrti3":
        return (left - (left >> 127 << 128)) >> right & MASK
    return left >> right if name == "__lshrti3" else left << right & MASK


def results(folder: Path, source: str, cases: list[tuple[str, int, int]]) -> list[int]:
    """What the functions of a runtime with this source give."""
    code, program, module = folder / "runtime.c", folder / "runtime.o", folder / "runtime.wasm"
    code.write_text(source, encoding="utf-8")
    subprocess.run([*compiler(), code, "-o", program], check=True)
    exports = [f"--export={name}" for name in FUNCTIONS]
    subprocess.run(
        [LINKER, "--no-entry", "--gc-sections", "--allow-undefined", *exports, program, "-o", module], check=True
    )
    calls = folder / "calls.mjs"
    calls.write_text(CALLS, encoding="utf-8")
    asked = json.dumps([(name, str(left), str(right)) for name, left, right in cases])
    done = subprocess.run(["node", calls, module], input=asked, capture_output=True, text=True, check=True)
    return [int(it) for it in json.loads(done.stdout)]


def test_shifts_and_products_equal_those_of_python(tmp_path: Path) -> None:
    source = (TOP / "webassembly/runtime.c").read_text(encoding="utf-8")
    cases = list(operands())
    given = results(tmp_path, source, cases)
    assert [case for case, it in zip(cases, given, strict=True) if it != expected(*case)] == []


@pytest.mark.parametrize(
    ("right", "wrong"),
    [
        ("(middle >> 32) + (other >> 32)", "(middle >> 32)"),
        ("of.half.low >> (64 - count)", "of.half.low >> (63 - count)"),
        ("of.half.high >> (count - 64)", "of.half.high >> (count - 63)"),
        ("high >> 63", "0"),
    ],
)
def test_planted_mistake_is_found(tmp_path: Path, right: str, wrong: str) -> None:
    source = (TOP / "webassembly/runtime.c").read_text(encoding="utf-8")
    assert source.count(right) == 1
    cases = list(operands())
    given = results(tmp_path, source.replace(right, wrong), cases)
    assert [case for case, it in zip(cases, given, strict=True) if it != expected(*case)]
