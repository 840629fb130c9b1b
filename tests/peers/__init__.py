"""Comparisons of `vecmon` with other tools: QEMU, GNU binutils and LLVM, of Debian's packages.

- `instructions`: single instructions in random states, executed by `vecmon` and by QEMU in user mode, and compared
  register by register, with the memory, the fault and its value;
- `encodings`: `vecmon`'s assembler and disassembler compared with `as` and `objdump` of GNU binutils, and with
  `llvm-mc`, for each name of docs/INSTRUCTIONS.md and for random words;
- `programs`: random programs whose registers and memory are summed after each ten instructions, on QEMU.

With the packages (`tools/building/debian_packages peers`), at the top of the repository:

    .venv/bin/python -m tests.peers                    all comparisons, in their full size, on all cores
    .venv/bin/python -m tests.peers encodings --seed 5 one of them, with other words

VECMON names the program, as for all tests. A comparison prints how many cases agree, how many are left out and why, and
each case that differs; the exit status is 1 if one differs. A case is left out if the other tool differs for a known
reason. `reason_of` in `instructions.py` and the constants in `encodings.py` list the reasons, and docs/GOLDEN_VECTORS.md
explains those of QEMU. Any other difference counts.

`test_peers.py` runs a sample of each comparison, and shows that each of them finds one planted error.
"""
