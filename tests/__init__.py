"""Tests of the built programs `vecmon` and `vecmon-record` from outside: words and scripts go in, and what comes out is compared with what
was stored.

- `command_lines`: one command line after another, and the pages of docs/ that show what is answered;
- `instruction_loops`: the results of loops of one kind of instruction, and how to measure them;
- `isolation`: programs in slices of each length; eight users on one machine compared with eight private machines;
- `peers`: single instructions, encodings and programs, compared with QEMU, GNU binutils and LLVM;
- `recordings`: the recorder's counts, compared with counts by hand, the monitor's steps and QEMU's counts.

With the program built (`rt run < stdin` in crates/vecmon) and the packages of `lab/setup`, at the top of the
repository:

    .venv/bin/python -m pytest tests
    VECMON=/tmp/other/vecmon .venv/bin/python -m pytest tests

The variable VECMON names the program; without it, it is crates/vecmon/out/vecmon. Its file has to be called `vecmon`,
since its help and its messages have the name that it is called by; VECMON_RECORD names `vecmon-record`, else it is in
the same folder. `tools/test` runs all on a program that is built
without its proofs, and then on the proved one, as LLVM builds it and as Rattle's own compiler does. What is stored
was worked out without the program, but for counts of how much was compared; no test writes it.
"""
