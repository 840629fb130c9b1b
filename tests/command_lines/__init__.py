"""The output of the program in stored runs: pages that show it, and the program on one command line after another.

- `data/`: templates of pages (`*.page`), command lines (`lines`), and the scripts and images that both run; the program
  runs there;
- `stdin`: the standard input of each command line;
- `expected/pages/NAME`: the expected text of each page;
- `expected/lines/SCRIPT`: the expected records of the command lines that run `data/SCRIPT`, in the order of `data/lines`.
  A record is the standard output, and a line with the exit status, the arguments and the standard error, if there is
  any. `usage` has the command lines without a script. `recorded/script` is a folder: its files are the parts of one
  transcript, each of at most 120 kB.

`data/manual` is the examples of docs/COMMANDS.md. `data/recorded/script` has each refusal, users side by side, traces,
texts of instructions and what a line means as a command; then the output of programs; then images that are loaded or
refused, and a pool that eight users fill; then values of scalar instructions, vector lengths and types, and the
manual's rules for registers that may be named together, at small examples; and then single instructions as QEMU
executes them at VLEN 256, and small programs with answers worked out by hand; then programs that run in slices, with
breakpoints, output and an instruction that is cut, side by side and each by itself; and last vector instructions under the
policy that makes agnostic elements ones, as QEMU executes them.

`data/accesses_in_parts` has each kind of vector load and store, whole and cut into slices of a few ticks: where the
first slice leaves it, how many slices are left, and then the registers or the bytes, with their neighbours.
`data/stopped_accesses` has the same of loads and stores that come to the end of memory, and `data/write_calls` what
calls write and return. `data/own_word_behind_a_fault` has a store that faults before the index that is to hit its own
word: it is the same in slices of 4 and of 12 ticks, worked out by hand. `data/stored_word_is_fetched_next` has programs that
store over their next instruction, by each width and across a page, and one that counts in an instruction: what is fetched
is what was stored, worked out by hand.

Two tests take no stored output: a program's lines are the same however its ticks are divided into slices, and where each
instruction by name is poked as the word that `asm` answered (`words.py`).
"""
