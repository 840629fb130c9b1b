"""Loops of one kind of instruction, and kernels: their results, and scripts with which a loop is measured from
outside.

- `data/loops`: each loop: a line with its name, the assembler's text of its instructions, one a line, of
  a loop that goes round until x9 is 0, and a line without text. A loop of one kind has sixteen equal instructions,
  with elements of 8 or 64 bits, in groups of one register or eight, masked or not. The last four are kernels as they
  are written by hand: the length of a string of 1,000 bytes, a copy of as many, three times 250 numbers added to
  others, and the product of two matrices of 16 rows of 16 numbers;
- `data/before`: a user's commands that map the pages, fill them and set the registers: x5 is the most elements, x7 is
  24, x8 is 3, and x10, x11 and x12 are the addresses of pages;
- `data/after`: the commands whose answers are summed: registers, vector registers and data;
- `stdout`: a line for each loop with its name and the checksum, as QEMU leaves it after three turns.

At the top of the repository,

    python3 -m tests.instruction_loops LOOP COUNT > /tmp/loop

writes the script of a loop that goes round COUNT times, for `vecmon --quantum 1000 /tmp/loop`; `all` is every loop, one
after another. The difference of the machine instructions that two counts take is that of their turns.
"""
