"""Generated programs and scripts: each runs in two ways, and both must print the same.

`slicing.py` runs programs of vector loads and stores in slices of each length from one tick to 64, with breakpoints and
faults on the way, on generated registers and memory. A page that a stopped program lacks is mapped after some
stops, and the program goes on after each. So an instruction is cut at each of its ticks. All answers to a user are
compared with those of slices of one tick: to the program's end, and after each number of ticks up to 64.

`mixing.py` has eight users at one machine, and the same eight at machines of their own. Each user has a generated
script: visits with images, pages, programs and words of code, in which registers, vector registers and memory are
written and shown, and programs go on in steps and in slices, stop and fault. The scripts are mixed by chance, a line at
a time, and an operator grants slices in between, in turn and out of turn. The private machines determine
whose turn it is, one slice at a time; the answers of the one machine to the whole script are compared with theirs.
`hostile.py` does the same for rounds of eight users of whom nobody acts in good faith: each has a script of 80
generated lines, of each command with arguments at their limits and past them, of no command, of no text, of nobody, or
too long.

- `data/grammar`: the rules of programs, scripts and lines (`grammar.py`), by the numbers of a fixed generator
  (`draws.py`);
- `data/start`, `data/everything`, `data/leaving`: commands before hostile lines, and those that show what a user has;
- `data/kinds`: how the lines begin by which answers are counted;
- `data/good`, `data/short`, `data/sortgcc`: images;
- `stdout`: how much was compared. A line for each program has how many runs were compared, how many slices all runs
  took, and how often the program stopped in them and how often by a fault. A line for each length of slices has how
  many commands and slices there were, and a line for the hostile scripts the same; the latter has also how many
  commands came while their user was absent, stopped or running, of all that there are. Then comes how many lines of
  each kind were answered.

A difference ends a test, with the lines where it is. At the top of the repository,

    python3 -m tests.isolation ROUNDS

does all of it with ROUNDS rounds of hostile scripts, and prints the same lines; the stored ones have 100.
"""
