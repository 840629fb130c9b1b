"""The WebAssembly modules, in addition to the other folders' tests (`tools/checks/check_programs --target wasm32`).

- `python3 -m tests.webassembly` prints what a program answers to eight users: a sample of tests/isolation;
- `suspended.mjs` runs a script whose lines arrive one at a time, with the program suspended in each read;
- `test_retarget.py`, `test_binary.py`: the results of two tools for lines of LLVM and for a module's bytes, worked by hand.
"""
