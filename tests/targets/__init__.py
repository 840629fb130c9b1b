"""The programs for other processors and systems, in addition to the other folders' tests (`tools/checks/check_programs`).

- `test_native_program.py`: lines of LLVM for these targets, worked by hand, and the refusals of a build;
- `test_small_modules.py`: a small module, built for each target and run;
- `test_process.py`: the C code that is linked to the programs, compared with the kit's own.
"""
