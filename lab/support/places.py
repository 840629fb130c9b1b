"""Where things lie in the repository."""

import pathlib

TOP = pathlib.Path(__file__).resolve().parents[2]
DOCS = TOP / "docs"
EXAMPLES = TOP / "lab" / "examples"
DATA = TOP / "lab" / "tests" / "data"
TOURS = TOP / "lab" / "vecmon_lab" / "lessons" / "tours"
SCRIPTS = TOP / "tests" / "command_lines" / "data"
STOCK = SCRIPTS / "images"
SUM, SQUARES, SORT = STOCK / "sum", STOCK / "squares", TOP / "crates" / "test_images" / "data" / "sortgcc"
# By the commands of docs/COMPILING.md and -ffile-prefix-map; clang with -gdwarf-4 or -g, gcc with -g and without -s.
SUM_DWARF4, SUM_DWARF5, SQUARES_DWARF5 = (
    DATA / "images" / name for name in ("sum_dwarf4", "sum_dwarf5", "squares_dwarf5")
)
# So too, by clang 19 and by gcc 12.2 (riscv64-linux-gnu, -march=rv64im_zicsr), with -O2 and -gdwarf-4 or -gdwarf-5, together with the
# lab's runtime.c: functions that are inlined, and two functions of one name.
PREFIX_SUMS = [DATA / "images" / f"prefix_sums_dwarf{version}" for version in (4, 5)]
TOTAL = [DATA / "images" / f"total_dwarf{version}" for version in (4, 5)]
NAMESAKES = DATA / "images" / "namesakes_dwarf5"
