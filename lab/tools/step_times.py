"""Measure steps of a page's core, as the server and the playground do them: `VECMON=PATH .venv/bin/python lab/tools/step_times.py 8|256 [STEPS]`.

Each step is one of a loop with vector instructions of 8 elements (e32, m1) or 256 elements (e8, m8): the request, the machine, and the
answer in JSON. Under `valgrind --tool=cachegrind --cache-sim=no` the difference of two numbers of steps gives the instructions of the core
without the machine's. To measure another version, start the script with that version's `lab` as PYTHONPATH.
"""

import gc
import json
import sys
import time

from support.desk import Desk
from vecmon_lab.machine.program import find_program

WARM_UP = 40  # steps before those that are measured
LOOP = """
        la a0, numbers
        li t1, 100
        li t2, {elements}
loop:   vsetvli t0, t2, {type}, ta, ma
        vle{width}.v v8, (a0)
        vadd.vv v16, v8, v8
        vmul.vv v24, v16, v8
        vmslt.vx v0, v24, t1
        vmacc.vx v16, t1, v8, v0.t
        vslideup.vi v24, v8, 2
        vredsum.vs v8, v16, v24
        vse{width}.v v16, (a0)
        addi t1, t1, -1
        bnez t1, loop
        ebreak
        .data
numbers: .byte 1, 2, 3, 4, 5, 6, 7, 8
        .zero 248
"""
SOURCES = {
    "8": LOOP.format(elements=8, type="e32, m1", width=32),
    "256": LOOP.format(elements=256, type="e8, m8", width=8),
}


def main() -> None:
    """Print the processor time of the steps, and the size of their answers."""
    source, steps = SOURCES[sys.argv[1]], int(sys.argv[2]) if len(sys.argv) > 2 else 200
    desk = Desk(find_program(), {}, limit=100_000)
    desk.respond(json.dumps({"id": 1, "ask": "source", "text": source}))
    request, size = json.dumps({"id": 1, "ask": "step", "count": 1}), 0
    for _ in range(WARM_UP):
        desk.respond(request)
    gc.collect()
    gc.disable()
    start = time.process_time()
    for _ in range(steps):
        size += len(json.dumps(desk.respond(request), separators=(",", ":")))
    seconds = time.process_time() - start
    print(f"{steps} steps: {1000 * seconds:.0f} ms of processor, {size // max(1, steps):,} bytes of JSON a step")
    desk.close()


if __name__ == "__main__":
    main()
