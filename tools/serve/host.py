"""How fast this machine is at the moment, and how loaded it was: figures of different moments are
compared by these."""

import os
import time

ROUNDS = 5_000_000


def tell_host(when):
    """The load, and how long Python takes for a loop that does nothing, of five million rounds: by
    the clock, and of the processor."""
    load = os.getloadavg()[0]
    clock, processor = time.perf_counter(), time.process_time()
    for _ in range(ROUNDS):
        pass
    clock, processor = time.perf_counter() - clock, time.process_time() - processor
    print(
        f"{when}: load of the last minute {load:.2f}; a loop of five million rounds of Python takes"
        f" {clock:.3f} s, {processor:.3f} of the processor",
        flush=True,
    )
