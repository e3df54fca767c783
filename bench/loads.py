#!/usr/bin/env python3
"""How many calls a second `gnap load` makes at one state, by 1 to 64 workers.

    bench/loads.py [GRANTS]

For 1, 2, 4, 8, 16 and 64 workers, in turns: so many grants, 100,000 where no number is given. Printed are the best of eight runs and the median. Of each
grant there are five calls, and of each second one two more. The start of the program is counted in. The program is ./gnap, or the one that GNAP names.
"""

import os
import statistics
import subprocess
import sys
import time

WORKERS = (1, 2, 4, 8, 16, 64)
RUNS = 8


def told(grants):
    ended = (grants + 1) // 2
    return f"grants {grants} active {2 * grants} inactive {grants + ended} cancelled {ended}\n"


def time_of(program, grants, workers):
    start = time.perf_counter()
    done = subprocess.run([program, "load", str(grants), "7", str(workers)], stdout=subprocess.PIPE, text=True, check=True)
    took = time.perf_counter() - start
    if done.stdout != told(grants):
        raise SystemExit(f"not what a load has to tell: {done.stdout!r}")
    return took


def main():
    program = os.environ.get("GNAP", "./gnap")
    grants = int(sys.argv[1]) if len(sys.argv) > 1 else 100_000
    calls = 5 * grants + 2 * ((grants + 1) // 2)
    print(f"{os.cpu_count()} processors, {calls} calls")
    times = {workers: [] for workers in WORKERS}
    for _ in range(RUNS):
        for workers in WORKERS:
            times[workers].append(time_of(program, grants, workers))
    for workers, took in times.items():
        best, middle = calls / min(took), calls / statistics.median(took)
        print(f"{workers:3} workers: {best:,.0f} calls a second at best, {middle:,.0f} by the median", flush=True)


if __name__ == "__main__":
    main()
