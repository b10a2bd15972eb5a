#!/usr/bin/env python3
"""Times waiting on an arena beside the same in plain Rust: waits.py [TASK ..]

Run it at the top of the repository after `rt run` has built crates/wait_times/out/wait_times. Hand-overs by two threads and
permits shared by four stand beside std's Mutex and Condvar, a look for one turn beside std's load. It prints the medians and
their ratios, checks that both leave the same values, and adds rows to bench/results.csv. `sleep` is a waiter that waits for a
second; the script stops with status 1 where that takes a tenth of a second of processor time or more.
"""
import sys
import tempfile
from pathlib import Path

import measure

PROGRAM = measure.TOP / "crates/wait_times/out/wait_times"
# how often each thread does it; of `sleep`, the milliseconds
TIMES = {"to_and_fro": 50_000, "permits": 200_000, "look": 50_000_000, "sleep": 1000}
MOST_SLEEP_CPU = 100


def main() -> None:
    measure.need(PROGRAM, "cd crates/wait_times && rt run")
    with tempfile.TemporaryDirectory() as folder:
        launcher = measure.build_launcher(Path(folder))
        peer = measure.build_peer(Path(folder), "waits_peer.rs")
        for task in sys.argv[1:] or TIMES:
            words = [task, str(TIMES[task])]
            ours, theirs, checksum = measure.in_turns(launcher, [PROGRAM, *words], [peer, *words], task)
            measure.keep("results.csv", measure.COLUMNS, measure.compared(f"wait_{task}", 0, checksum, ours, theirs))
            if task == "sleep" and measure.median(ours, "cpu") >= MOST_SLEEP_CPU:
                sys.exit("a waiter that waits for a second takes a tenth of a second of processor time or more")


main()
