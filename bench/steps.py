#!/usr/bin/env python3
"""Times additions of one step each on an arena, and as many on a plain atomic word in Rust.

Run it at the top of the repository after `rt run` has built crates/arena_times/out/arena_times. It prints the medians
and their ratios, checks that both write the same value, and adds a row to bench/results.csv.
"""
import hashlib
import sys
import tempfile
from pathlib import Path

import measure

PROGRAM = measure.TOP / "crates/arena_times/out/arena_times"
ADDITIONS = 50_000_000


def main() -> None:
    measure.need(PROGRAM, "cd crates/arena_times && rt run")
    with tempfile.TemporaryDirectory() as folder:
        launcher = measure.build_launcher(Path(folder))
        peer = measure.build_peer(Path(folder), "steps_peer.rs")
        nothing = Path("/dev/null")
        ours, theirs = [], []
        for _ in range(measure.RUNS):
            ours.append(measure.done(launcher, [PROGRAM, str(ADDITIONS)], nothing))
            theirs.append(measure.done(launcher, [peer, str(ADDITIONS)], nothing))
    if len({one.written for one in ours + theirs}) != 1:
        sys.exit("the values differ")
    value = ours[0].written
    checksum = hashlib.sha256(value).hexdigest()[:16]
    measure.keep("results.csv", measure.COLUMNS, measure.compared("one_step_additions", 0, checksum, ours, theirs))


main()
