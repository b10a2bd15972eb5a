#!/usr/bin/env python3
"""Times typed calls on an arena beside the same calls in plain Rust: calls.py [CALL ..]

Run it at the top of the repository after `rt run` has built crates/call_times/out/call_times. Additions, nands
and updates stand beside std's atomics; calls on a u128 beside the steps of the sequence lock written by hand, and beside
GCC's libatomic (Debian's gcc has it). Each is made on one, two and four threads. It prints the medians and their ratios,
checks that both leave the same values, and adds rows to bench/results.csv.
"""
import subprocess
import sys
import tempfile
from pathlib import Path

import measure

PROGRAM = measure.TOP / "crates/call_times/out/call_times"
CALLS = {
    "typed_add": ["std"],
    "served_add": ["std"],
    "typed_nand": ["std"],
    "wide_load": ["hand", "libatomic"],
    "wide_store": ["hand", "libatomic"],
    "wide_add": ["hand", "libatomic"],
    "typed_update": ["std"],
    "raise_update": ["std"],
}
# calls of a thread, on one, two and four threads
TIMES = {1: 20_000_000, 2: 4_000_000, 4: 2_000_000}


def build_peer(folder: Path) -> Path:
    peer = folder / "peer"
    found = subprocess.run(["gcc", "-print-file-name=libatomic.so"], check=True, capture_output=True, text=True)
    library = Path(found.stdout.strip()).resolve().parent
    source = measure.TOP / "bench/calls_peer.rs"
    subprocess.run(["rustc", "--edition", "2021", "-O", "-L", library, "-o", peer, source], check=True)
    return peer


def main() -> None:
    measure.need(PROGRAM, "cd crates/call_times && rt run")
    with tempfile.TemporaryDirectory() as folder:
        launcher = measure.build_launcher(Path(folder))
        program = build_peer(Path(folder))
        for call in sys.argv[1:] or CALLS:
            for peer in CALLS[call]:
                for threads, times in TIMES.items():
                    words = [call, str(threads), str(times)]
                    own, other = [PROGRAM, *words], [program, peer, *words]
                    ours, theirs, checksum = measure.in_turns(launcher, own, other, call)
                    name = f"{call}_{threads}_{peer}"
                    measure.keep("results.csv", measure.COLUMNS, measure.compared(name, 0, checksum, ours, theirs))


main()
